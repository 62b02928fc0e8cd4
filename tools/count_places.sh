#!/usr/bin/env bash
# Counts the places of the design pass's eight points in crates/*/src/*.rt, by plain grep and awk: a finder for the eye, which finds more than is meant and misses what
# has no form of its own. Run at the top of a checkout, at any commit; with --short the counts alone. One command a line of the list; each hit is file:line and the text.
set -u
export LC_ALL=C.UTF-8
[ -d crates ] || { echo "count_places.sh: no crates/ here" >&2; exit 2; }
short=${1:-}
src=$(ls crates/*/src/*.rt crates/*/src/*/*.rt 2>/dev/null)

# LABEL: prints the count and the hits that come in
show() {
    hits=$(cat)
    count=$(printf '%s' "$hits" | grep -c '' || true)
    echo "$1: $count"
    [ "$short" = --short ] || [ "$count" = 0 ] || printf '%s\n' "$hits" | cut -c1-220 | sed 's/^/    /'
}
# lines of code that match, comments left out
code() { grep -nHE "$@" $src | grep -vE '^[^:]*:[0-9]+: *//'; }
# the same in comments
said() { grep -nHE "^ *//.*($1)" $src; }
# each function as one line: file:line <tab> signature <tab> clauses <tab> body
functions() {
    awk '
    function flush() { if (name != "") print at "\t" sig "\t" clauses "\t" body; name = "" }
    FNR == 1 { flush(); inside = 0 }
    /^ *\/\// { next }
    /^ *(pub )?(extern "C" )?fn [a-z_0-9]+/ {
        flush(); at = FILENAME ":" FNR; name = $0; sig = ""; clauses = ""; body = ""; inside = 1; part = "sig"
        match($0, /^ */); indent = RLENGTH
    }
    !inside { next }
    part == "sig" && /^ *(requires|ensures) / { part = "clauses" }
    part != "body" && ($0 ~ /^ *\{$/) { part = "body" }
    {
        line = $0; gsub(/^ +| +$/, "", line); sub(/ \/\/ .*$/, "", line)
        if (part == "sig") { sig = sig " " line; if (line ~ /\{$/) part = "body" }
        else if (part == "clauses") clauses = clauses " " line
        else body = body " " line
        match($0, /^ */)
        if (part == "body" && RLENGTH == indent && $0 ~ /^ *\}/) { inside = 0 }
        if (part == "body" && sig ~ /\{.*\}$/ ) inside = 0
    }
    END { flush() }' $src
}
all=$(mktemp) && trap 'rm -f "$all"' EXIT
functions >"$all"

echo "commit: $(git log -1 --format='%h %s' 2>/dev/null); functions: $(grep -c '' "$all"); lines: $(cat $src | wc -l)"

echo; echo "== 1. Own Option and Result, a flag with a value beside it, numbers for kinds and for none"
# enums: two cases of which one holds a value and one does not; or a case named for a refusal or an end
awk '
    FNR == 1 { on = 0 }
    /^ *(pub )?enum [A-Z]/ { on = 1; at = FILENAME ":" FNR; n = split($0, w, /enum /); head = w[2]; bare = full = fails = 0; deep = 0; sub(/ \{.*/, "", head); next }
    on && /^\}/ {
        why = ""
        if (bare == 1 && full == 1) why = "as Option"
        if (fails) why = why (why == "" ? "" : ", ") "as Result (a case " fails ")"
        if (why != "") print at ": enum " head ": " why
        on = 0
    }
    on && /^    [A-Z][A-Za-z]*/ {
        c = $0; sub(/^ +/, "", c); sub(/[^A-Za-z].*/, "", c)
        if ($0 ~ /[({]/) full++; else bare++
        if (c ~ /^(Refused|Over|Failed|Error|Wrong)$/) fails = c
    }' $src | show "1a enums of the shape of Option or Result"
awk '
    FNR == 1 { on = 0 }
    /^ *(pub )?struct [A-Z].*\{/ { on = 1; name = $0; sub(/.*struct /, "", name); sub(/[^A-Za-z].*/, "", name) }
    on && /^\}/ { on = 0 }
    on && /: bool,/ { f = $0; gsub(/^ +|,.*/, "", f); print FILENAME ":" FNR ": " name ": " f }' $src | show "1b flags in a struct, beside the values that they speak of"
# runs of three numbered constants or more, of one type
awk '
    function flush() { if (n >= 3) print at ": " n " constants: " list; n = 0; list = "" }
    FNR == 1 { flush(); type = "" }
    /^ *$/ || /^ *\/\// { next }
    /^ *(pub )?const [A-Z_0-9]+: (usize|u64|u32|u16|u8) = [0-9x]+;/ {
        t = $0; sub(/.*: /, "", t); sub(/ =.*/, "", t); v = $0; sub(/.*const /, "", v); sub(/:[^=]*=/, " =", v); sub(/;.*/, "", v)
        if (t != type) flush()
        if (n == 0) at = FILENAME ":" FNR
        type = t; n++; list = list (n > 1 ? ", " : "") v; next
    }
    { flush(); type = "" }
    END { flush() }' $src | show "1c runs of numbered constants (kinds, refusals, places of a count; some are plain sizes)"
code 'const (NO_|NONE|UNCLASSED|UNKNOWN|PASSED|REFUSED|MISSING)[A-Z_]*: (usize|u64|u16|u8|\[)' | show "1d constants that stand for none"
said '256 (where|if)|[ ,]or (n|256)( if|\.|$| where)|or none|stands? for (no|none)|0 for none|, or n\.|0 where (it|there)|number that no|nothing agrees with this|one that is neither' | show "1e comments that give a number for none"
code '(^ +(MOST_JOBS|NONE|NO_CLASS|NO_PARTNER)$)|(return (MOST_JOBS|NONE|NO_CLASS|NO_PARTNER);)|^ +return usize::MAX;|return 9000;' | show "1f places that answer a number for none"
code '(== |!= |<= |< )(MOST_JOBS|NONE|NO_PARTNER|NO_CLASS)\b|\b(MOST_JOBS|NO_PARTNER) <= ' | show "1g tests for such a number (tests of a bound are among them)"
code '(Refused|Alone|alone|with_two|WithTwo|WithOne)\((number|[0-9]+|[A-Z_]+)[,)]|number (==|!=) ' | show "1h refusals told by a number"

echo; echo "== 2. Twins: functions whose text is the same but for names and numbers (60 characters or more)"
awk -F'\t' '
    {
        b = $4; if (length(b) < 60) next
        gsub(/b"([^"\\]|\\.)*"/, "S", b)
        gsub(/[0-9]+(u64|usize|u8|u16)?/, "0", b)
        out = ""
        while (match(b, /[A-Za-z_][A-Za-z_0-9]*/)) {
            w = substr(b, RSTART, RLENGTH)
            out = out substr(b, 1, RSTART - 1) (w ~ /^(if|else|for|in|while|loop|let|mut|match|return|break|continue|true|false|as|S)$/ ? w : "x")
            b = substr(b, RSTART + RLENGTH)
        }
        key = out b
        n = $2; sub(/.*fn /, "", n); sub(/[(<].*/, "", n)
        list[key] = list[key] (many[key]++ ? "; " : "") $1 " " n
    }
    END { for (k in many) if (many[k] > 1) print many[k] " alike: " list[k] }' "$all" | sed 's|crates/||g' | sort -rn | show "2a groups of functions alike"
code '(&|\(\*)?super::plain::|fn [a-z_]+_(free|pinned|few|small|large|ten|nine|long|minus|both|left|right)\(' | grep -E 'fn ' | show "2b names of pairs (.._ten/_nine, _small/_large, _both/_minus, _long, _left/_right)"

echo; echo "== 3. Loops that count an index by hand"
awk '
    FNR == 1 { v = "" }
    /^ *while ([a-z_]+ <|0 < [a-z_]+)/ { l = $0; sub(/^ *while /, "", l); v = l; sub(/^0 < /, "", v); sub(/[^a-z_].*/, "", v); at = FILENAME ":" FNR; text = l; left = 12; next }
    v != "" && left-- > 0 { if ($0 ~ "^ *" v " [-+]= 1;") { print at ": while " text; v = "" } }' $src | show "3a while with a counter"
code 'for [a-z_]+ in .*len\(\) \{' | show "3b for over the indices of a slice"
awk '
    FNR == 1 { v = "" }
    /^ *for [a-z_]+ in .*\.\..* \{/ {
        l = $0; gsub(/^ +/, "", l); v = l; sub(/^for /, "", v); sub(/ in .*/, "", v); match($0, /^ */); d = RLENGTH; at = FILENAME ":" FNR; text = l; hit = 0
        if (l ~ /len\(\) \{/) v = ""
        next
    }
    v != "" {
        match($0, /^ */)
        if (RLENGTH <= d && $0 ~ /\}/) { if (hit) print at ": " text; v = ""; next }
        if ($0 ~ ("\\[([^]]*[^a-z_])?" v "([^a-z_][^]]*)?\\]") || $0 ~ ("(get|word_at|get_at|byte_at|number_at|noted)\\([^)]*[ ,(]" v "\\)")) hit = 1
    }' $src | show "3c for over numbers that reads or writes a place by the number (4a and 6 have some of them)"
code 'rest = rest & \(rest - 1\)|rest &= (self\.)?rest - 1' | show "3d cursors through the bits of words, by hand"
code '\[(3|2 \* [A-Z_]+|3 \* [A-Z_]+)\]|, 192\)|192 \+' | show "3e words gone through by hand, to the fourth"
code 'without_lowest\(\);' | show "3f loops that take the lowest job off a set"

echo; echo "== 4. Equality, order, copying, conversion, printing by hand"
code 'fn (is_)?(same|equal|differ)[a-z_]*\(' | show "4a functions of equality"
code '([a-z_]+)\.([a-z_]+) != [a-z_]+\.\2' | show "4b fields compared one by one"
code '^ +[a-z_]+\[[^]]*\] = [a-z_]+\[[^]]*\];|fn copy\(' | show "4c elements copied one by one"
code '^ +([a-z_]+): [a-z_]+\.\1,$' | show "4d fields of a struct copied one by one"
code 'fn (of_[a-z]+|wide|numbers_of|told|words_of|rows_of|set_of|from_words|store|widen|narrow)\(' | show "4e conversions"
code '%[ ]?256\) as u8|256 \*|/ 256|4294967296|18446744073709551615' | show "4f numbers laid out in bytes, or a largest number, by hand"
code 'fn (smaller|larger|fewer|distance|plus|minus|one_if)\(|48 \+ ' | show "4g what std has (min, max, saturating_sub, abs_diff, from(bool), digits)"
code 'fn (text|number|spaced|long|spaced_long|words|refusal|field|put_byte|put_word|put_number|put_next|put_line|print_[a-z]+|say_[a-z]+)[<(]' | show "4h functions of printing"
code 'text\([^)]*b"' | show "4i calls that print a byte string"
awk '/^ *#\[derive\(Clone, Copy\)\]$/ { getline n; print FILENAME ":" FNR ": " n }' $src | show "4j types that derive Clone and Copy alone"
awk -F'\t' '{ b = $4; if (b ~ /if [^{}]* \{ return (false|true); \} *(if [^{}]* \{ return (false|true); \} *)+/) { n = $2; sub(/.*fn /, "", n); sub(/[(<].*/, "", n); print $1 ": " n } }' "$all" | show "4k one boolean as a row of returns (&& or || or matches!)"

echo; echo "== 5. Facts and parameters that go together"
awk '
    FNR == 1 { split(FILENAME, p, "/"); crate = p[2] }
    /^ *requires / { c = $0; sub(/^ *requires ([a-z_0-9]+ )?\{ /, "", c); sub(/ \}$/, "", c); key = crate ": " c; many[key]++; if (many[key] == 1) at[key] = FILENAME ":" FNR }
    END { for (k in many) if (many[k] >= 3) print many[k] " times: " k " (first " at[k] ")" }' $src | sort -rn | show "5a requires that stand three times or more in a crate"
awk '
    FNR == 1 { split(FILENAME, p, "/"); crate = p[2] }
    /^ *requires / {
        c = $0; sub(/^ *requires ([a-z_0-9]+ )?\{ /, "", c); sub(/ \}$/, "", c); m = split(c, f, / × /)
        for (i = 1; i <= m; i++) { x = f[i]; if (x ~ /^\(.*\)$/) { sub(/^\(/, "", x); sub(/\)$/, "", x) } gsub(/\.(old|now|entry)/, "", x); many[crate ": " x]++ }
    }
    END { for (k in many) if (many[k] >= 3) print many[k] " times: " k }' $src | sort -rn | show "5b facts in requires that stand three times or more in a crate (.old and .now taken as one)"
awk -F'\t' '
    {
        split($1, p, "/"); crate = p[2]; s = $2
        if (!match(s, /\(.*\)/)) next
        s = substr(s, RSTART + 1, RLENGTH - 2); sub(/\) *->.*/, "", s)
        m = split(s, a, /, /); k = 0
        for (i = 1; i <= m; i++) { x = a[i]; gsub(/^ +| +$|,$/, "", x); gsub(/mut /, "", x); if (x ~ /^[a-z_]+: / && x !~ /^(rt|out):/) q[++k] = x }
        for (i = 1; i < k; i++) for (j = i + 1; j <= k; j++) { x = q[i]; y = q[j]; many[crate ": " (x < y ? x ", " y : y ", " x)]++ }
    }
    END { for (k in many) if (many[k] >= 3) print many[k] " signatures: " k }' "$all" | sort -rn | show "5c pairs of parameters in three signatures or more of a crate"
awk -F'\t' '
    {
        split($1, p, "/"); crate = p[2]; s = $2
        if (!match(s, /\(.*\)/)) next
        s = substr(s, RSTART + 1, RLENGTH - 2); m = gsub(/[a-z_]+: /, "&", s)
        n = $2; sub(/.*fn /, "", n); sub(/[(<].*/, "", n)
        if (m >= 6) print $1 ": " n ", " m " parameters"
    }' "$all" | show "5d functions of six parameters or more"

echo; echo "== 6. Buffers with a length beside, parallel arrays, arenas by index"
awk -F'\t' '
    { s = $2; n = s; sub(/.*fn /, "", n); sub(/[(<].*/, "", n)
      if (s ~ /: &(mut )?\[(u64|u8|usize|u16)\]/ && s ~ /(^|[ (])(n|len|length|count|width|k|end|table_words|hold_words|jobs): usize/) print $1 ": " n }' "$all" | show "6a a slice and a number beside it that may say how much of it counts, in one signature (many are a night of n jobs with its table)"
code '&(mut )?[a-z_]+\[at\.\.at \+ |\[(low|q|r|i|j)?[^]]*(width|SET_WORDS|MOST_JOBS|4) \* [a-z_]+[^]]*\]|let at = (width|4|SET_WORDS|MOST_JOBS) \*' | show "6b rows and sets found by index arithmetic"
code '(\[(usize|u64); ([0-9A-Z_]+)\], [a-z]+: \[(usize|u64); \3\])|\[NONE; KINDS' | show "6c parallel arrays, arenas in one array"
code 'counts: &(mut )?\[usize|let mut counts = \[' | show "6d counts as an array with places for names"
code ', out: &mut \[u8\], at: usize|out: &mut \[u8; 4096\]' | show "6e a buffer with the place written to beside it"

echo; echo "== 7. Switches on which step to run"
awk -F'\t' '
    { s = $2; n = s; sub(/.*fn /, "", n); sub(/[(<].*/, "", n); b = $4
      if (match(b, /match [a-z_]+ \{/)) {
          v = substr(b, RSTART + 6, RLENGTH - 8)
          if (s ~ ("[(, ]" v ": [A-Z]")) print $1 ": " n ": match " v
      }
      if (match(b, /(if|match) (number|kind|thinned|way|k) (==|\{)/)) print $1 ": " n ": " substr(b, RSTART, RLENGTH + 3)
    }' "$all" | show "7a functions that match on a parameter"
awk -F'\t' '{ s = $2; n = s; sub(/.*fn /, "", n); sub(/[(<].*/, "", n); if (s ~ /: bool[,)]/) { print $1 ": " n } }' "$all" | show "7b functions with a flag for a parameter"

echo; echo "== 8. Proofs"
answers=$(find crates -name Answers.antt -not -path '*/out/*' | sort)
invariants=$(find crates \( -name Invariants.antt -o -name Proof.antt \) -not -path '*/out/*' | sort)
lemmas=$(ls crates/*/proofs/*.antt | grep -v '/Lib.antt')
specs=$(ls crates/*/specs/*.antt)
echo "8a answers: $(echo "$answers" | grep -c .) files, $(cat $answers /dev/null | wc -l) lines"
echo "8b invariants and whole proofs: $(echo "$invariants" | grep -c .) files, $(cat $invariants /dev/null | wc -l) lines"
echo "8c lemma files: $(echo "$lemmas" | grep -c .), $(cat $lemmas | wc -l) lines; specs: $(echo "$specs" | grep -c .), $(cat $specs | wc -l) lines"
echo "8d must-fail edits: $(ls crates/*/must-fail/*.edit | wc -l); Kept lines: $(grep -hc '// Kept:' $src | awk '{ s += $1 } END { print s }')"
# lemmas whose name stands once in all of specs, proofs and src (their own declaration left out) and in no document
words=$(mktemp) && trap 'rm -f "$all" "$words"' EXIT
{ find crates \( -name '*.antt' -o -name '*.rt' -o -name '*.edit' \) -not -path '*/out/*' -print0 | xargs -0 cat; cat README.md CONTRIBUTING.md docs/*.md; } | grep -oE "[A-Za-z_][A-Za-z_0-9'-]*" | sort | uniq -c | awk '{ print $2 "\t" $1 }' >"$words"
awk -v words="$words" '
    BEGIN { while ((getline l < words) > 0) { split(l, p, "\t"); many[p[1]] = p[2] } }
    # a declaration of a file, at the margin: NAME : .., with its definition NAME .. = .. below
    FNR == 1 { last = "" }
    /^(pub )?(abbrev |unfoldable )?[a-z][A-Za-z_0-9]* :( |$)/ {
        n = $0; sub(/^(pub )?(abbrev |unfoldable )?/, "", n); sub(/ :.*/, "", n); at[n] = FILENAME ":" FNR; own[n]++; last = n; next
    }
    last != "" && ($0 ~ ("^" last "( |$)")) { own[last]++ }
    END { for (n in at) if (many[n] <= own[n]) print at[n] ": " n }' $lemmas | sort | show "8e lemmas of proofs/*.antt that no file names but their own declaration (the check's tactic may take one all the same: drop it and check)"
# a definition that says again what another file says, word for word
awk '/^(pub )?(abbrev |unfoldable )?[a-z][A-Za-z_0-9]* : / { t = $0; n = $0; sub(/^(pub )?(abbrev |unfoldable )?/, "", n); sub(/ :.*/, "", n); sub(/^[^:]*: /, "", t); if (length(t) > 30) { many[t]++; list[t] = list[t] " " FILENAME ":" FNR " " n } }
    END { for (t in many) if (many[t] > 1) print many[t] " times:" list[t] }' $lemmas | sed 's|crates/||g' | sort -rn | show "8f lemmas with one and the same statement"
awk '{ l = $0; gsub(/^ +| +$/, "", l); if (length(l) > 50 && l !~ /^(use|pub use|--|import)/) { many[l]++ } } END { for (l in many) if (many[l] >= 4) print many[l] " times: " l }' $answers /dev/null | sort -rn | show "8g lines that four answers or more repeat"
