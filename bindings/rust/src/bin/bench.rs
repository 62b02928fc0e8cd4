//! Times the proved search beside the same walk in plain Rust, in one run, and beside `cliquer` where that is installed; then the
//! proved colour beside its plain version. Prints the tables of docs/SPEED.md and writes docs/speed.svg. From the repository's root:
//!
//!     (cd bindings/rust && cargo run --release --bin bench)

#[path = "../graphs.rs"]
mod graphs;

use buyerspruce::{colour, plain, search, Searched, Set};
use graphs::{chain, dimacs, random, Graph};
use std::{fs, path::Path, process::Command, time::Instant};

const BUDGET: u64 = 1_000_000;
const NONE: Set = [0; 4];

/// The shortest of three runs or more, in seconds; a run of some seconds is made once.
fn time(mut run: impl FnMut()) -> f64 {
    let mut best = f64::MAX;
    let mut runs = 0;
    let start = Instant::now();
    loop {
        let one = Instant::now();
        run();
        runs += 1;
        best = best.min(one.elapsed().as_secs_f64());
        if best > 2.0 || runs >= 3 && start.elapsed().as_secs_f64() > 0.3 {
            return best;
        }
    }
}

struct Row {
    best: bool,
    size: usize,
    visits: u64,
    ours: f64,
    plain: f64,
}

fn run(g: &Graph, pins: &Set, budget: u64) -> Row {
    let mut result = NONE;
    let (mut best, mut size, mut visits) = (false, 0, 0);
    let ours = time(|| match search(g.n, &g.table, &NONE, pins, budget, &mut result) {
        Ok(Searched::Best { size: s, visits: v }) => (best, size, visits) = (true, s, v),
        Ok(Searched::Unfinished { size: s, visits: v }) => (best, size, visits) = (false, s, v),
        Err(e) => panic!("{e:?}"),
    });
    let mut found = None;
    let plain = time(|| found = Some(plain::search(g.n, &g.table, &NONE, pins, budget, &NONE).unwrap()));
    let found = found.unwrap();
    assert!(found.set == result && found.visits == visits && found.best == best, "{}: the two differ", g.name);
    Row { best, size, visits, ours, plain }
}

fn heading(title: &str) {
    println!("\n### {title}\n");
    println!("| table | jobs | pairs | answer | size | visits | seconds | plain Rust | ratio | visits per second | cliquer |");
    println!("|---|---|---|---|---|---|---|---|---|---|---|");
}

fn line(g: &Graph, r: &Row, other: Option<f64>) {
    println!(
        "| {} | {} | {} | {} | {} | {} | {:.5} | {:.5} | {:.2} | {:.0} | {} |",
        g.name,
        g.n,
        g.edges(),
        if r.best { "best" } else { "unfinished" },
        r.size,
        r.visits,
        r.ours,
        r.plain,
        r.ours / r.plain,
        r.visits as f64 / r.ours,
        other.map_or("-".into(), |t| format!("{t:.5}")),
    );
}

/// Times Colour, and prints its line.
fn colour_line(g: &Graph) {
    let mut classes = [0; 256];
    let mut k = 0;
    let ours = time(|| k = colour(g.n, &g.table, &NONE, &NONE, &mut classes).unwrap());
    let mut found = (0, [0; 256]);
    let plain = time(|| found = plain::colour(g.n, &g.table, &NONE, &NONE, &[0; 256]).unwrap());
    assert!(found == (k, classes), "{}: the two differ", g.name);
    println!("| {} | {} | {} | {k} | {:.1} | {:.1} | {:.2} |", g.name, g.n, g.edges(), 1e6 * ours, 1e6 * plain, ours / plain);
}

/// Seconds of cliquer as a whole command, for one maximum clique; none where it is not installed or does not end within a minute.
fn cliquer(g: &Graph) -> Option<f64> {
    let file = std::env::temp_dir().join("buyerspruce-bench.clq");
    let mut text = format!("p edge {} {}\n", g.n, g.edges());
    for a in 0..g.n {
        for b in a + 1..g.n {
            if g.joined(a, b) {
                text += &format!("e {} {}\n", a + 1, b + 1);
            }
        }
    }
    fs::write(&file, text).ok()?;
    let mut best = f64::MAX;
    for _ in 0..3 {
        let start = Instant::now();
        let done = Command::new("timeout").args(["60", "cliquer", "-u", "-q", "-q"]).arg(&file).output().ok()?;
        if !done.status.success() {
            return None;
        }
        best = best.min(start.elapsed().as_secs_f64());
        if best > 2.0 {
            break;
        }
    }
    Some(best)
}

fn plot(series: &[(u64, Vec<(usize, f64)>)]) -> String {
    let (w, h, left, top) = (720.0, 440.0, 80.0, 30.0);
    let x = |n: usize| left + (n as f64 - 32.0) / (256.0 - 32.0) * (w - left - 130.0);
    let y = |t: f64| top + (1.0 - (t.log10() + 5.0) / 6.0) * (h - top - 60.0);
    let mut svg =
        format!("<svg xmlns=\"http://www.w3.org/2000/svg\" width=\"{w}\" height=\"{h}\" font-family=\"sans-serif\" font-size=\"13\">\n");
    svg += "<rect width=\"100%\" height=\"100%\" fill=\"white\"/>\n";
    for e in -5..=1 {
        let t = 10f64.powi(e);
        svg += &format!("<line x1=\"{left}\" y1=\"{0:.1}\" x2=\"{1:.1}\" y2=\"{0:.1}\" stroke=\"#ddd\"/>", y(t), x(256));
        svg += &format!("<text x=\"{:.1}\" y=\"{:.1}\" text-anchor=\"end\">{t} s</text>\n", left - 8.0, y(t) + 4.0);
    }
    for n in (32..=256).step_by(32) {
        svg += &format!("<text x=\"{:.1}\" y=\"{:.1}\" text-anchor=\"middle\">{n}</text>\n", x(n), h - 38.0);
    }
    svg += &format!("<text x=\"{:.1}\" y=\"{:.1}\" text-anchor=\"middle\">jobs</text>\n", (left + x(256)) / 2.0, h - 14.0);
    svg += &format!("<text x=\"{left}\" y=\"18\">time to finish, or to use up {BUDGET} visits</text>\n");
    for ((percent, points), colour) in series.iter().zip(["#1b6ca8", "#c0392b", "#27823b"]) {
        let path: Vec<String> = points.iter().map(|(n, t)| format!("{:.1},{:.1}", x(*n), y(*t))).collect();
        svg += &format!("<polyline points=\"{}\" fill=\"none\" stroke=\"{colour}\" stroke-width=\"2\"/>\n", path.join(" "));
        let (n, t) = points[points.len() - 1];
        svg += &format!("<text x=\"{:.1}\" y=\"{:.1}\" fill=\"{colour}\">{percent} % fit</text>\n", x(n) + 8.0, y(t) + 4.0);
    }
    svg + "</svg>\n"
}

fn main() {
    heading("DIMACS");
    let (mut ours, mut plain) = (0.0, 0.0);
    for g in &dimacs() {
        let r = run(g, &NONE, BUDGET);
        ours += r.ours;
        plain += r.plain;
        line(g, &r, cliquer(g));
    }
    println!("\nAll together: {ours:.3} s, plain Rust {plain:.3} s, ratio {:.2}.", ours / plain);
    heading("Random tables of 200 jobs, 70 % of the pairs, to the end");
    let (mut ours, mut other) = (0.0, Some(0.0));
    for which in 0..5 {
        let g = random(200, 70, which);
        let r = run(&g, &NONE, u64::MAX);
        let c = cliquer(&g);
        line(&g, &r, c);
        ours += r.ours;
        other = other.zip(c).map(|(a, b)| a + b);
    }
    if let Some(c) = other {
        println!("\nAll together: {ours:.3} s, cliquer {c:.3} s, ratio {:.2}.", ours / c);
    }
    heading("Random tables");
    for n in [100, 200, 256] {
        for percent in (10..=90).step_by(10) {
            let g = random(n, percent, 0);
            let r = run(&g, &NONE, BUDGET);
            let other = if r.best || n == 200 { cliquer(&g) } else { None };
            line(&g, &r, other);
        }
    }
    heading("Full nights of 64 jobs");
    for percent in [50, 70, 80, 90, 95] {
        let g = random(64, percent, 0);
        line(&g, &run(&g, &NONE, BUDGET), cliquer(&g));
    }
    heading("A full night in which a removal sets off others");
    line(&chain(), &run(&chain(), &NONE, BUDGET), cliquer(&chain()));
    heading("The last job pinned");
    let others = [(64, 80), (64, 95), (200, 50), (200, 70), (200, 90), (256, 50), (256, 70)];
    for g in dimacs().into_iter().chain(others.map(|(n, percent)| random(n, percent, 0))) {
        let mut pins = NONE;
        pins[(g.n - 1) / 64] |= 1 << ((g.n - 1) % 64);
        line(&g, &run(&g, &pins, BUDGET), None);
    }
    println!("\n### Colour\n");
    println!("| table | jobs | pairs | classes | microseconds | plain Rust | ratio |");
    println!("|---|---|---|---|---|---|---|");
    for g in [random(64, 80, 0), random(200, 70, 0), random(256, 10, 0), random(256, 50, 0), random(256, 90, 0), chain()] {
        colour_line(&g);
    }
    let at = |n, percent| (n, run(&random(n, percent, 0), &NONE, BUDGET).ours);
    let series: Vec<_> = [30, 50, 70].map(|p| (p, (32..=256).step_by(32).map(|n| at(n, p)).collect())).into();
    let file = Path::new(env!("CARGO_MANIFEST_DIR")).join("../../docs/speed.svg");
    fs::write(&file, plot(&series)).expect("docs/speed.svg can be written");
}
