//! The tables that docs/SPEED.md speaks of, the same in every run.

/// A table with its name.
pub struct Graph {
    pub name: String,
    pub n: usize,
    pub table: Vec<u64>,
}

impl Graph {
    pub fn new(name: impl Into<String>, n: usize, fits: impl Fn(usize, usize) -> bool) -> Graph {
        let mut table = vec![0; 4 * n];
        for a in 0..n {
            for b in 0..n {
                if a != b && fits(a.min(b), a.max(b)) {
                    table[4 * a + b / 64] |= 1 << (b % 64);
                }
            }
        }
        Graph { name: name.into(), n, table }
    }

    pub fn joined(&self, a: usize, b: usize) -> bool {
        self.table[4 * a + b / 64] >> (b % 64) & 1 == 1
    }

    pub fn edges(&self) -> usize {
        self.table.iter().map(|w| w.count_ones() as usize).sum::<usize>() / 2
    }
}

/// Words of some bits with so many ones, ascending; all of them where `ones` is none.
fn words(bits: u32, ones: Option<u32>) -> Vec<usize> {
    (0..1usize << bits).filter(|w| ones.is_none_or(|k| w.count_ones() == k)).collect()
}

fn apart(name: &str, w: Vec<usize>, least: u32) -> Graph {
    Graph::new(name, w.len(), |a, b| (w[a] ^ w[b]).count_ones() >= least)
}

fn keller() -> Graph {
    let digit = |x: usize, i: usize| x >> (2 * i) & 3;
    let joined = |x: usize, y: usize| {
        let differ = (0..4).filter(|&i| digit(x, i) != digit(y, i)).count();
        differ >= 2 && (0..4).any(|i| (digit(x, i) + 2) % 4 == digit(y, i))
    };
    let kept: Vec<usize> = (0..256).filter(|&x| joined(0, x)).collect();
    Graph::new("keller4", kept.len(), |a, b| joined(kept[a], kept[b]))
}

fn mann() -> Graph {
    let mut lines = vec![];
    for a in 0..9 {
        for b in a + 1..9 {
            for c in b + 1..9 {
                if (a / 3 + b / 3 + c / 3) % 3 == 0 && (a + b + c) % 3 == 0 {
                    lines.push([a, b, c]);
                }
            }
        }
    }
    Graph::new("MANN_a9", 45, |a, b| match (a < 9, b < 9) {
        (true, true) => true,
        (true, false) => lines[(b - 9) / 3][(b - 9) % 3] != a,
        _ => (a - 9) / 3 != (b - 9) / 3,
    })
}

fn fat(name: &str, groups: usize) -> Graph {
    let mut group = vec![];
    for g in 0..groups {
        group.extend(vec![g; 200 / groups + usize::from(g < 200 % groups)]);
    }
    Graph::new(name, 200, |a, b| {
        let d = group[a].abs_diff(group[b]);
        d <= 1 || d == groups - 1
    })
}

/// The random table number `which` with so many percent of the pairs, the same in every run.
pub fn random(n: usize, percent: u64, which: u64) -> Graph {
    let mut state = 0x9E37_79B9_7F4A_7C15 ^ which << 48 ^ (n as u64) << 32 ^ percent;
    let mut bits = vec![vec![false; n]; n];
    for a in 0..n {
        for b in a + 1..n {
            state ^= state << 13;
            state ^= state >> 7;
            state ^= state << 17;
            bits[a][b] = (state >> 11) % 100 < percent;
        }
    }
    Graph::new(format!("random {n}, {percent} %"), n, |a, b| bits[a][b])
}

/// The DIMACS graphs, built from their definition.
pub fn dimacs() -> Vec<Graph> {
    let two = |bits| words(bits, Some(2));
    vec![
        apart("hamming6-2", words(6, None), 2),
        apart("hamming6-4", words(6, None), 4),
        apart("hamming8-2", words(8, None), 2),
        apart("hamming8-4", words(8, None), 4),
        apart("johnson8-2-4", two(8), 4),
        apart("johnson8-4-4", words(8, Some(4)), 4),
        apart("johnson16-2-4", two(16), 4),
        keller(),
        mann(),
        fat("c-fat200-1", 37),
        fat("c-fat200-2", 18),
        fat("c-fat200-5", 7),
    ]
}

/// A full night in which a removal sets off others: a clique of 12 jobs; 64 jobs in eight groups, of which those of different groups fit; and 180 jobs
/// in a chain, each of which fits the 11 before and the 11 after it. Once the clique is kept the chain's last job has too few neighbours, then the one before it.
pub fn chain() -> Graph {
    Graph::new("chain", 256, |a, b| match (a < 12, b < 12) {
        (true, true) => true,
        (true, false) => false,
        _ if b < 76 => a % 8 != b % 8,
        _ => b - a <= 11,
    })
}
