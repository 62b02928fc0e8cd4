//! Buyerspruce for Rust: the six proved calls, with slices and enums.
//!
//! Every call takes any number, slices of any length and any bits, and answers; see `bindings/c/buyerspruce.h` for what each means. Search
//! wants 512 KiB of stack at most (a Rust thread has 2 MiB). A refusal leaves every lent slice as it came. A caller that has no pins lends
//! four zero words, as it does for no holds.
//!
//! [`calls`] has the calls as they are, with a reply of four numbers. [`plain`] is an independent version in plain Rust, which the
//! tests compare with; nothing in it is proved.

pub mod calls;
pub mod plain;

pub use plain::{Checked, Refusal, Set, NO_CLASS};

/// What Search found; the run itself is in the lent result.
#[derive(Clone, Copy, Debug, PartialEq, Eq)]
pub enum Searched {
    Best { size: usize, visits: u64 },
    Unfinished { size: usize, visits: u64 },
}

type Reply = [u64; calls::REPLY_WORDS];

/// A refusal is what the reply holds: which values a number comes with stands in `bindings/c/buyerspruce.h`.
fn refused(reply: &Reply) -> Refusal {
    Refusal { number: reply[1], values: [reply[2], reply[3]] }
}

/// The largest run of unheld jobs that holds every pin, within a budget of visits; its four words go into `result`. With a budget of 0 it
/// is the empty run, whatever the pins.
pub fn search(n: usize, table: &[u64], holds: &[u64], pins: &[u64], budget: u64, result: &mut [u64]) -> Result<Searched, Refusal> {
    let mut reply = Reply::default();
    let kind = calls::search(n, table, holds, pins, budget, result, &mut reply);
    let (size, visits) = (reply[1] as usize, reply[2]);
    match kind {
        calls::BEST => Ok(Searched::Best { size, visits }),
        calls::UNFINISHED => Ok(Searched::Unfinished { size, visits }),
        _ => Err(refused(&reply)),
    }
}

/// Puts the candidates, the unheld unpinned jobs that fit every pin, into classes of which no two jobs fit, and answers how many classes
/// there are: no run that holds every pin has more jobs than there are pins and classes together. The class of each job goes into the 256
/// numbers of `classes`, [`NO_CLASS`] for a job that is no candidate.
pub fn colour(n: usize, table: &[u64], holds: &[u64], pins: &[u64], classes: &mut [u16]) -> Result<usize, Refusal> {
    let mut reply = Reply::default();
    match calls::colour(n, table, holds, pins, classes, &mut reply) {
        calls::CLASSES => Ok(reply[1] as usize),
        _ => Err(refused(&reply)),
    }
}

/// Whether a set is a clique of the table's jobs; if not, the first pair that does not fit.
pub fn check(n: usize, table: &[u64], set: &[u64]) -> Result<Checked, Refusal> {
    let mut reply = Reply::default();
    match calls::check(n, table, set, &mut reply) {
        calls::CLIQUE => Ok(Checked::Clique(reply[1] as usize)),
        calls::PAIR => Ok(Checked::Pair(reply[1] as usize, reply[2] as usize)),
        _ => Err(refused(&reply)),
    }
}

/// The lent words of the larger set, at equal size of the earlier, of the first when they are equal; an empty part of the first if
/// either is not four words.
pub fn prefer<'a>(first: &'a [u64], second: &'a [u64]) -> &'a [u64] {
    let mut reply = Reply::default();
    calls::prefer(first, second, &mut reply);
    match reply[1] {
        calls::FIRST => first,
        calls::SECOND => second,
        _ => &first[..0],
    }
}

/// Reads a night file into 1,024 table words and four hold words, and answers n.
pub fn read(file: &[u8], table: &mut [u64], holds: &mut [u64]) -> Result<usize, Refusal> {
    let mut reply = Reply::default();
    match calls::read(file, table, holds, &mut reply) {
        calls::READ => Ok(reply[1] as usize),
        _ => Err(refused(&reply)),
    }
}

/// Writes a table and its holds as a night file, and answers its length.
pub fn write(n: usize, table: &[u64], holds: &[u64], out: &mut [u8]) -> Result<usize, Refusal> {
    let mut reply = Reply::default();
    match calls::write(n, table, holds, out, &mut reply) {
        calls::WRITTEN => Ok(reply[1] as usize),
        _ => Err(refused(&reply)),
    }
}
