//! The six calls as the proved library has them: each writes four numbers into the lent reply, the kind first, and returns the kind;
//! with fewer than four reply words nothing is done and [`SHORT_REPLY`] is returned. The layout is that of `bindings/c/buyerspruce.h`.

pub const REFUSED: u64 = 0;
pub const BEST: u64 = 1;
pub const UNFINISHED: u64 = 2;
pub const CLIQUE: u64 = 3;
pub const PAIR: u64 = 4;
pub const PREFERRED: u64 = 5;
pub const READ: u64 = 6;
pub const WRITTEN: u64 = 7;
pub const CLASSES: u64 = 8;
pub const SHORT_REPLY: u64 = 255;

pub const NEITHER: u64 = 0;
pub const FIRST: u64 = 1;
pub const SECOND: u64 = 2;

pub const REPLY_WORDS: usize = 4;

/// Each slice is a pointer and the number of its elements.
mod library {
    extern "C" {
        pub fn buyerspruce_search(
            n: usize,
            table: *const u64,
            table_words: usize,
            holds: *const u64,
            holds_words: usize,
            pins: *const u64,
            pins_words: usize,
            budget: u64,
            result: *mut u64,
            result_words: usize,
            reply: *mut u64,
            reply_words: usize,
        ) -> u64;
        pub fn buyerspruce_colour(
            n: usize,
            table: *const u64,
            table_words: usize,
            holds: *const u64,
            holds_words: usize,
            pins: *const u64,
            pins_words: usize,
            classes: *mut u16,
            classes_count: usize,
            reply: *mut u64,
            reply_words: usize,
        ) -> u64;
        pub fn buyerspruce_check(
            n: usize,
            table: *const u64,
            table_words: usize,
            set: *const u64,
            set_words: usize,
            reply: *mut u64,
            reply_words: usize,
        ) -> u64;
        pub fn buyerspruce_prefer(
            first: *const u64,
            first_words: usize,
            second: *const u64,
            second_words: usize,
            reply: *mut u64,
            reply_words: usize,
        ) -> u64;
        pub fn buyerspruce_read(
            file: *const u8,
            file_bytes: usize,
            table: *mut u64,
            table_words: usize,
            holds: *mut u64,
            holds_words: usize,
            reply: *mut u64,
            reply_words: usize,
        ) -> u64;
        pub fn buyerspruce_write(
            n: usize,
            table: *const u64,
            table_words: usize,
            holds: *const u64,
            holds_words: usize,
            out: *mut u8,
            out_bytes: usize,
            reply: *mut u64,
            reply_words: usize,
        ) -> u64;
    }
}

// Why every call below is sound: a slice's pointer is not null, aligned and good for its length, mutable slices overlap nothing, and
// the library is proved to stay within the lengths, whatever the numbers are. It keeps no pointer.

pub fn search(n: usize, table: &[u64], holds: &[u64], pins: &[u64], budget: u64, result: &mut [u64], reply: &mut [u64]) -> u64 {
    unsafe {
        library::buyerspruce_search(
            n,
            table.as_ptr(),
            table.len(),
            holds.as_ptr(),
            holds.len(),
            pins.as_ptr(),
            pins.len(),
            budget,
            result.as_mut_ptr(),
            result.len(),
            reply.as_mut_ptr(),
            reply.len(),
        )
    }
}

pub fn colour(n: usize, table: &[u64], holds: &[u64], pins: &[u64], classes: &mut [u16], reply: &mut [u64]) -> u64 {
    unsafe {
        library::buyerspruce_colour(
            n,
            table.as_ptr(),
            table.len(),
            holds.as_ptr(),
            holds.len(),
            pins.as_ptr(),
            pins.len(),
            classes.as_mut_ptr(),
            classes.len(),
            reply.as_mut_ptr(),
            reply.len(),
        )
    }
}

pub fn check(n: usize, table: &[u64], set: &[u64], reply: &mut [u64]) -> u64 {
    unsafe { library::buyerspruce_check(n, table.as_ptr(), table.len(), set.as_ptr(), set.len(), reply.as_mut_ptr(), reply.len()) }
}

pub fn prefer(first: &[u64], second: &[u64], reply: &mut [u64]) -> u64 {
    unsafe { library::buyerspruce_prefer(first.as_ptr(), first.len(), second.as_ptr(), second.len(), reply.as_mut_ptr(), reply.len()) }
}

pub fn read(file: &[u8], table: &mut [u64], holds: &mut [u64], reply: &mut [u64]) -> u64 {
    unsafe {
        library::buyerspruce_read(
            file.as_ptr(),
            file.len(),
            table.as_mut_ptr(),
            table.len(),
            holds.as_mut_ptr(),
            holds.len(),
            reply.as_mut_ptr(),
            reply.len(),
        )
    }
}

pub fn write(n: usize, table: &[u64], holds: &[u64], out: &mut [u8], reply: &mut [u64]) -> u64 {
    unsafe {
        library::buyerspruce_write(
            n,
            table.as_ptr(),
            table.len(),
            holds.as_ptr(),
            holds.len(),
            out.as_mut_ptr(),
            out.len(),
            reply.as_mut_ptr(),
            reply.len(),
        )
    }
}
