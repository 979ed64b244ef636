//! The static library's calls. A slice is a pointer and a length.

use oracle::judge::{Op, Stage};
use oracle::machine::{Counts, Tables};

type Change = unsafe extern "C" fn(
    *mut u64, usize, *mut u64, usize, *mut u64, usize, *mut i64, usize, *mut u32, usize, *const u8, usize, *const u16, usize,
) -> u64;

type Build = unsafe extern "C" fn(
    *const u8, usize, u64, *mut u64, usize, *mut u64, usize, *mut i64, usize, *mut u32, usize, *mut u8, usize, *mut u16, usize,
    *mut u64, usize,
) -> u64;

macro_rules! change {
    ($name:ident) => {
        fn $name(
            counts: *mut u64, counts_len: usize, sections: *mut u64, sections_len: usize, instructions: *mut u64, instructions_len: usize,
            numbers: *mut i64, numbers_len: usize, strings: *mut u32, strings_len: usize, pool: *const u8, pool_len: usize,
            names: *const u16, names_len: usize,
        ) -> u64;
    };
}

macro_rules! build {
    ($name:ident) => {
        fn $name(
            tree: *const u8, tree_len: usize, options: u64, sections: *mut u64, sections_len: usize, instructions: *mut u64,
            instructions_len: usize, numbers: *mut i64, numbers_len: usize, strings: *mut u32, strings_len: usize, pool: *mut u8,
            pool_len: usize, names: *mut u16, names_len: usize, counts: *mut u64, counts_len: usize,
        ) -> u64;
    };
}

extern "C" {
    fn sezkibalo_size(tree: *const u8, tree_len: usize, counts: *mut u64, counts_len: usize) -> u64;
    fn sezkibalo_text(strings: *const u32, strings_len: usize, pool: *const u8, pool_len: usize, register: u64) -> u64;
    change!(sezkibalo_replace);
    change!(sezkibalo_clean);
    change!(sezkibalo_combine);
    build!(sezkibalo_lower);
    build!(sezkibalo_finish);
}

/// The number that refuses, or 0; `counts` afterwards.
pub fn size(tree: &[u8], counts: &mut [u64]) -> u64 {
    // SAFETY: both slices are lent for the call, and the library keeps within them.
    unsafe { sezkibalo_size(tree.as_ptr(), tree.len(), counts.as_mut_ptr(), counts.len()) }
}

/// The place of a register's text: start and length.
pub fn text(strings: &[u32], pool: &[u8], register: u64) -> (u64, u64) {
    // SAFETY: as above.
    let spot = unsafe { sezkibalo_text(strings.as_ptr(), strings.len(), pool.as_ptr(), pool.len(), register) };
    (spot >> 32, spot & 0xffff_ffff)
}

/// The number that refuses, or 0; counts and tables afterwards.
pub fn change(op: Op, counts: &mut [u64], t: &mut Tables) -> u64 {
    let call: Change = match op {
        Op::Replace => sezkibalo_replace,
        Op::Clean => sezkibalo_clean,
        Op::Combine => sezkibalo_combine,
    };
    // SAFETY: as above.
    unsafe {
        call(
            counts.as_mut_ptr(), counts.len(), t.sections.as_mut_ptr(), t.sections.len(), t.instrs.as_mut_ptr(), t.instrs.len(),
            t.numbers.as_mut_ptr(), t.numbers.len(), t.strings.as_mut_ptr(), t.strings.len(), t.pool.as_ptr(), t.pool.len(),
            t.names.as_ptr(), t.names.len(),
        )
    }
}

/// The number that refuses, or 0; counts and tables afterwards. Of each table `room` words are lent, the first at `from`.
pub fn build(stage: Stage, tree: &[u8], options: u64, counts: &mut [u64], t: &mut Tables, from: usize, room: &Counts) -> u64 {
    let call: Build = match stage {
        Stage::Lower => sezkibalo_lower,
        Stage::Finish => sezkibalo_finish,
    };
    let sections = &mut t.sections[from..from + room.sections];
    let instrs = &mut t.instrs[from..from + room.instrs];
    let numbers = &mut t.numbers[from..from + room.numbers];
    let strings = &mut t.strings[from..from + room.strings];
    let pool = &mut t.pool[from..from + room.pool];
    let names = &mut t.names[from..from + room.names];
    // SAFETY: as above.
    unsafe {
        call(
            tree.as_ptr(), tree.len(), options, sections.as_mut_ptr(), sections.len(), instrs.as_mut_ptr(), instrs.len(),
            numbers.as_mut_ptr(), numbers.len(), strings.as_mut_ptr(), strings.len(), pool.as_mut_ptr(), pool.len(),
            names.as_mut_ptr(), names.len(), counts.as_mut_ptr(), counts.len(),
        )
    }
}
