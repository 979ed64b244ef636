//! The library's calls on lent slices, without any table of their own. A refused call writes nothing.
//!
//! What the C calls ask of a pointer, any safe slice gives: it is aligned, not null even where it is empty, its words stay there for the call, and what
//! is lent by `&mut` overlaps nothing else. So these functions ask nothing.

use crate::Refusal;

/// Which names are protected: of those the machine keeps the value registers. By default the global ones.
#[derive(Debug, Clone, Copy, PartialEq, Eq)]
pub struct CodegenOptions {
    pub protect_locals: bool,
    pub protect_globals: bool,
}

impl Default for CodegenOptions {
    fn default() -> Self {
        CodegenOptions { protect_locals: false, protect_globals: true }
    }
}

impl CodegenOptions {
    fn bits(self) -> u64 {
        u64::from(self.protect_locals) | u64::from(self.protect_globals) << 1
    }
}

/// How much a tree has of each.
#[derive(Debug, Clone, Copy, PartialEq, Eq, Default)]
pub struct Size {
    pub lines: usize,
    pub names: usize,
    pub statements: usize,
    pub nodes: usize,
    pub strings: usize,
    pub characters: usize,
}

impl Size {
    /// How long the tables must be that are lent to lower or finish the tree.
    pub fn estimate(&self) -> Counts {
        Counts {
            lines: self.lines,
            sections: self.lines + 4 * self.statements,
            instructions: 9 * self.nodes,
            numbers: 2 * self.nodes,
            strings: self.strings,
            characters: self.characters,
            values: 0,
            names: self.names,
        }
    }
}

/// How much of each table a machine uses, and how many lines and value registers it has.
#[derive(Debug, Clone, Copy, PartialEq, Eq, Default)]
pub struct Counts {
    pub lines: usize,
    pub sections: usize,
    pub instructions: usize,
    pub numbers: usize,
    pub strings: usize,
    pub characters: usize,
    pub values: usize,
    pub names: usize,
}

impl Counts {
    pub fn row(&self) -> [u64; 8] {
        let c = self;
        [c.lines, c.sections, c.instructions, c.numbers, c.strings, c.characters, c.values, c.names].map(|n| n as u64)
    }

    pub fn of_row(row: [u64; 8]) -> Self {
        let [lines, sections, instructions, numbers, strings, characters, values, names] = row.map(|n| n as usize);
        Counts { lines, sections, instructions, numbers, strings, characters, values, names }
    }
}

type Change = unsafe extern "C" fn(
    *mut u64, usize, *mut u64, usize, *mut u64, usize, *mut i64, usize, *mut u32, usize, *const u8, usize, *const u16, usize,
) -> u64;

type Build = unsafe extern "C" fn(
    *const u8, usize, u64, *mut u64, usize, *mut u64, usize, *mut i64, usize, *mut u32, usize, *mut u8, usize, *mut u16, usize,
    *mut u64, usize,
) -> u64;

macro_rules! change {
    ($name:ident) => {
        fn $name(
            counts: *mut u64, counts_len: usize, sections: *mut u64, sections_len: usize, instructions: *mut u64, instructions_len: usize,
            numbers: *mut i64, numbers_len: usize, strings: *mut u32, strings_len: usize, pool: *const u8, pool_len: usize,
            names: *const u16, names_len: usize,
        ) -> u64;
    };
}

macro_rules! build {
    ($name:ident) => {
        fn $name(
            tree: *const u8, tree_len: usize, options: u64, sections: *mut u64, sections_len: usize, instructions: *mut u64,
            instructions_len: usize, numbers: *mut i64, numbers_len: usize, strings: *mut u32, strings_len: usize, pool: *mut u8,
            pool_len: usize, names: *mut u16, names_len: usize, counts: *mut u64, counts_len: usize,
        ) -> u64;
    };
}

// as crates/sezkibalo/sezkibalo.h has them
extern "C" {
    fn sezkibalo_size(tree: *const u8, tree_len: usize, counts: *mut u64, counts_len: usize) -> u64;
    fn sezkibalo_text(strings: *const u32, strings_len: usize, pool: *const u8, pool_len: usize, register: u64) -> u64;
    change!(sezkibalo_replace);
    change!(sezkibalo_clean);
    change!(sezkibalo_combine);
    build!(sezkibalo_lower);
    build!(sezkibalo_finish);
}

fn answered<T>(number: u64, done: T) -> Result<T, Refusal> {
    match Refusal::of_number(number) {
        None => Ok(done),
        Some(refusal) => Err(refusal),
    }
}

/// Lines, names, statements, nodes, strings and characters of a tree in the tree form.
pub fn size(tree: &[u8]) -> Result<Size, Refusal> {
    let mut row = [0u64; 6];
    // SAFETY: the pointers are those of slices, so they are aligned and not null, and those lent for writing overlap no other; the library is
    // proved to read and write within the lent slices, and keeps none of them. So in every call below.
    let number = unsafe { sezkibalo_size(tree.as_ptr(), tree.len(), row.as_mut_ptr(), row.len()) };
    let [lines, names, statements, nodes, strings, characters] = row.map(|n| n as usize);
    answered(number, Size { lines, names, statements, nodes, strings, characters })
}

/// The text of a string register, as that part of the pool; empty, at the pool's end, where register or word is bad. No register has the number 65,535
/// or more. (In a pool of more than 2^32 - 1 characters the empty text stands behind that many.)
pub fn text<'a>(strings: &[u32], pool: &'a [u8], register: u64) -> &'a [u8] {
    // SAFETY: as above.
    let spot = unsafe { sezkibalo_text(strings.as_ptr(), strings.len(), pool.as_ptr(), pool.len(), register) };
    let start = (spot >> 32) as usize;
    &pool[start..start + (spot & 0xffff_ffff) as usize]
}

/// The six tables of a machine, lent for a call.
#[derive(Debug, PartialEq, Eq)]
pub struct Lent<'a> {
    pub sections: &'a mut [u64],
    pub instructions: &'a mut [u64],
    pub numbers: &'a mut [i64],
    pub strings: &'a mut [u32],
    pub pool: &'a mut [u8],
    pub names: &'a mut [u16],
}

fn build(call: Build, tree: &[u8], options: CodegenOptions, lent: Lent) -> Result<Counts, Refusal> {
    let Lent { sections, instructions, numbers, strings, pool, names } = lent;
    let mut row = [0u64; 8];
    // SAFETY: as above.
    let number = unsafe {
        call(
            tree.as_ptr(), tree.len(), options.bits(), sections.as_mut_ptr(), sections.len(), instructions.as_mut_ptr(),
            instructions.len(), numbers.as_mut_ptr(), numbers.len(), strings.as_mut_ptr(), strings.len(), pool.as_mut_ptr(),
            pool.len(), names.as_mut_ptr(), names.len(), row.as_mut_ptr(), row.len(),
        )
    };
    answered(number, Counts::of_row(row))
}

/// Lowers a tree into lent tables, which are at least as long as [`Size::estimate`] says. Zeros follow the words up to the estimate.
pub fn lower(tree: &[u8], options: CodegenOptions, lent: Lent) -> Result<Counts, Refusal> {
    build(sezkibalo_lower, tree, options, lent)
}

/// Lowers, cleans and combines: as [`lower`].
pub fn finish(tree: &[u8], options: CodegenOptions, lent: Lent) -> Result<Counts, Refusal> {
    build(sezkibalo_finish, tree, options, lent)
}

fn change(call: Change, counts: &Counts, lent: Lent) -> Result<Counts, Refusal> {
    let Lent { sections, instructions, numbers, strings, pool, names } = lent;
    let mut row = counts.row();
    // SAFETY: as above.
    let number = unsafe {
        call(
            row.as_mut_ptr(), row.len(), sections.as_mut_ptr(), sections.len(), instructions.as_mut_ptr(), instructions.len(),
            numbers.as_mut_ptr(), numbers.len(), strings.as_mut_ptr(), strings.len(), pool.as_ptr(), pool.len(), names.as_ptr(),
            names.len(),
        )
    };
    answered(number, Counts::of_row(row))
}

/// Replaces duplicate operands: 12, then 11. It may add a number for each instruction.
pub fn replace(counts: &Counts, lent: Lent) -> Result<Counts, Refusal> {
    change(sezkibalo_replace, counts, lent)
}

/// Removes unfixed sections: 12, then 13.
pub fn clean(counts: &Counts, lent: Lent) -> Result<Counts, Refusal> {
    change(sezkibalo_clean, counts, lent)
}

/// Joins sections until no pair is left: 12, then 14, then 15.
pub fn combine(counts: &Counts, lent: Lent) -> Result<Counts, Refusal> {
    change(sezkibalo_combine, counts, lent)
}
