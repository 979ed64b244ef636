//! The numbers of docs/FORMAT.md: limits and refusals.

pub const MOST_BYTES: usize = 32_768;
pub const MOST_DEPTH: usize = 64;
pub const MOST_NODES: usize = 2_048;
pub const MOST_LINES: usize = 255;
pub const MOST_NAMES: usize = 255;
pub const MOST_NAME: usize = 64;
pub const MOST_STRING: usize = 127;
pub const MOST_STATEMENTS: usize = 63;
pub const MOST_COUNT: usize = 65_535;

/// An unfixed successor, or a name without a register.
pub const MARK: u16 = 65_535;

pub const FORM: u64 = 1;
pub const BINOPS: u8 = 14;
pub const UNOPS: u8 = 11;
pub const ASSIGNS: u8 = 7;

/// Estimates of what a tree needs, beside its lines.
pub const SECTIONS_A_STATEMENT: usize = 4;
pub const INSTRS_A_NODE: usize = 9;
pub const NUMBERS_A_NODE: usize = 2;

/// What finlist reads and lends.
pub const FINLIST_BYTES: usize = 8_192;
pub const FINLIST_INSTRS: usize = 4_096;
pub const FINLIST_SECTIONS: usize = 2_048;
pub const FINLIST_NUMBERS: usize = 1_024;

pub const R_FORM: u8 = 1;
pub const R_LINES: u8 = 2;
pub const R_ENDS: u8 = 3;
pub const R_UNASSIGNED: u8 = 4;
pub const R_NAME: u8 = 5;
pub const R_SAME: u8 = 6;
pub const R_DEPTH: u8 = 7;
pub const R_NODES: u8 = 8;
pub const R_FILL: u8 = 9;
pub const R_BYTES: u8 = 10;
pub const R_ROOM: u8 = 11;
pub const R_WORDS: u8 = 12;
pub const R_CLEAN: u8 = 13;
pub const R_UNFIXED: u8 = 14;
pub const R_BACKWARDS: u8 = 15;
