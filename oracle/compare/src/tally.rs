//! The files that are tried, and what each kind of call has shown.

use oracle::generate::{damaged, trees};

/// Stands in every lent count before a call.
pub const GUARD: u64 = 0x5a5a_5a5a_5a5a_5a5a;

/// Differences that are shown; the others are counted.
const SHOWN: u64 = 20;

/// What a kind of call has shown so far.
pub struct Tally {
    pub name: &'static str,
    pub cases: u64,
    pub refused: u64,
    pub different: u64,
}

impl Tally {
    pub fn new(name: &'static str) -> Self {
        Tally { name, cases: 0, refused: 0, different: 0 }
    }

    pub fn count(&mut self, refused: bool, same: bool, input: &dyn Fn() -> String) {
        self.cases += 1;
        self.refused += u64::from(refused);
        if !same {
            self.different += 1;
            if self.different <= SHOWN {
                println!("DIFFERENT {}: {}", self.name, input());
            }
        }
    }

    pub fn print(&self) {
        println!("{}: {} cases, {} refused, {} different", self.name, self.cases, self.refused, self.different);
    }
}

/// Files in batches, so that the longest runs need no more memory than the shortest.
pub const A_BATCH: usize = 5_000;

/// The largest files of most batches; one batch in twenty has files of any length.
pub const USUAL_BYTES: usize = 600;

/// Hands out so many files: batches of valid and of damaged ones in turn.
pub fn each_file(seed: u64, count: usize, mut call: impl FnMut(&[u8])) {
    let mut done = 0;
    let mut batch = 0;
    while done < count {
        let most = if batch % 20 == 0 { 40_000 } else { USUAL_BYTES };
        let part = A_BATCH.min(count - done);
        let seed = seed.wrapping_mul(1_000_003).wrapping_add(batch);
        let files = if batch % 2 == 0 { trees::files(seed, part, most) } else { damaged::files(seed, part, most) };
        files.iter().for_each(|file| call(file));
        done += part;
        batch += 1;
    }
}
