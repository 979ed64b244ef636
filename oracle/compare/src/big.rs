//! How long the passes take on the largest machines. Machines of 65,535 sections are out of yogi's reach, so nothing is compared here.

use crate::library;
use oracle::judge::Op;
use oracle::machine::Tables;
use std::time::Instant;

const MOST: u64 = 65_535;

fn section(start: u64, target: u64, first: u64, count: u64) -> u64 {
    start << 63 | target << 46 | first << 30 | count << 14
}

/// One line; section i goes on to section i + count, so there are so many chains, the last ones to section 0; `each` instructions a section (IncNum 0).
fn chains(count: u64, sections: u64, each: u64) -> (Vec<u64>, Tables) {
    let target = |i| if i + count < sections { i + count } else { 0 };
    let words = (0..sections).map(|i| section(u64::from(i == 0), target(i), i * each, each)).collect();
    let tables = Tables { sections: words, instrs: vec![35 << 58; (sections * each) as usize], numbers: vec![0], ..Tables::default() };
    (vec![1, sections, sections * each, 1, 0, 0, 0, 0], tables)
}

/// Chains, sections, instructions a section: one chain without instructions and with them, chains that cross, of which nearly every word moves, and few
/// sections with all the instructions.
const SHAPES: [(u64, u64, u64); 5] = [(1, MOST, 0), (1, MOST, 1), (2, MOST, 1), (256, MOST, 1), (2, 15, MOST / 15)];

pub fn run() {
    for (count, sections, each) in SHAPES {
        for op in Op::ALL {
            let (mut counts, mut tables) = chains(count, sections, each);
            let start = Instant::now();
            let number = library::change(op, &mut counts, &mut tables);
            let seconds = start.elapsed().as_secs_f64();
            let what = format!("{sections} sections, chains: {count}, instructions each: {each}");
            println!("{} of {what}: answer {number}, {} sections left, {seconds:.6} s", op.name(), counts[1]);
        }
    }
}
