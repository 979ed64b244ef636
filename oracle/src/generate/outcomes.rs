//! Lists of outcomes.

use crate::lowering::Script;
use crate::machine::op;
use crate::rng::Rng;
use crate::walk::{read, Ask, Stop};

/// The sorts of lists.
pub const SORTS: usize = 6;

/// A list of one sort, at most so long: short, bits, zeros, ones, any lines, or led by the questions.
pub fn list(rng: &mut Rng, sort: usize, long: usize, script: &Script) -> Vec<usize> {
    match sort {
        0 => some(rng, 4, |rng| rng.below(3)),
        1 => some(rng, long, |rng| rng.below(2)),
        2 => some(rng, long, |_| 0),
        3 => some(rng, long / 2, |_| 1),
        4 => some(rng, long, |rng| if rng.chance(60) { 0 } else { rng.below(300) }),
        _ => led(rng, long.min(MOST_LED), script),
    }
}

fn some(rng: &mut Rng, most: usize, outcome: fn(&mut Rng) -> usize) -> Vec<usize> {
    let length = rng.below(most + 1);
    (0..length).map(|_| outcome(rng)).collect()
}

/// A list that is led is found step by step: it is kept short.
const MOST_LED: usize = 24;
const MOST_MET: usize = 1_000;

/// Few errors, half of the conditions, and all lines.
fn led(rng: &mut Rng, most: usize, script: &Script) -> Vec<usize> {
    let mut list = vec![];
    while list.len() < most {
        let Stop::Question(ask) = read(script, &list, MOST_MET).stop else {
            break;
        };
        list.push(match ask {
            Ask::Jump(ins) if ins.op == op::JumpIfError => usize::from(rng.chance(10)),
            Ask::Jump(_) => rng.below(3),
            Ask::Goto(_) => rng.below(2 * script.lines.len() + 1),
        });
    }
    list
}
