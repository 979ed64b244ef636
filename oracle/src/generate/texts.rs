//! String words, a pool and a register: words inside the pool, at its end, past it, and with a spare bit.

use crate::machine::Span;
use crate::rng::Rng;

pub struct Case {
    pub strings: Vec<u32>,
    pub pool: Vec<u8>,
    pub register: usize,
}

fn word(rng: &mut Rng, pool: usize) -> u32 {
    let start = rng.below(pool + 2);
    let most = if rng.chance(70) { pool.saturating_sub(start) } else { 5 };
    let length = rng.below(most + 1) as u8;
    let spare = if rng.chance(15) { 1 << rng.below(9) } else { 0 };
    Span { start: start as u16, length }.word() | spare
}

pub fn case(rng: &mut Rng) -> Case {
    let pool: Vec<u8> = (0..rng.below(9)).map(|_| (1 + rng.next() % 250) as u8).collect();
    let strings: Vec<u32> = (0..rng.below(4)).map(|_| word(rng, pool.len())).collect();
    let register = rng.below(strings.len() + 1);
    Case { strings, pool, register }
}
