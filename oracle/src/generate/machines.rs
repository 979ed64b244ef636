//! Machines in lent tables: sound ones from trees and at random, with fixed and broken ones between.

use super::broken::{broken, BREAKAGES};
use super::{fixed_machines, trees};
use crate::judge::{machine_of, pass, Answer, Op, Options, Stage};
use crate::limits::*;
use crate::machine::{pack, Counts, Ins, Kind, Machine, Next, Sect, Span, Tables, OPCODES};
use crate::rng::Rng;

pub type Case = (Op, Counts, Tables);

/// The opcodes whose equal operands `dup_replace_with` knows.
const DUPLICATING: [u8; 18] = [2, 3, 4, 14, 16, 18, 20, 21, 22, 24, 26, 28, 30, 32, 33, 34, 51, 52];

// ---- sound ones

/// What a random machine is meant to meet; the judge says what it really does.
#[derive(Clone, Copy, PartialEq)]
enum Aim {
    Anything,
    /// nothing unfixed, but links back
    Linked,
    Cleanable,
    Combinable,
}

struct Shape {
    aim: Aim,
    lines: usize,
    sections: usize,
    numbers: usize,
    strings: usize,
    values: usize,
    /// sections that are unfixed
    loose: Vec<bool>,
}

impl Shape {
    fn new(rng: &mut Rng, aim: Aim, small: bool) -> Self {
        let lines = if rng.chance(60) { 1 } else { 1 + rng.below(4) };
        let more = if small { rng.below(7) } else { 6 + rng.below(30) };
        let share = match aim {
            Aim::Combinable | Aim::Linked => 0,
            _ => rng.pick(&[0, 20, 50]),
        };
        let sections = lines + more;
        let keep_lines = aim != Aim::Anything;
        let loose = (0..sections)
            .map(|i| (i >= lines || !keep_lines) && rng.chance(share))
            .collect();
        Shape {
            aim,
            lines,
            sections,
            numbers: rng.pick(&[0, 1, 2, 2, 3, 4]),
            strings: rng.below(4),
            values: rng.pick(&[0, 1, 2, 2, 3, 4]),
            loose,
        }
    }

    fn target(&self, rng: &mut Rng) -> usize {
        let fixed: Vec<usize> = (0..self.sections).filter(|&i| !self.loose[i]).collect();
        if self.aim == Aim::Cleanable {
            rng.pick(&fixed)
        } else {
            rng.below(self.sections)
        }
    }

    fn field(&self, rng: &mut Rng, kind: Kind) -> u16 {
        (match kind {
            Kind::Unused => 0,
            Kind::NumReg => rng.below(self.numbers),
            Kind::StrReg => rng.below(self.strings),
            Kind::ValReg => rng.below(self.values),
            Kind::Section => self.target(rng),
        }) as u16
    }

    fn ins(&self, rng: &mut Rng) -> Option<Ins> {
        let op = match rng.below(10) {
            0..=4 => rng.pick(&DUPLICATING),
            5 | 6 => rng.below(2) as u8,
            _ => rng.below(OPCODES.len()) as u8,
        };
        let kinds = OPCODES[usize::from(op)].1;
        let lacks = |kind, count| count == 0 && kinds.contains(&kind);
        if lacks(Kind::NumReg, self.numbers) || lacks(Kind::StrReg, self.strings) || lacks(Kind::ValReg, self.values) {
            return None;
        }
        let mut fields = kinds.map(|kind| self.field(rng, kind));
        if kinds[0] == kinds[1] && rng.chance(60) {
            fields[1] = fields[0];
        }
        Some(Ins { op, fields })
    }

    fn next(&self, rng: &mut Rng, i: usize, taken: &mut [bool]) -> Next {
        if self.loose[i] {
            return Next::Unfixed;
        }
        let free: Vec<usize> = (i + 1..self.sections).filter(|&s| !taken[s]).collect();
        let section = match rng.below(20) {
            // a link of its own, so that there is something to join
            0..=9 if !free.is_empty() => {
                let near = free.len().min(3);
                free[rng.below(near)]
            }
            10..=12 => rng.below(self.lines),
            13 => i,
            14..=16 if self.numbers > 0 => return Next::Line(rng.below(self.numbers) as u16),
            _ if self.aim == Aim::Combinable => i + rng.below(self.sections - i),
            _ => rng.below(self.sections),
        };
        taken[section] = true;
        Next::Section(section as u16)
    }

    fn machine(&self, rng: &mut Rng) -> Machine {
        let mut taken = vec![false; self.sections];
        let sections = (0..self.sections)
            .map(|i| {
                let next = self.next(rng, i, &mut taken);
                let code: Vec<Ins> = (0..rng.below(5)).filter_map(|_| self.ins(rng)).collect();
                let placeholder = next == Next::Unfixed && code.is_empty() && rng.chance(60);
                Sect {
                    start: i < self.lines || placeholder,
                    next,
                    code,
                }
            })
            .collect();
        let pool: Vec<u8> = (0..rng.below(9)).map(|_| rng.next() as u8).collect();
        let span = |rng: &mut Rng| {
            let start = rng.below(pool.len() + 1);
            Span {
                start: start as u16,
                length: rng.below(pool.len() - start + 1) as u8,
            }
        };
        let name = |rng: &mut Rng| {
            if self.values == 0 || rng.chance(40) {
                MARK
            } else {
                rng.below(self.values) as u16
            }
        };
        Machine {
            lines: self.lines,
            sections,
            numbers: (0..self.numbers)
                .map(|_| rng.pick(&[0, 1_000, -1, i64::MIN, i64::MAX]))
                .collect(),
            names: (0..rng.below(4)).map(|_| name(rng)).collect(),
            strings: (0..self.strings).map(|_| span(rng)).collect(),
            pool,
            values: self.values,
        }
    }
}

/// Mostly what the operation takes, sometimes what it refuses.
pub fn random(rng: &mut Rng, op: Op, small: bool) -> Machine {
    let aim = match op {
        _ if rng.chance(20) => Aim::Anything,
        Op::Combine if rng.chance(25) => Aim::Linked,
        Op::Replace => Aim::Anything,
        Op::Clean => Aim::Cleanable,
        Op::Combine => Aim::Combinable,
    };
    Shape::new(rng, aim, small).machine(rng)
}

/// A tree's machine on the way to being finished.
fn of_tree(rng: &mut Rng, op: Op, most_bytes: usize) -> Machine {
    let (tree, _) = trees::sized(rng, most_bytes);
    let options = Options::of_number(rng.below(4) as u8);
    let stage = if rng.chance(85) { Stage::Lower } else { Stage::Finish };
    let mut machine = machine_of(stage, &tree, options);
    if op == Op::Combine && rng.chance(90) {
        machine = machine.then(|machine| pass(Op::Clean, &machine));
    }
    match machine {
        Answer::Done(machine) => machine,
        _ => panic!("yogi panicked on a valid tree"),
    }
}

// ---- lent tables

fn more<T>(rng: &mut Rng, table: &mut Vec<T>, guard: impl Fn(u64) -> T) {
    for _ in 0..rng.pick(&[0, 0, 1, 2, 3]) {
        table.push(guard(rng.next()));
    }
}

/// The machine's words with room behind them that holds old words.
pub fn lend(rng: &mut Rng, machine: &Machine) -> (Counts, Tables) {
    let (counts, mut tables) = pack(machine);
    more(rng, &mut tables.sections, |w| w);
    more(rng, &mut tables.instrs, |w| w);
    more(rng, &mut tables.numbers, |w| w as i64);
    more(rng, &mut tables.strings, |w| w as u32);
    more(rng, &mut tables.pool, |w| w as u8);
    more(rng, &mut tables.names, |w| w as u16);
    (counts, tables)
}

// ---- all in turn

/// `most_bytes` bounds the trees that machines come from; only without a bound are there tables of 65,535.
pub fn cases(seed: u64, count: usize, most_bytes: usize) -> Vec<Case> {
    let mut rng = Rng::new(seed);
    let mut fixed = fixed_machines::cases(most_bytes).into_iter();
    let mut how = 0;
    (0..count)
        .map(|i| {
            if let Some(case) = if i % 4 == 0 { fixed.next() } else { None } {
                return case;
            }
            let op = rng.pick(&Op::ALL);
            if i % 4 == 1 {
                how = (how + 1) % BREAKAGES;
                return broken(&mut rng, op, how);
            }
            let machine = if rng.chance(35) {
                of_tree(&mut rng, op, most_bytes.min(150))
            } else {
                let small = rng.chance(85);
                random(&mut rng, op, small)
            };
            let (counts, tables) = lend(&mut rng, &machine);
            (op, counts, tables)
        })
        .collect()
}
