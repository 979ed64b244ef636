//! Machines that break a rule of "Machine words", one at a time.

use super::machines::{lend, random, Case};
use crate::judge::Op;
use crate::limits::*;
use crate::machine::{Counts, Ins, Kind, Next, Run, Span, Tables, OPCODES};
use crate::rng::Rng;

/// The ways of breaking a rule.
pub const BREAKAGES: usize = 30;

fn replace_field(word: &mut u64, shift: usize, value: usize) {
    *word = *word & !(65_535 << shift) | (value as u64) << shift;
}

/// An instruction with a field of a kind that passes the test: its number, and where the field stands.
fn some_field(
    rng: &mut Rng,
    counts: &Counts,
    tables: &Tables,
    wanted: fn(Kind) -> bool,
) -> Option<(usize, usize, Kind)> {
    let mut all = vec![];
    for i in 0..counts.instrs {
        let ins = Ins::of_word(tables.instrs[i]);
        for (j, &kind) in OPCODES[usize::from(ins.op)].1.iter().enumerate() {
            if wanted(kind) {
                all.push((i, 42 - 16 * j, kind));
            }
        }
    }
    (!all.is_empty()).then(|| rng.pick(&all))
}

fn bound(counts: &Counts, kind: Kind) -> usize {
    match kind {
        Kind::Unused => 1,
        Kind::NumReg => counts.numbers,
        Kind::StrReg => counts.strings,
        Kind::ValReg => counts.values,
        Kind::Section => counts.sections,
    }
}

fn break_ins(rng: &mut Rng, how: usize, counts: &Counts, tables: &mut Tables) -> Option<()> {
    if counts.instrs == 0 {
        return None;
    }
    let any = rng.below(counts.instrs);
    match how {
        0 => tables.instrs[any] |= 1 << rng.below(10),
        1 => {
            let (i, shift, _) = some_field(rng, counts, tables, |kind| kind == Kind::Unused)?;
            tables.instrs[i] |= 1 << (shift + rng.below(16));
        }
        2 => {
            let (i, shift, kind) = some_field(rng, counts, tables, |kind| {
                kind != Kind::Unused && kind != Kind::Section
            })?;
            let value = rng.pick(&[bound(counts, kind), bound(counts, kind) + 1, 65_535]);
            replace_field(&mut tables.instrs[i], shift, value);
        }
        3 => {
            let (i, shift, kind) = some_field(rng, counts, tables, |kind| kind == Kind::Section)?;
            let value = rng.pick(&[bound(counts, kind), 65_534, 65_535]);
            replace_field(&mut tables.instrs[i], shift, value);
        }
        _ => tables.instrs[any] = (53 + rng.below(11) as u64) << 58,
    }
    Some(())
}

fn break_section(rng: &mut Rng, how: usize, counts: &Counts, tables: &mut Tables) -> Option<()> {
    let any = rng.below(counts.sections);
    let word = tables.sections[any];
    let run = Run::of_word(word);
    let last = &mut tables.sections[counts.sections - 1];
    match how {
        5 => tables.sections[any] |= 1 << rng.below(14),
        6 => {
            let target = rng.pick(&[counts.sections, 65_534]) as u16;
            tables.sections[any] = Run {
                next: Next::Section(target),
                ..run
            }
            .word();
        }
        7 => {
            let register = rng.pick(&[counts.numbers, 65_535]) as u16;
            tables.sections[any] = Run {
                next: Next::Line(register),
                ..run
            }
            .word();
        }
        8 => {
            tables.sections[any] = Run {
                first: run.first.wrapping_add(rng.pick(&[1, 65_535])),
                ..run
            }
            .word()
        }
        9 => {
            tables.sections[any] = Run {
                count: run.count.wrapping_add(rng.pick(&[1, 65_535])),
                ..run
            }
            .word()
        }
        10 => {
            *last = Run {
                count: Run::of_word(*last).count.checked_sub(1)?,
                ..Run::of_word(*last)
            }
            .word()
        }
        11 => tables.sections[rng.below(counts.lines)] &= !(1 << 63),
        12 => {
            let later = counts.sections - counts.lines;
            let i = counts.lines + if later == 0 { return None } else { rng.below(later) };
            tables.sections[i] |= 1 << 63;
        }
        // two runs over the same instructions, and a gap before the next
        _ => {
            let next = tables.sections.get_mut(any + 1).filter(|_| any + 1 < counts.sections)?;
            let other = Run::of_word(*next);
            *next = Run {
                first: run.first,
                count: other.count.wrapping_add(run.count),
                ..other
            }
            .word();
            tables.sections[any] = Run {
                first: other.first,
                count: 0,
                ..run
            }
            .word();
        }
    }
    Some(())
}

fn break_count(rng: &mut Rng, how: usize, counts: &mut Counts, tables: &mut Tables) -> Option<()> {
    match how {
        14 => counts.lines = 0,
        15 => counts.lines = 256,
        16 => counts.lines = counts.sections + 1,
        17 => counts.lines -= 1,
        18 => counts.lines += 1,
        19 => counts.sections = tables.sections.len() + 1,
        20 => counts.instrs = tables.instrs.len() + 1,
        21 => counts.numbers = tables.numbers.len() + 1,
        22 => counts.strings = tables.strings.len() + 1,
        23 => counts.pool = tables.pool.len() + 1,
        24 => counts.names = tables.names.len() + 1,
        25 => counts.values = 65_536,
        26 => counts.instrs = counts.instrs.checked_sub(1)?,
        27 if counts.strings > 0 => tables.strings[rng.below(counts.strings)] |= 1 << rng.below(9),
        28 if counts.strings > 0 => {
            let start = rng.below(counts.pool + 1);
            let length = (counts.pool + 1 - start).min(MOST_STRING);
            tables.strings[rng.below(counts.strings)] = Span {
                start: start as u16,
                length: length as u8,
            }
            .word();
        }
        29 if counts.names > 0 => tables.names[rng.below(counts.names)] = rng.pick(&[counts.values as u16, 65_534]),
        _ => return None,
    }
    Some(())
}

/// Breaks one rule, unless the machine has no place for that.
fn break_rule(rng: &mut Rng, how: usize, counts: &mut Counts, tables: &mut Tables) -> Option<()> {
    match how {
        0..=4 => break_ins(rng, how, counts, tables),
        5..=13 => break_section(rng, how, counts, tables),
        _ => break_count(rng, how, counts, tables),
    }
}

pub fn broken(rng: &mut Rng, op: Op, how: usize) -> Case {
    loop {
        let machine = random(rng, op, true);
        let (mut counts, mut tables) = lend(rng, &machine);
        if break_rule(rng, how, &mut counts, &mut tables).is_some() {
            return (op, counts, tables);
        }
    }
}

/// Machines broken in the one way.
#[cfg(test)]
pub fn broken_so(how: usize, count: usize) -> Vec<Case> {
    let mut rng = Rng::new(how as u64);
    (0..count).map(|i| broken(&mut rng, Op::ALL[i % 3], how)).collect()
}
