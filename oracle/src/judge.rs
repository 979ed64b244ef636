//! The operations of docs/FORMAT.md: their refusals are decided here, the machine comes from yogi.

use crate::limits::*;
use crate::machine::{pack, sound, span_fits, unpack, Counts, Machine, Next, Sect, Span, Tables};
use crate::tree::{decode, Size, Tree};
use crate::yogi::ir::glue;
use std::cell::Cell;
use std::panic::{catch_unwind, AssertUnwindSafe};

#[derive(Debug, Clone, PartialEq, Eq)]
pub enum Answer<T> {
    Refused(u8),
    Done(T),
    /// yogi panicked on what the rules do not refuse
    Panic,
}

impl<T> Answer<T> {
    pub fn map<U>(self, f: impl FnOnce(T) -> U) -> Answer<U> {
        match self {
            Answer::Refused(n) => Answer::Refused(n),
            Answer::Done(x) => Answer::Done(f(x)),
            Answer::Panic => Answer::Panic,
        }
    }

    pub fn then<U>(self, f: impl FnOnce(T) -> Answer<U>) -> Answer<U> {
        match self {
            Answer::Refused(n) => Answer::Refused(n),
            Answer::Done(x) => f(x),
            Answer::Panic => Answer::Panic,
        }
    }

    /// `R n`, `panic`, or what `show` makes of the result.
    pub fn show(&self, show: impl FnOnce(&T) -> String) -> String {
        match self {
            Answer::Refused(n) => format!("R {n}"),
            Answer::Done(x) => show(x),
            Answer::Panic => "panic".into(),
        }
    }
}

impl<T> From<Result<T, u8>> for Answer<T> {
    fn from(result: Result<T, u8>) -> Self {
        result.map_or_else(Answer::Refused, Answer::Done)
    }
}

// ---- yogi's panics

thread_local!(static QUIET: Cell<bool> = const { Cell::new(false) });

/// Panics inside yogi are answers and print nothing.
pub fn hush_yogi() {
    let usual = std::panic::take_hook();
    std::panic::set_hook(Box::new(move |info| {
        if !QUIET.get() {
            usual(info);
        }
    }));
}

pub fn ask_yogi<T>(call: impl FnOnce() -> T) -> Answer<T> {
    QUIET.set(true);
    let result = catch_unwind(AssertUnwindSafe(call));
    QUIET.set(false);
    result.map_or(Answer::Panic, Answer::Done)
}

// ---- trees

#[derive(Debug, Clone, Copy, PartialEq, Eq)]
pub struct Options {
    pub locals: bool,
    pub globals: bool,
}

impl Options {
    pub const DEFAULT: u8 = 2;

    pub fn of_number(n: u8) -> Self {
        Options {
            locals: n & 1 == 1,
            globals: n & 2 == 2,
        }
    }
}

#[derive(Debug, Clone, Copy, PartialEq, Eq)]
pub enum Stage {
    Lower,
    Finish,
}

pub fn size(bytes: &[u8]) -> Answer<Size> {
    decode(bytes).map(|tree| Size::of(&tree)).into()
}

pub fn machine_of(stage: Stage, tree: &Tree, options: Options) -> Answer<Machine> {
    ask_yogi(|| match stage {
        Stage::Lower => glue::lower(tree, options.locals, options.globals),
        Stage::Finish => glue::finish(tree, options.locals, options.globals),
    })
}

/// How much of each table a tree may need.
pub fn estimate(size: &Size) -> Counts {
    Counts {
        lines: size.lines,
        sections: size.lines + SECTIONS_A_STATEMENT * size.statements,
        instrs: INSTRS_A_NODE * size.nodes,
        numbers: NUMBERS_A_NODE * size.nodes,
        strings: size.strings,
        pool: size.characters,
        values: 0,
        names: size.names,
    }
}

fn holds(lent: &Tables, need: &Counts) -> bool {
    let room = lent.counts(0, 0);
    room.row()[1..6]
        .iter()
        .zip(&need.row()[1..6])
        .all(|(room, need)| room >= need)
        && room.names >= need.names
}

/// Lower or finish: the answer, and the lent tables afterwards.
pub fn build(stage: Stage, bytes: &[u8], options: Options, lent: &Tables) -> (Answer<Counts>, Tables) {
    let machine = Answer::from(decode(bytes)).then(|tree| {
        let need = estimate(&Size::of(&tree));
        if !holds(lent, &need) {
            return Answer::Refused(R_ROOM);
        }
        machine_of(stage, &tree, options).map(|machine| (need, machine))
    });
    match machine {
        Answer::Done((need, machine)) => {
            let (counts, words) = pack(&machine);
            (Answer::Done(counts), lent.written(&need, &words))
        }
        Answer::Refused(n) => (Answer::Refused(n), lent.clone()),
        Answer::Panic => (Answer::Panic, lent.clone()),
    }
}

// ---- machines

#[derive(Debug, Clone, Copy, PartialEq, Eq)]
pub enum Op {
    Replace,
    Clean,
    Combine,
}

impl Op {
    pub const ALL: [Op; 3] = [Op::Replace, Op::Clean, Op::Combine];

    pub fn name(self) -> &'static str {
        match self {
            Op::Replace => "replace",
            Op::Clean => "clean",
            Op::Combine => "combine",
        }
    }

    pub fn of_name(name: &str) -> Option<Op> {
        Op::ALL.into_iter().find(|op| op.name() == name)
    }
}

fn is_fixed(machine: &Machine, section: usize) -> bool {
    machine.sections[section].next != Next::Unfixed
}

/// The sections that jumps lead to.
pub fn jump_targets(machine: &Machine) -> impl Iterator<Item = usize> + '_ {
    machine
        .sections
        .iter()
        .flat_map(|section| &section.code)
        .filter(|ins| ins.is_jump())
        .map(|ins| usize::from(ins.fields[0]))
}

fn clean_refusal(machine: &Machine) -> Option<u8> {
    let lines_fixed = (0..machine.lines).all(|i| is_fixed(machine, i));
    let jumps_fixed = jump_targets(machine).all(|target| is_fixed(machine, target));
    (!lines_fixed || !jumps_fixed).then_some(R_CLEAN)
}

fn combine_refusal(machine: &Machine) -> Option<u8> {
    let all_fixed = (0..machine.sections.len()).all(|i| is_fixed(machine, i));
    let backwards = |(i, section): (usize, &Sect)| match section.next {
        Next::Section(s) => usize::from(s) < i && !machine.sections[usize::from(s)].start,
        _ => false,
    };
    if !all_fixed {
        Some(R_UNFIXED)
    } else if machine.sections.iter().enumerate().any(backwards) {
        Some(R_BACKWARDS)
    } else {
        None
    }
}

fn refusal(op: Op, machine: &Machine) -> Option<u8> {
    match op {
        Op::Replace => None,
        Op::Clean => clean_refusal(machine),
        Op::Combine => combine_refusal(machine),
    }
}

/// yogi's pass on a machine, whatever the rules say of it.
pub fn pass(op: Op, machine: &Machine) -> Answer<Machine> {
    ask_yogi(|| match op {
        Op::Replace => glue::replace(machine),
        Op::Clean => glue::clean(machine),
        Op::Combine => glue::combine(machine),
    })
}

/// Has each number and string a slot and a count that is allowed?
fn has_slots(machine: &Machine, lent: &Tables) -> bool {
    let fits = |count: usize, room: usize| count <= room && count <= MOST_COUNT;
    fits(machine.numbers.len(), lent.numbers.len()) && fits(machine.strings.len(), lent.strings.len())
}

fn changed(op: Op, counts: &Counts, lent: &Tables) -> Answer<Machine> {
    if !sound(counts, lent) {
        return Answer::Refused(R_WORDS);
    }
    let machine = unpack(counts, lent);
    if let Some(n) = refusal(op, &machine) {
        return Answer::Refused(n);
    }
    pass(op, &machine).then(|after| {
        if has_slots(&after, lent) {
            Answer::Done(after)
        } else {
            Answer::Refused(R_ROOM)
        }
    })
}

/// Replace, clean or combine: the answer, and the lent tables afterwards.
pub fn change(op: Op, counts: &Counts, lent: &Tables) -> (Answer<Counts>, Tables) {
    match changed(op, counts, lent) {
        Answer::Done(machine) => {
            let (after, words) = pack(&machine);
            (Answer::Done(after), lent.written(counts, &words))
        }
        Answer::Refused(n) => (Answer::Refused(n), lent.clone()),
        Answer::Panic => (Answer::Panic, lent.clone()),
    }
}

// ---- text

/// Where a string register's text stands in the pool; empty at the pool's end where register or word is bad. A table counts 65,535 words at
/// most: what stands behind is no register's.
pub fn text(strings: &[u32], pool: &[u8], register: usize) -> (usize, usize) {
    match strings.get(register) {
        Some(&word) if register < MOST_COUNT && span_fits(pool.len(), word) => {
            let span = Span::of_word(word);
            (span.start.into(), span.length.into())
        }
        _ => (pool.len(), 0),
    }
}
