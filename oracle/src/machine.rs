//! A machine: as sections, as words in lent tables, and the rules of "Machine words".

use crate::limits::*;

#[derive(Debug, Clone, Copy, PartialEq, Eq)]
pub enum Kind {
    Unused,
    NumReg,
    StrReg,
    ValReg,
    Section,
}

// the 53 opcodes with the kinds of their fields, as yogi declares them
include!(concat!(env!("OUT_DIR"), "/yogi/opcodes.rs"));

/// Their numbers, in the order of the declaration.
#[allow(non_upper_case_globals, dead_code)]
pub mod op {
    include!(concat!(env!("OUT_DIR"), "/yogi/numbers.rs"));
}

#[derive(Debug, Clone, Copy, PartialEq, Eq)]
pub struct Ins {
    pub op: u8,
    pub fields: [u16; 3],
}

#[derive(Debug, Clone, Copy, PartialEq, Eq)]
pub enum Next {
    Section(u16),
    Line(u16),
    Unfixed,
}

#[derive(Debug, Clone, PartialEq, Eq)]
pub struct Sect {
    pub start: bool,
    pub next: Next,
    pub code: Vec<Ins>,
}

#[derive(Debug, Clone, Copy, PartialEq, Eq)]
pub struct Span {
    pub start: u16,
    pub length: u8,
}

#[derive(Debug, Clone, PartialEq, Eq)]
pub struct Machine {
    pub lines: usize,
    pub sections: Vec<Sect>,
    pub numbers: Vec<i64>,
    pub strings: Vec<Span>,
    pub pool: Vec<u8>,
    pub values: usize,
    pub names: Vec<u16>,
}

/// The eight counts, in the order they have everywhere.
#[derive(Debug, Clone, Copy, PartialEq, Eq, Default)]
pub struct Counts {
    pub lines: usize,
    pub sections: usize,
    pub instrs: usize,
    pub numbers: usize,
    pub strings: usize,
    pub pool: usize,
    pub values: usize,
    pub names: usize,
}

#[derive(Debug, Clone, PartialEq, Eq, Default)]
pub struct Tables {
    pub sections: Vec<u64>,
    pub instrs: Vec<u64>,
    pub numbers: Vec<i64>,
    pub strings: Vec<u32>,
    pub pool: Vec<u8>,
    pub names: Vec<u16>,
}

impl Counts {
    pub fn row(&self) -> [usize; 8] {
        [
            self.lines,
            self.sections,
            self.instrs,
            self.numbers,
            self.strings,
            self.pool,
            self.values,
            self.names,
        ]
    }

    pub fn of_row(row: [usize; 8]) -> Self {
        let [lines, sections, instrs, numbers, strings, pool, values, names] = row;
        Counts {
            lines,
            sections,
            instrs,
            numbers,
            strings,
            pool,
            values,
            names,
        }
    }
}

// ---- words

impl Ins {
    pub fn is_jump(self) -> bool {
        OPCODES[usize::from(self.op)].1[0] == Kind::Section
    }

    /// The instruction as it is compared: a jump's target is left aside.
    pub fn shown(self) -> Self {
        let [a, b, c] = self.fields;
        Ins {
            op: self.op,
            fields: [if self.is_jump() { 0 } else { a }, b, c],
        }
    }

    pub fn word(self) -> u64 {
        let [a, b, c] = self.fields.map(u64::from);
        u64::from(self.op) << 58 | a << 42 | b << 26 | c << 10
    }

    pub fn of_word(word: u64) -> Self {
        Ins {
            op: (word >> 58) as u8,
            fields: [(word >> 42) as u16, (word >> 26) as u16, (word >> 10) as u16],
        }
    }
}

/// A section's word with its run of instructions.
#[derive(Debug, Clone, Copy, PartialEq, Eq)]
pub struct Run {
    pub start: bool,
    pub next: Next,
    pub first: u16,
    pub count: u16,
}

impl Run {
    pub fn word(self) -> u64 {
        let (kind, target) = match self.next {
            Next::Section(s) => (0, s),
            Next::Line(n) => (1, n),
            Next::Unfixed => (0, MARK),
        };
        u64::from(self.start) << 63
            | kind << 62
            | u64::from(target) << 46
            | u64::from(self.first) << 30
            | u64::from(self.count) << 14
    }

    pub fn of_word(word: u64) -> Self {
        let target = (word >> 46) as u16;
        let next = match word >> 62 & 1 {
            1 => Next::Line(target),
            _ if target == MARK => Next::Unfixed,
            _ => Next::Section(target),
        };
        Run {
            start: word >> 63 == 1,
            next,
            first: (word >> 30) as u16,
            count: (word >> 14) as u16,
        }
    }
}

impl Span {
    pub fn word(self) -> u32 {
        u32::from(self.start) << 16 | u32::from(self.length) << 9
    }

    pub fn of_word(word: u32) -> Self {
        Span {
            start: (word >> 16) as u16,
            length: (word >> 9 & 127) as u8,
        }
    }

    pub fn end(self) -> usize {
        usize::from(self.start) + usize::from(self.length)
    }
}

const INS_SPARE: u64 = (1 << 10) - 1;
const RUN_SPARE: u64 = (1 << 14) - 1;
const SPAN_SPARE: u32 = (1 << 9) - 1;

// ---- the rules

/// Do the counted words keep every rule? If not, the refusal is 12.
pub fn sound(counts: &Counts, tables: &Tables) -> bool {
    counts_fit(counts, tables)
        && tables.instrs[..counts.instrs].iter().all(|&w| ins_fits(counts, w))
        && runs_fit(counts, &tables.sections[..counts.sections])
        && tables.strings[..counts.strings]
            .iter()
            .all(|&w| span_fits(counts.pool, w))
        && tables.names[..counts.names]
            .iter()
            .all(|&n| n == MARK || usize::from(n) < counts.values)
}

fn counts_fit(counts: &Counts, tables: &Tables) -> bool {
    let held = [
        (counts.sections, tables.sections.len()),
        (counts.instrs, tables.instrs.len()),
        (counts.numbers, tables.numbers.len()),
        (counts.strings, tables.strings.len()),
        (counts.pool, tables.pool.len()),
        (counts.names, tables.names.len()),
    ];
    (1..=MOST_LINES).contains(&counts.lines)
        && counts.lines <= counts.sections
        && counts.values <= MOST_COUNT
        && held.iter().all(|&(count, room)| count <= MOST_COUNT && count <= room)
}

fn field_fits(counts: &Counts, kind: Kind, field: u16) -> bool {
    let field = usize::from(field);
    match kind {
        Kind::Unused => field == 0,
        Kind::NumReg => field < counts.numbers,
        Kind::StrReg => field < counts.strings,
        Kind::ValReg => field < counts.values,
        Kind::Section => field < counts.sections,
    }
}

/// Is this an instruction whose registers and target lie below the counts?
pub fn ins_fits(counts: &Counts, word: u64) -> bool {
    let ins = Ins::of_word(word);
    let Some((_, kinds)) = OPCODES.get(usize::from(ins.op)) else {
        return false;
    };
    word & INS_SPARE == 0 && (0..3).all(|i| field_fits(counts, kinds[i], ins.fields[i]))
}

fn next_fits(counts: &Counts, next: Next) -> bool {
    match next {
        Next::Section(s) => usize::from(s) < counts.sections,
        Next::Line(n) => usize::from(n) < counts.numbers,
        Next::Unfixed => true,
    }
}

fn runs_fit(counts: &Counts, words: &[u64]) -> bool {
    let mut reached = 0;
    for (i, &word) in words.iter().enumerate() {
        let run = Run::of_word(word);
        let start_fits = if i < counts.lines {
            run.start
        } else {
            !run.start || run.next == Next::Unfixed && run.count == 0
        };
        if word & RUN_SPARE != 0 || usize::from(run.first) != reached || !start_fits || !next_fits(counts, run.next) {
            return false;
        }
        reached += usize::from(run.count);
    }
    reached == counts.instrs
}

/// Is this the word of a string inside a pool of that length?
pub fn span_fits(pool: usize, word: u32) -> bool {
    word & SPAN_SPARE == 0 && Span::of_word(word).end() <= pool
}

// ---- between words and sections

/// The machine that sound words hold.
pub fn unpack(counts: &Counts, tables: &Tables) -> Machine {
    let section = |&word: &u64| {
        let run = Run::of_word(word);
        let first = usize::from(run.first);
        let code = &tables.instrs[first..first + usize::from(run.count)];
        Sect {
            start: run.start,
            next: run.next,
            code: code.iter().map(|&w| Ins::of_word(w)).collect(),
        }
    };
    Machine {
        lines: counts.lines,
        sections: tables.sections[..counts.sections].iter().map(section).collect(),
        numbers: tables.numbers[..counts.numbers].to_vec(),
        strings: tables.strings[..counts.strings]
            .iter()
            .map(|&w| Span::of_word(w))
            .collect(),
        pool: tables.pool[..counts.pool].to_vec(),
        values: counts.values,
        names: tables.names[..counts.names].to_vec(),
    }
}

/// A machine's counts and words, in tables of just that length.
pub fn pack(machine: &Machine) -> (Counts, Tables) {
    let mut sections = vec![];
    let mut instrs = vec![];
    for section in &machine.sections {
        let run = Run {
            start: section.start,
            next: section.next,
            first: instrs.len() as u16,
            count: section.code.len() as u16,
        };
        sections.push(run.word());
        instrs.extend(section.code.iter().map(|ins| ins.word()));
    }
    let tables = Tables {
        sections,
        instrs,
        numbers: machine.numbers.clone(),
        strings: machine.strings.iter().map(|span| span.word()).collect(),
        pool: machine.pool.clone(),
        names: machine.names.clone(),
    };
    (tables.counts(machine.lines, machine.values), tables)
}

impl Tables {
    /// Empty tables of just this room.
    pub fn of_room(need: &Counts) -> Self {
        Tables {
            sections: vec![0; need.sections],
            instrs: vec![0; need.instrs],
            numbers: vec![0; need.numbers],
            strings: vec![0; need.strings],
            pool: vec![0; need.pool],
            names: vec![0; need.names],
        }
    }

    /// The counts of tables that are in use whole.
    pub fn counts(&self, lines: usize, values: usize) -> Counts {
        Counts {
            lines,
            sections: self.sections.len(),
            instrs: self.instrs.len(),
            numbers: self.numbers.len(),
            strings: self.strings.len(),
            pool: self.pool.len(),
            values,
            names: self.names.len(),
        }
    }

    /// These lent tables after a machine's words are written: zeros up to `counts`, the rest as it was.
    pub fn written(&self, counts: &Counts, words: &Tables) -> Tables {
        Tables {
            sections: put(&self.sections, counts.sections, &words.sections),
            instrs: put(&self.instrs, counts.instrs, &words.instrs),
            numbers: put(&self.numbers, counts.numbers, &words.numbers),
            strings: put(&self.strings, counts.strings, &words.strings),
            pool: put(&self.pool, counts.pool, &words.pool),
            names: put(&self.names, counts.names, &words.names),
        }
    }
}

fn put<T: Copy + Default>(lent: &[T], upto: usize, words: &[T]) -> Vec<T> {
    let mut out = words.to_vec();
    out.resize(upto.max(words.len()), T::default());
    out.extend_from_slice(&lent[out.len()..]);
    out
}
