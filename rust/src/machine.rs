//! A machine that owns its tables.

use crate::raw::{self, CodegenOptions, Counts, Lent};
use crate::{Instruction, NumReg, Refusal, Section, StrReg, ValReg};

/// The words of a machine. A table may be longer than its count: what stands behind is room.
#[derive(Debug, Clone, PartialEq, Eq, Default)]
pub struct Tables {
    pub sections: Vec<u64>,
    pub instructions: Vec<u64>,
    pub numbers: Vec<i64>,
    pub strings: Vec<u32>,
    pub pool: Vec<u8>,
    pub names: Vec<u16>,
}

impl Tables {
    /// Zeros, as many as these counts say.
    pub fn of_room(room: &Counts) -> Self {
        Tables {
            sections: vec![0; room.sections],
            instructions: vec![0; room.instructions],
            numbers: vec![0; room.numbers],
            strings: vec![0; room.strings],
            pool: vec![0; room.characters],
            names: vec![0; room.names],
        }
    }

    pub fn lend(&mut self) -> Lent<'_> {
        Lent {
            sections: &mut self.sections,
            instructions: &mut self.instructions,
            numbers: &mut self.numbers,
            strings: &mut self.strings,
            pool: &mut self.pool,
            names: &mut self.names,
        }
    }

    fn truncate(&mut self, counts: &Counts) {
        self.sections.truncate(counts.sections);
        self.instructions.truncate(counts.instructions);
        self.numbers.truncate(counts.numbers);
        self.strings.truncate(counts.strings);
        self.pool.truncate(counts.characters);
        self.names.truncate(counts.names);
    }
}

/// Where a section leads behind its last instruction: yogi's `success`.
#[derive(Debug, Clone, Copy, PartialEq, Eq)]
pub enum Success {
    Section(Section),
    /// to the line that this number register says
    Line(NumReg),
    Unfixed,
}

/// The mark of an unfixed section, and of a name without a register.
const MARK: u16 = 65_535;

/// A section as its word says, with its instructions.
#[derive(Debug, Clone, Copy)]
pub struct SectionCode<'a> {
    pub number: Section,
    pub line_start: bool,
    pub success: Success,
    words: &'a [u64],
}

impl<'a> SectionCode<'a> {
    fn of_word(number: u16, word: u64, instructions: &'a [u64]) -> Self {
        let target = (word >> 46) as u16;
        let first = usize::from((word >> 30) as u16);
        let count = usize::from((word >> 14) as u16);
        SectionCode {
            number: Section(number),
            line_start: word >> 63 == 1,
            success: match word >> 62 & 1 {
                1 => Success::Line(NumReg(target)),
                _ if target == MARK => Success::Unfixed,
                _ => Success::Section(Section(target)),
            },
            words: instructions.get(first..first + count).unwrap_or(&[]),
        }
    }

    /// The instructions in order; nothing for a word that is none. The library's machines have no such word.
    pub fn instructions(&self) -> impl ExactSizeIterator<Item = Option<Instruction>> + 'a {
        self.words.iter().map(|&word| Instruction::of_word(word))
    }
}

#[derive(Debug, Clone, PartialEq, Eq)]
pub struct Machine {
    counts: Counts,
    tables: Tables,
}

impl Machine {
    fn build(tree: &[u8], call: impl FnOnce(Lent) -> Result<Counts, Refusal>) -> Result<Self, Refusal> {
        let mut tables = Tables::of_room(&raw::size(tree)?.estimate());
        let counts = call(tables.lend())?;
        tables.truncate(&counts);
        Ok(Machine { counts, tables })
    }

    /// The lowered machine of a tree in the tree form: yogi's `from_ast`.
    pub fn lower(tree: &[u8], options: CodegenOptions) -> Result<Self, Refusal> {
        Machine::build(tree, |lent| raw::lower(tree, options, lent))
    }

    /// The finished machine: lowered, cleaned and combined.
    pub fn finish(tree: &[u8], options: CodegenOptions) -> Result<Self, Refusal> {
        Machine::build(tree, |lent| raw::finish(tree, options, lent))
    }

    /// Any words. The calls that change a machine refuse them where they break the rules.
    pub fn of_words(counts: Counts, tables: Tables) -> Self {
        Machine { counts, tables }
    }

    pub fn counts(&self) -> &Counts {
        &self.counts
    }

    pub fn tables(&self) -> &Tables {
        &self.tables
    }

    pub fn into_words(self) -> (Counts, Tables) {
        (self.counts, self.tables)
    }

    /// Replaces duplicate operands. Where numbers or strings are added, their tables need room: see [`Machine::make_room`].
    pub fn replace(&mut self) -> Result<(), Refusal> {
        self.counts = raw::replace(&self.counts, self.tables.lend())?;
        Ok(())
    }

    /// Removes unfixed sections.
    pub fn clean(&mut self) -> Result<(), Refusal> {
        self.counts = raw::clean(&self.counts, self.tables.lend())?;
        Ok(())
    }

    /// Joins sections until no pair is left.
    pub fn combine(&mut self) -> Result<(), Refusal> {
        self.counts = raw::combine(&self.counts, self.tables.lend())?;
        Ok(())
    }

    /// Room for as many numbers and strings as replacing may add: one for each instruction.
    pub fn make_room(&mut self) {
        let (c, t) = (&self.counts, &mut self.tables);
        t.numbers.resize(t.numbers.len().max(c.numbers + c.instructions), 0);
        t.strings.resize(t.strings.len().max(c.strings + c.instructions), 0);
    }

    pub fn lines(&self) -> usize {
        self.counts.lines
    }

    /// How many value registers there are.
    pub fn values(&self) -> usize {
        self.counts.values
    }

    pub fn section(&self, number: Section) -> Option<SectionCode<'_>> {
        let word = self.tables.sections.get(..self.counts.sections)?.get(usize::from(number.0))?;
        Some(SectionCode::of_word(number.0, *word, &self.tables.instructions))
    }

    pub fn sections(&self) -> impl ExactSizeIterator<Item = SectionCode<'_>> {
        let count = self.counts.sections.min(self.tables.sections.len()).min(usize::from(u16::MAX));
        let words = &self.tables.sections[..count];
        words.iter().enumerate().map(|(i, &word)| SectionCode::of_word(i as u16, word, &self.tables.instructions))
    }

    /// The number registers' first contents, in thousandths.
    pub fn numbers(&self) -> &[i64] {
        &self.tables.numbers[..self.counts.numbers.min(self.tables.numbers.len())]
    }

    /// The first content of a string register; empty where there is no such register.
    pub fn text(&self, register: StrReg) -> &[u8] {
        let strings = &self.tables.strings[..self.counts.strings.min(self.tables.strings.len())];
        raw::text(strings, &self.tables.pool, register.0.into())
    }

    /// How many string registers there are.
    pub fn strings(&self) -> usize {
        self.counts.strings
    }

    /// The value register of the name with this number in the tree's table; nothing where it is not used or not protected.
    pub fn name(&self, number: usize) -> Option<ValReg> {
        self.tables.names.get(number).filter(|&&register| register != MARK).map(|&register| ValReg(register))
    }
}

