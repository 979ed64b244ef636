//! Each refusal, by a call that meets it; what is lent stays as it is.

mod common;
use common::*;
use sezkibalo::raw::{self, Lent};
use sezkibalo::*;

const GUARD: u8 = 0x5a;

/// Tables of this room, full of guard words.
fn guarded(room: &Counts) -> Tables {
    let word = u64::from_ne_bytes([GUARD; 8]);
    Tables {
        sections: vec![word; room.sections],
        instructions: vec![word; room.instructions],
        numbers: vec![word as i64; room.numbers],
        strings: vec![word as u32; room.strings],
        pool: vec![GUARD; room.characters],
        names: vec![word as u16; room.names],
    }
}

/// The same refusal from size, lower and finish, and nothing written.
fn tree_refused(tree: &[u8], refusal: Refusal) {
    assert_eq!(raw::size(tree), Err(refusal));
    let room = Counts { sections: 9, instructions: 9, numbers: 9, strings: 9, characters: 9, names: 9, ..Counts::default() };
    for build in [raw::lower, raw::finish] as [fn(&[u8], CodegenOptions, Lent) -> Result<Counts, Refusal>; 2] {
        let mut tables = guarded(&room);
        assert_eq!(build(tree, CodegenOptions::default(), tables.lend()), Err(refusal));
        assert_eq!(tables, guarded(&room));
    }
    assert_eq!(Machine::finish(tree, CodegenOptions::default()), Err(refusal));
}

#[test]
fn of_the_file() {
    tree_refused(&[2, 1, 0, 0], Refusal::Form);
    tree_refused(&[1, 0], Refusal::NoLines);
    tree_refused(&[], Refusal::Ends);
    tree_refused(&[1, 1, 0], Refusal::Ends);
    tree_refused(&[1, 1, 0, 0x04], Refusal::Ends);
    // a goto by an expression of kind 7
    tree_refused(&[1, 1, 0, 0x04, 0xe0], Refusal::Unassigned);
    // an increment of name 0 where there are none
    tree_refused(&[1, 1, 0, 0x06, 0x80, 0x00], Refusal::NoName);
    // the name x twice; the names x and X
    tree_refused(&[1, 1, 2, 0x01, 0xe0, 0x07, 0x80, 0x00], Refusal::SameNames);
    tree_refused(&[1, 1, 2, 0x01, 0xe0, 0x05, 0x80, 0x00], Refusal::SameNames);
    tree_refused(&[1, 1, 0, 0, 0], Refusal::Left);
    tree_refused(&[1, 1, 0, 1], Refusal::Left);
}

#[test]
fn of_the_limits() {
    assert!(Machine::finish(&bytes(&deep(64)), CodegenOptions::default()).is_ok());
    tree_refused(&bytes(&deep(65)), Refusal::TooDeep);
    assert_eq!(size(&bytes(&many(2048))).unwrap().nodes, 2048);
    tree_refused(&bytes(&many(2049)), Refusal::TooManyNodes);
    tree_refused(&vec![0; 32_769], Refusal::TooLong);
}

#[test]
fn of_short_tables() {
    let tree = bytes(&mixed(2, 100));
    let need = size(&tree).unwrap().estimate();
    let row = need.row();
    for table in [1, 2, 3, 4, 5, 7] {
        let mut short = row;
        short[table] -= 1;
        let room = Counts::of_row(short);
        for build in [raw::lower, raw::finish] as [fn(&[u8], CodegenOptions, Lent) -> Result<Counts, Refusal>; 2] {
            let mut tables = guarded(&room);
            assert_eq!(build(&tree, CodegenOptions::default(), tables.lend()), Err(Refusal::NoRoom), "table {table}");
            assert_eq!(tables, guarded(&room));
        }
    }
}

fn machine(sections: Vec<u64>, instructions: Vec<u64>) -> Machine {
    let counts = Counts { lines: 1, sections: sections.len(), instructions: instructions.len(), numbers: 1, values: 1, ..Counts::default() };
    Machine::of_words(counts, Tables { sections, instructions, numbers: vec![0], ..Tables::default() })
}

#[test]
fn of_machines() {
    let refused = |before: Machine, pass: fn(&mut Machine) -> Result<(), Refusal>, refusal| {
        let mut after = before.clone();
        assert_eq!(pass(&mut after), Err(refusal));
        assert_eq!(after, before);
    };
    // a subtraction of a number from itself copies an added zero, and there is no slot
    let sub = Instruction::SubNum(NumReg(0), NumReg(0)).word();
    refused(machine(vec![section(1, 0, 0, 1)], vec![sub]), Machine::replace, Refusal::NoRoom);
    // section 0 is no line start
    for pass in [Machine::replace, Machine::clean, Machine::combine] {
        refused(machine(vec![section(0, 0, 0, 0)], vec![]), pass, Refusal::BadWords);
    }
    refused(machine(vec![section(1, 65_535, 0, 0)], vec![]), Machine::clean, Refusal::NeedsUnfixed);
    let jump = Instruction::JumpIfError(Section(1)).word();
    refused(machine(vec![section(1, 0, 0, 1), section(0, 65_535, 1, 0)], vec![jump]), Machine::clean, Refusal::NeedsUnfixed);
    refused(machine(vec![section(1, 0, 0, 0), section(0, 65_535, 0, 0)], vec![]), Machine::combine, Refusal::Unfixed);
    let back = vec![section(1, 1, 0, 0), section(0, 0, 0, 0), section(0, 1, 0, 0)];
    refused(machine(back, vec![]), Machine::combine, Refusal::LinkBack);
}

#[test]
fn each_has_its_number_and_sentence() {
    for (i, &refusal) in Refusal::ALL.iter().enumerate() {
        assert_eq!(refusal.number(), i as u64 + 1);
        assert_eq!(Refusal::of_number(refusal.number()), Some(refusal));
        assert!(refusal.to_string().ends_with(refusal.sentence()));
    }
    assert_eq!(Refusal::ALL.len(), 15);
    assert_eq!(Refusal::of_number(0), None);
    assert_eq!(Refusal::of_number(16), None);
}
