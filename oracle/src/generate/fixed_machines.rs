//! Machines that are there at every seed.

use super::machines::Case;
use crate::judge::Op;
use crate::limits::*;
use crate::line;
use crate::machine::{pack, Ins, Machine, Next, Sect, Span};

const JUMP_IF_ERROR: u8 = 1;
const SUB_NUM: u8 = 20;
const SUB_STR: u8 = 21;
const EQ: u8 = 32;

const FIXED: [&str; 9] = [
    // 13 and 15 where yogi itself would go on
    "clean 1 2 1 1 0 0 1 0|8000000000000000 3fffc00000004000|400040000000000|0|||",
    "combine 1 3 0 1 0 0 1 0|8000400000000000 4000000000000000 400000000000||0|||",
    // joins backwards
    "combine 1 3 3 1 0 0 1 0|8000000000000000 4000000000004000 400040008000|400000000000000 400000000000000 400000000000000|0|||",
    "combine 1 4 3 1 0 0 1 0|8000000000000000 4000000000004000 400040008000 c0000000|400000000000000 400000000000000 400000000000000|0|||",
    // self loops, and a section that a jump alone refers to
    "combine 1 3 1 0 0 0 0 0|8000000000004000 400040000000 800040000000|400040000000000||||",
    "combine 1 2 1 0 0 0 0 0|8000400000004000 40000000|400040000000000||||",
    "combine 1 2 0 0 0 0 0 0|8000400000000000 0|||||",
    // a line that is unfixed; two placeholders
    "clean 1 1 0 0 0 0 0 0|bfffc00000000000|||||",
    "clean 1 4 0 0 0 0 0 0|8000800000000000 bfffc00000000000 c00000000000 bfffc00000000000|||||",
];

fn of_text(text: &str) -> Case {
    let (op, rest) = text.split_once(' ').unwrap();
    let (counts, tables) = line::parse(rest).expect("a fixed machine");
    (Op::of_name(op).unwrap(), counts, tables)
}

fn one_section(code: Vec<Ins>) -> Machine {
    Machine {
        lines: 1,
        sections: vec![Sect {
            start: true,
            next: Next::Section(0),
            code,
        }],
        numbers: vec![5],
        strings: vec![Span { start: 0, length: 0 }],
        pool: vec![],
        values: 1,
        names: vec![],
    }
}

/// Replacement that adds registers, with as many free slots as said.
fn slots(numbers: usize, strings: usize) -> Case {
    let code = [SUB_NUM, EQ, SUB_STR, SUB_NUM, SUB_STR].map(|op| Ins { op, fields: [0; 3] });
    let (counts, mut tables) = pack(&one_section(code.into()));
    tables.numbers.resize(1 + numbers, -7);
    tables.strings.resize(1 + strings, 77);
    (Op::Replace, counts, tables)
}

/// Tables so long that a count can be 65,535 or one more.
fn full() -> Vec<Case> {
    let mut out = vec![];
    for count in [MOST_COUNT, MOST_COUNT + 1] {
        let mut numbers = one_section(vec![]);
        numbers.numbers = vec![0; count];
        let mut strings = one_section(vec![]);
        strings.strings = vec![Span { start: 0, length: 0 }; count];
        let mut pool = one_section(vec![]);
        pool.pool = vec![65; count];
        let mut names = one_section(vec![]);
        names.names = vec![MARK; count];
        let mut sections = one_section(vec![]);
        sections.sections.resize(
            count,
            Sect {
                start: false,
                next: Next::Section(0),
                code: vec![],
            },
        );
        let jump = Ins {
            op: JUMP_IF_ERROR,
            fields: [0; 3],
        };
        let mut instrs = one_section(vec![jump; 65_535]);
        let rest = vec![jump; count - 65_535];
        instrs.sections.push(Sect {
            start: false,
            next: Next::Section(0),
            code: rest,
        });
        for machine in [numbers, strings, pool, names, sections, instrs] {
            let (counts, tables) = pack(&machine);
            out.extend(Op::ALL.map(|op| (op, counts, tables.clone())));
        }
    }
    // no number may be added to 65,535 though there is room, nor a string
    for op in [SUB_NUM, SUB_STR] {
        let mut machine = one_section(vec![Ins { op, fields: [0; 3] }]);
        machine.numbers = vec![0; MOST_COUNT];
        machine.strings = vec![Span { start: 0, length: 0 }; MOST_COUNT];
        let (counts, mut tables) = pack(&machine);
        tables.numbers.push(9);
        tables.strings.push(9);
        out.push((Op::Replace, counts, tables));
    }
    out
}

/// Tables of 65,535 words only where the bound is above that of a tree's bytes.
pub fn cases(most_bytes: usize) -> Vec<Case> {
    let mut out: Vec<Case> = FIXED.map(of_text).into();
    for numbers in 0..5 {
        for strings in 0..4 {
            out.push(slots(numbers, strings));
        }
    }
    if most_bytes > MOST_BYTES {
        out.extend(full());
    }
    out
}
