//! What the program finlist prints, from yogi's finished machine.

use crate::bits::hex;
use crate::judge::{estimate, machine_of, Answer, Options, Stage};
use crate::limits::*;
use crate::machine::{Machine, Run, Sect};
use crate::tree::{decode, Size};
use std::fmt::Write;

fn finished(bytes: &[u8]) -> Answer<Machine> {
    if bytes.len() > FINLIST_BYTES {
        return Answer::Refused(R_BYTES);
    }
    Answer::from(decode(bytes)).then(|tree| {
        let need = estimate(&Size::of(&tree));
        let fits =
            need.instrs <= FINLIST_INSTRS && need.sections <= FINLIST_SECTIONS && need.numbers <= FINLIST_NUMBERS;
        if !fits {
            return Answer::Refused(R_ROOM);
        }
        machine_of(Stage::Finish, &tree, Options::of_number(Options::DEFAULT))
    })
}

pub fn finlist(bytes: &[u8]) -> String {
    finished(bytes).show(rows).trim_end().to_string() + "\n"
}

fn rows(machine: &Machine) -> String {
    let mut out = String::new();
    let (numbers, strings) = (machine.numbers.len(), machine.strings.len());
    writeln!(
        out,
        "M {} {} {numbers} {strings} {}",
        machine.lines,
        machine.sections.len(),
        machine.values
    )
    .unwrap();
    for (i, n) in machine.numbers.iter().enumerate() {
        writeln!(out, "N {i} {n}").unwrap();
    }
    for (i, span) in machine.strings.iter().enumerate() {
        let text = hex(&machine.pool[span.start.into()..span.end()]);
        writeln!(
            out,
            "T {i} {} {}",
            span.length,
            if text.is_empty() { "-" } else { &text }
        )
        .unwrap();
    }
    for (i, name) in machine.names.iter().enumerate().filter(|(_, &name)| name != MARK) {
        writeln!(out, "V {i} {name}").unwrap();
    }
    for (i, section) in machine.sections.iter().enumerate() {
        out += &section_rows(i, section);
    }
    out
}

fn section_rows(i: usize, section: &Sect) -> String {
    let mut out = String::new();
    let count = section.code.len();
    let word = Run {
        start: section.start,
        next: section.next,
        first: 0,
        count: 0,
    }
    .word();
    writeln!(
        out,
        "S {i} {} {} {} {count}",
        word >> 63,
        word >> 62 & 1,
        word >> 46 & 65_535
    )
    .unwrap();
    for ins in &section.code {
        let [a, b, c] = ins.fields;
        writeln!(out, "I {} {a} {b} {c}", ins.op).unwrap();
    }
    out
}
