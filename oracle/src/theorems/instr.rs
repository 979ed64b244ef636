//! What yogi says of single instructions: one theorem a function, over a list of all its inputs.

use super::names;
use super::terms::{ins_term, integer, list};
use super::Theorem;
use crate::judge::{ask_yogi, Answer};
use crate::machine::{Ins, Kind, OPCODES};
use crate::rng::Rng;
use crate::yogi::ir::glue::instrs::*;

/// Fields that are there at every seed: different ones in several orders, equal ones, zeros.
const FIELDS: [[u16; 3]; 6] = [[3, 5, 7], [7, 3, 5], [5, 5, 3], [4, 4, 4], [0, 0, 0], [5, 7, 5]];
/// Removed numbers: below, between and above the fields, and some of the fields themselves.
const REMOVED: [u16; 6] = [0, 2, 4, 5, 6, 8];

const REGISTERS: [Kind; 3] = [Kind::NumReg, Kind::StrReg, Kind::ValReg];

/// Each opcode with so many choices of fields; what is not used is 0.
fn inputs(rng: &mut Rng, choices: usize) -> Vec<Ins> {
    let mut out = vec![];
    for (op, (_, kinds)) in OPCODES.iter().enumerate() {
        for i in 0..choices {
            let random = [0; 3].map(|_| rng.below(9) as u16);
            let fields = *FIELDS.get(i).unwrap_or(&random);
            let used = [0, 1, 2].map(|j| if kinds[j] == Kind::Unused { 0 } else { fields[j] });
            let ins = Ins {
                op: op as u8,
                fields: used,
            };
            if !out.contains(&ins) {
                out.push(ins);
            }
        }
    }
    out
}

// ---- terms

fn reg_term((kind, number): &Reg) -> String {
    format!("({}, {number})", names::kind(*kind))
}

fn option_term<T>(option: Option<T>, show: impl Fn(&T) -> String) -> String {
    option.map_or("none".into(), |x| format!("some {}", show(&x)))
}

fn kinds_term(kinds: &[Kind; 3]) -> String {
    let [a, b, c] = kinds.map(names::kind);
    format!("({a}, {b}, {c})")
}

// ---- theorems

/// The function on each input gives each answer. The first word of `function` is its name.
fn mapped(operation: &'static str, function: String, inputs: &[String], answers: &[String]) -> Theorem {
    Theorem {
        operation,
        answer: "done".into(),
        note: format!("{function} of {} inputs", inputs.len()),
        left: format!("map ({function}) {}", list(inputs, String::clone)),
        right: list(answers, String::clone),
        unfolds: operation,
    }
}

fn of_inputs(name: &'static str, inputs: &[Ins], answer: impl Fn(Ins) -> String) -> Theorem {
    let answers: Vec<String> = inputs.iter().map(|&ins| answer(ins)).collect();
    let inputs: Vec<String> = inputs.iter().map(ins_term).collect();
    mapped(name, name.into(), &inputs, &answers)
}

/// Removal of one number; inputs on which yogi's debug assertion fails are left out.
fn removal(name: &'static str, function: String, inputs: &[Ins], answer: impl Fn(Ins) -> String) -> Theorem {
    let (mut taken, mut answers) = (vec![], vec![]);
    for ins in inputs {
        if let Answer::Done(text) = ask_yogi(|| answer(*ins)) {
            taken.push(ins_term(ins));
            answers.push(text);
        }
    }
    mapped(name, function, &taken, &answers)
}

/// All opcodes and the two numbers behind them.
fn of_opcodes() -> Vec<Theorem> {
    let opcodes: Vec<String> = (0..OPCODES.len() + 2).map(|op| op.to_string()).collect();
    let kinds: Vec<String> = (0..OPCODES.len() + 2)
        .map(|op| option_term(OPCODES.get(op), |(_, kinds)| kinds_term(kinds)))
        .collect();
    let errs: Vec<String> = (0..OPCODES.len() as u8)
        .map(|op| can_runtime_err(Ins { op, fields: [3, 5, 7] }).to_string())
        .collect();
    vec![
        mapped(names::KINDS, names::KINDS.into(), &opcodes, &kinds),
        mapped(names::CAN_ERR, names::CAN_ERR.into(), &opcodes[..OPCODES.len()], &errs),
    ]
}

fn removals(inputs: &[Ins]) -> Vec<Theorem> {
    let mut out = vec![];
    for number in REMOVED {
        for kind in REGISTERS {
            let name = names::REMOVE_REG;
            let function = format!("{name} {} {number}", names::kind(kind));
            out.push(removal(name, function, inputs, |ins| {
                ins_term(&remove_reg(ins, (kind, number)))
            }));
        }
        let name = names::REMOVE_SECTION;
        out.push(removal(name, format!("{name} {number}"), inputs, |ins| {
            ins_term(&remove_section(ins, number))
        }));
        let name = names::CHECKED_REMOVE;
        out.push(removal(name, format!("{name} {number}"), inputs, |ins| {
            let (jumped, after) = checked_remove_section(ins, number);
            format!("({jumped}, {})", ins_term(&after))
        }));
    }
    out
}

/// Replacement with so many registers and characters of the pool before.
fn replacement(inputs: &[Ins], numbers: usize, strings: usize, pool: usize) -> Theorem {
    let regs_term = |added: &[i64], blanks: usize| {
        let all: Vec<i64> = [&vec![1_000; numbers], added].concat();
        let mut spans = vec!["span 0 1".to_string(); strings];
        spans.extend(vec![format!("span {pool} 0"); blanks]);
        format!("regs {} {}", list(&all, integer), list(&spans, String::clone))
    };
    let answer = |ins: &Ins| {
        let after = dup_replace_with(*ins, numbers, strings);
        let regs = regs_term(&after.numbers, after.strings);
        format!("({}, {regs})", list(&after.code, ins_term))
    };
    let function = format!("{} {pool} ({})", names::REPLACE_INS, regs_term(&[], 0));
    let answers: Vec<String> = inputs.iter().map(answer).collect();
    let inputs: Vec<String> = inputs.iter().map(ins_term).collect();
    Theorem {
        unfolds: names::REPLACE_UNFOLDS,
        ..mapped(names::REPLACE_INS, function, &inputs, &answers)
    }
}

/// `choices` of fields for each opcode.
pub fn theorems(rng: &mut Rng, choices: usize) -> Vec<Theorem> {
    let inputs = inputs(rng, choices);
    let mut out = of_opcodes();
    out.push(of_inputs(names::READS, &inputs, |ins| list(&reads(ins), reg_term)));
    out.push(of_inputs(names::MODIFIES, &inputs, |ins| {
        option_term(modifies(ins), reg_term)
    }));
    out.push(of_inputs(names::GET_SECTION, &inputs, |ins| {
        option_term(get_section(ins), usize::to_string)
    }));
    out.extend(removals(&inputs));
    out.push(replacement(&inputs, 0, 0, 0));
    out.push(replacement(&inputs, 2, 3, 9));
    out
}
