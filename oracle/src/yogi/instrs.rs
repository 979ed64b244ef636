//! Calls what yogi says of a single instruction.

use super::*;
use crate::machine::Kind;

/// A register with its kind.
pub type Reg = (Kind, u16);

fn yogis(ins: Ins) -> Instruction {
    instruction(ins.op.into(), ins.fields.map(usize::from))
}

fn reg(any: AnyReg) -> Reg {
    let (kind, number) = match any {
        AnyReg::Num(n) => (Kind::NumReg, n.0),
        AnyReg::Str(s) => (Kind::StrReg, s.0),
        AnyReg::Val(v) => (Kind::ValReg, v.0),
    };
    (kind, u16::try_from(number).expect("a register of 16 bits"))
}

fn any((kind, number): Reg) -> AnyReg {
    let number = usize::from(number);
    match kind {
        Kind::NumReg => NumReg(number).into(),
        Kind::StrReg => StrReg(number).into(),
        Kind::ValReg => ValReg(number).into(),
        _ => panic!("no kind of register"),
    }
}

pub fn reads(i: Ins) -> Vec<Reg> {
    yogis(i).reads().into_iter().map(reg).collect()
}

pub fn modifies(i: Ins) -> Option<Reg> {
    yogis(i).modifies().map(reg)
}

pub fn get_section(i: Ins) -> Option<usize> {
    yogis(i).get_section().map(|s| s.0)
}

pub fn can_runtime_err(i: Ins) -> bool {
    yogis(i).can_runtime_err()
}

pub fn remove_reg(i: Ins, reg: Reg) -> Ins {
    let mut out = yogis(i);
    out.remove_reg(any(reg));
    ins(&out)
}

pub fn remove_section(i: Ins, section: u16) -> Ins {
    let mut out = yogis(i);
    out.remove_section(Section(section.into()));
    ins(&out)
}

pub fn checked_remove_section(i: Ins, section: u16) -> (bool, Ins) {
    let mut out = yogis(i);
    let jumped = out.checked_remove_section(Section(section.into()));
    (jumped, ins(&out))
}

/// What stands in the instruction's place, the numbers added, and how many empty strings.
#[derive(Debug, Clone, PartialEq, Eq)]
pub struct Replaced {
    pub code: Vec<Ins>,
    pub numbers: Vec<i64>,
    pub strings: usize,
}

/// With so many number and string registers before.
pub fn dup_replace_with(i: Ins, numbers: usize, strings: usize) -> Replaced {
    let mut nums: Numbers = vec![Number::ONE.into(); numbers];
    let mut strs: Strings = vec![YString::default().into(); strings];
    let code = match yogis(i).dup_replace_with(&mut nums, &mut strs) {
        None => vec![i],
        Some(None) => vec![],
        Some(Some(other)) => vec![ins(&other)],
    };
    let added = &strs[strings..];
    assert!(added.iter().all(|s| s.0.as_slice().is_empty()), "an added string is not empty");
    Replaced { code, numbers: nums[numbers..].iter().map(|n| n.0 .0).collect(), strings: added.len() }
}
