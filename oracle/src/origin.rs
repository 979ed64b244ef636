//! Which statement each instruction of a finished machine comes from. The lowered machine's instructions
//! are exchanged for marks that name their statement; cleaning and combining then carry the marks along,
//! for they look at jump targets alone.

use crate::judge::{pass, Answer, Op};
use crate::lowering::{jump_if, Node, Script, What};
use crate::machine::{op, Ins, Machine, Sect};

/// For each statement: does it, or a statement it is in, stand behind a goto in its list?
pub fn behind_goto(script: &Script) -> Vec<bool> {
    let mut out = vec![false; script.codes.len()];
    script.lines.iter().for_each(|line| mark_list(&mut out, line, false));
    out
}

fn mark_list(out: &mut [bool], list: &[Node], mut behind: bool) {
    for node in list {
        out[node.id] = behind;
        match &node.what {
            What::Plain => (),
            What::Goto(_) => behind = true,
            What::Ite(_, then, otherwise) => {
                mark_list(out, then, behind);
                mark_list(out, otherwise, behind);
            }
        }
    }
}

/// Of each lowered section the statement whose section it is; none for placeholders, empty lists and joins.
fn owners(script: &Script) -> Vec<Option<&Node>> {
    let mut out = vec![None; script.lines.len()];
    for (i, line) in script.lines.iter().enumerate() {
        let start = out.len();
        line.iter().for_each(|node| own(&mut out, node));
        if !line.is_empty() {
            out.swap(i, start);
        }
    }
    out
}

fn own<'a>(out: &mut Vec<Option<&'a Node>>, node: &'a Node) {
    out.push(Some(node));
    if let What::Ite(_, then, otherwise) = &node.what {
        for list in [then, otherwise] {
            list.iter().for_each(|node| own(out, node));
            if list.is_empty() {
                out.push(None);
            }
        }
        out.push(None);
    }
}

/// The instructions that a section of this statement holds, jump targets aside.
fn expected(script: &Script, owner: Option<&Node>) -> Vec<Ins> {
    let Some(node) = owner else { return vec![] };
    let mut code = script.codes[node.id].clone();
    if let What::Ite(n, then, _) = &node.what {
        code.extend((!then.is_empty()).then(|| jump_if(*n)));
    }
    code
}

/// A mark: a jump to the same target, or a copy; its register is the statement's number.
fn mark(ins: &Ins, id: usize) -> Ins {
    let id = id as u16;
    if ins.is_jump() {
        Ins {
            op: op::JumpSectionIf,
            fields: [ins.fields[0], id, 0],
        }
    } else {
        Ins {
            op: op::CopyNum,
            fields: [id, 0, 0],
        }
    }
}

/// The number of the statement that a mark names.
pub fn statement(mark: &Ins) -> usize {
    mark.fields[usize::from(mark.is_jump())].into()
}

fn marked_section(section: &Sect, owner: Option<&Node>) -> Sect {
    let marks = section.code.iter().zip(owner.into_iter().cycle());
    Sect {
        code: marks.map(|(ins, node)| mark(ins, node.id)).collect(),
        ..section.clone()
    }
}

fn shown(section: &Sect) -> Vec<Ins> {
    section.code.iter().map(|ins| ins.shown()).collect()
}

/// The lowered machine with marks. What is wrong, if it does not hold what the script says.
fn marked(script: &Script, lowered: &Machine) -> Result<Machine, &'static str> {
    let owners = owners(script);
    if owners.len() != lowered.sections.len() {
        return Err("another number of lowered sections");
    }
    let pairs = || lowered.sections.iter().zip(&owners);
    if pairs().any(|(section, owner)| shown(section) != expected(script, *owner)) {
        return Err("a lowered section holds other instructions than its statement");
    }
    Ok(Machine {
        sections: pairs()
            .map(|(section, owner)| marked_section(section, *owner))
            .collect(),
        ..lowered.clone()
    })
}

/// Where jumps and links lead, and nothing else.
fn shape(machine: &Machine) -> Vec<(crate::machine::Next, Vec<Option<u16>>)> {
    let jump = |ins: &Ins| ins.is_jump().then_some(ins.fields[0]);
    let sections = machine.sections.iter();
    sections.map(|s| (s.next, s.code.iter().map(jump).collect())).collect()
}

/// The finished machine with marks in the place of its instructions.
pub fn finished_marks(script: &Script, lowered: &Machine, finished: &Machine) -> Result<Machine, &'static str> {
    let marked = marked(script, lowered)?;
    let marks = pass(Op::Clean, &marked).then(|cleaned| pass(Op::Combine, &cleaned));
    match marks {
        Answer::Done(marks) if shape(&marks) == shape(finished) => Ok(marks),
        Answer::Done(_) => Err("the marks do not stand as the instructions do"),
        _ => Err("yogi panics"),
    }
}
