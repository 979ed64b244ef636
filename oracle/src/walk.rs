//! Walk and reading, written from the written rules: a finished machine is walked, a tree is read in
//! order. Both use up one list of outcomes.

use crate::lowering::{jump_if, Node, Script, What};
use crate::machine::{Ins, Machine, Next, Sect};
use std::slice::Iter;

/// A question: at a jump, its target left aside, or at a goto by a number register.
#[derive(Debug, Clone, Copy, PartialEq, Eq)]
pub enum Ask {
    Jump(Ins),
    Goto(u16),
}

#[derive(Debug, Clone, Copy, PartialEq, Eq)]
pub enum Stop {
    /// no outcome is left for this
    Question(Ask),
    /// another instruction would be one too many
    Full,
    /// it goes on for ever, meets nothing and asks nothing
    Silent,
    /// a section is entered that is absent or unfixed
    Lost,
}

/// What was met, how it stopped, and how many sections were entered or lines begun.
#[derive(Debug, Clone, PartialEq, Eq)]
pub struct Walk {
    pub met: Vec<Ins>,
    pub stop: Stop,
    pub steps: usize,
}

/// What both walks write down on their way.
struct Log<'a> {
    outcomes: Iter<'a, usize>,
    most: usize,
    met: Vec<Ins>,
    steps: usize,
    /// steps since an instruction was met or an outcome used
    quiet: usize,
}

impl<'a> Log<'a> {
    fn new(outcomes: &'a [usize], most: usize) -> Self {
        Log {
            outcomes: outcomes.iter(),
            most,
            met: vec![],
            steps: 0,
            quiet: 0,
        }
    }

    /// One of so many places is entered: more than those without an event is a loop.
    fn enter(&mut self, places: usize) -> Result<(), Stop> {
        self.steps += 1;
        self.quiet += 1;
        if self.quiet > places {
            return Err(Stop::Silent);
        }
        Ok(())
    }

    fn meet(&mut self, ins: Ins) -> Result<(), Stop> {
        if self.met.len() == self.most {
            return Err(Stop::Full);
        }
        self.met.push(ins.shown());
        self.quiet = 0;
        Ok(())
    }

    fn ask(&mut self, ask: Ask) -> Result<usize, Stop> {
        let outcome = *self.outcomes.next().ok_or(Stop::Question(ask))?;
        self.quiet = 0;
        Ok(outcome)
    }

    /// Meets the jump, then asks: is it taken?
    fn jump(&mut self, ins: Ins) -> Result<bool, Stop> {
        self.meet(ins)?;
        Ok(self.ask(Ask::Jump(ins.shown()))? != 0)
    }

    /// The walk whose steps never end but by a stop.
    fn walked(mut self, mut step: impl FnMut(&mut Self, usize) -> Result<usize, Stop>) -> Walk {
        let mut at = 0;
        loop {
            match step(&mut self, at) {
                Ok(next) => at = next,
                Err(stop) => {
                    return Walk {
                        met: self.met,
                        stop,
                        steps: self.steps,
                    }
                }
            }
        }
    }
}

// ---- the machine

/// Walks a machine from section 0 until it stops, at the latest before instruction `most` + 1.
pub fn walk(machine: &Machine, outcomes: &[usize], most: usize) -> Walk {
    Log::new(outcomes, most).walked(|log, at| {
        log.enter(machine.sections.len())?;
        let section = machine.sections.get(at).ok_or(Stop::Lost)?;
        through(log, section, machine.lines)
    })
}

/// A section's instructions, then its successor: the section entered next.
fn through(log: &mut Log, section: &Sect, lines: usize) -> Result<usize, Stop> {
    if section.next == Next::Unfixed {
        return Err(Stop::Lost);
    }
    for ins in &section.code {
        if !ins.is_jump() {
            log.meet(*ins)?;
        } else if log.jump(*ins)? {
            return Ok(ins.fields[0].into());
        }
    }
    match section.next {
        Next::Section(s) => Ok(s.into()),
        Next::Line(n) => Ok(log.ask(Ask::Goto(n))? % lines),
        Next::Unfixed => Err(Stop::Lost),
    }
}

// ---- the tree

/// How the reading of a list ends.
enum Way {
    Behind,
    Error,
    Line(usize),
}

/// Reads a script from line 0 until it stops, at the latest before instruction `most` + 1.
pub fn read(script: &Script, outcomes: &[usize], most: usize) -> Walk {
    let lines = script.lines.len();
    Log::new(outcomes, most).walked(|log, at| {
        log.enter(lines)?;
        Ok(match read_list(log, script, &script.lines[at])? {
            Way::Behind | Way::Error => (at + 1) % lines,
            Way::Line(outcome) => outcome % lines,
        })
    })
}

fn read_list(log: &mut Log, script: &Script, list: &[Node]) -> Result<Way, Stop> {
    for node in list {
        match read_node(log, script, node)? {
            Way::Behind => (),
            way => return Ok(way),
        }
    }
    Ok(Way::Behind)
}

fn read_node(log: &mut Log, script: &Script, node: &Node) -> Result<Way, Stop> {
    for ins in &script.codes[node.id] {
        if !ins.is_jump() {
            log.meet(*ins)?;
        } else if log.jump(*ins)? {
            return Ok(Way::Error);
        }
    }
    match &node.what {
        What::Plain => Ok(Way::Behind),
        What::Goto(n) => Ok(Way::Line(log.ask(Ask::Goto(*n))?)),
        What::Ite(n, then, otherwise) => {
            let taken = !then.is_empty() && log.jump(jump_if(*n))?;
            read_list(log, script, if taken { then } else { otherwise })
        }
    }
}
