//! Joins in a random order, to the end: the definitions' end against the machine that yogi combines. Some orders have a pair that is not allowed at its time.

use super::calls::SMALL;
use super::names;
use super::terms::{counts_term, list, options_term, plain, tables_term};
use super::Theorem;
use crate::bits::hex;
use crate::generate::{machines, trees};
use crate::judge::{change, Answer, Options};
use crate::line;
use crate::machine::{pack, unpack, Machine, Next};
use crate::orders::{cleaned_and_finished, handed, joined, pairs, Choice, Pair};
use crate::rng::Rng;
use crate::tree::decode;

/// Most sections of a machine that is joined.
const MOST_SECTIONS: usize = 30;

/// An order, and the machine in which it ends, if each pair is allowed at its time.
struct Case {
    order: Vec<Pair>,
    end: Option<Machine>,
}

fn pair_term((first, second): &Pair) -> String {
    format!("({first}, {second})")
}

/// A pair that is not allowed: a section with a successor that it may not take in, the two of an allowed pair exchanged, one with the numbers that it had a
/// join before, or any two.
fn wrong_pair(rng: &mut Rng, machine: &Machine, before: Option<&Machine>) -> Pair {
    let sections = machine.sections.len();
    let allowed = pairs(machine);
    let next = |first: usize| match machine.sections[first].next {
        Next::Section(t) => Some((first, usize::from(t))),
        _ => None,
    };
    let untakable = (0..sections).filter_map(next);
    let exchanged = allowed.iter().map(|&(first, second)| (second, first));
    let as_before = before.map(pairs).unwrap_or_default();
    let any = (rng.below(sections + 1), rng.below(sections + 1));
    let sorts: [Vec<Pair>; 4] = [
        untakable.collect(),
        exchanged.collect(),
        as_before,
        vec![any, (sections, sections)],
    ];
    loop {
        let sort = rng.pick(&sorts);
        let wrong: Vec<Pair> = sort.into_iter().filter(|pair| !allowed.contains(pair)).collect();
        if !wrong.is_empty() {
            return rng.pick(&wrong);
        }
    }
}

impl Case {
    /// To the end, if it is worth a theorem; one order in four has a wrong pair in place of one of its own, or behind them all.
    fn new(rng: &mut Rng, machine: &Machine, end: &Machine) -> Option<Self> {
        if machine.sections.len() > MOST_SECTIONS || pairs(machine).len() < 2 {
            return None;
        }
        let choice = Choice::new(rng, machine);
        let (mut order, way) = joined(rng, choice, machine);
        if rng.chance(75) {
            return Some(Case {
                order,
                end: Some(end.clone()),
            });
        }
        let at = rng.below(way.len());
        let before = at.checked_sub(1).map(|i| &way[i]);
        let wrong = wrong_pair(rng, &way[at], before);
        order.splice(at..order.len().min(at + 1), [wrong]);
        Some(Case { order, end: None })
    }

    /// With what the definitions join, and what that is in the note.
    fn theorem(&self, operation: &'static str, joined: &str, note: &str) -> Theorem {
        let right = match &self.end {
            None => "ok none".into(),
            Some(end) => {
                let (counts, tables) = pack(end);
                format!("ok (some ({}, {}, none))", counts_term(&counts), tables_term(&tables))
            }
        };
        Theorem {
            operation,
            answer: if self.end.is_some() { "ends" } else { "not allowed" }.into(),
            note: format!("order {note} {:?}", self.order),
            left: format!("{operation} {joined} {}", list(&self.order, pair_term)),
            right,
            unfolds: operation,
        }
    }
}

fn of_file(rng: &mut Rng, i: usize, bytes: &[u8]) -> Option<Theorem> {
    let tree = decode(bytes).ok()?;
    let options = Options::of_number((i % 4) as u8);
    let (cleaned, finished) = cleaned_and_finished(&tree, options)?;
    let case = Case::new(rng, &cleaned, &finished)?;
    let joined = format!("{} {}", options_term(options), plain(bytes));
    Some(case.theorem(names::TREE_JOINED, &joined, &hex(bytes)))
}

fn of_machine(rng: &mut Rng, (op, counts, lent): &machines::Case) -> Option<Theorem> {
    let (answer, after) = change(*op, counts, lent);
    let Answer::Done(done) = answer else {
        return None;
    };
    let case = Case::new(rng, &unpack(counts, lent), &unpack(&done, &after))?;
    let joined = format!("({}) ({})", tables_term(lent), counts_term(counts));
    Some(case.theorem(names::MACHINE_JOINED, &joined, &line::print(counts, lent)))
}

/// Half of them of trees, the others of machines that are handed in.
pub fn theorems(seed: u64, count: usize) -> Vec<Theorem> {
    let mut rng = Rng::new(!seed);
    let files = trees::files(seed, 8 * count, SMALL);
    let mut all: Vec<Theorem> = (0..)
        .zip(&files)
        .filter_map(|(i, bytes)| of_file(&mut rng, i, bytes))
        .take(count / 2)
        .collect();
    let of_machines = handed(seed, 8 * count)
        .into_iter()
        .filter_map(|case| of_machine(&mut rng, &case));
    all.extend(of_machines.take(count - count / 2));
    all
}
