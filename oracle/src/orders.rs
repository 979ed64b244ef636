//! Joins in any order, written from the written rule: whatever the order, a machine must end as yogi combines it, lowest pair first. Meanwhile a tree's
//! machine must be walked as the tree is read.

use crate::bits::hex;
use crate::generate::{chains, in_turn, machines, outcomes, trees};
use crate::judge::{change, machine_of, pass, Answer, Op, Options, Stage};
use crate::limits::MOST_BYTES;
use crate::line;
use crate::lowering::{script, Script};
use crate::machine::{unpack, Machine, Next};
use crate::rng::Rng;
use crate::tree::{decode, Tree};
use crate::walk::{read, walk};
use std::collections::BTreeMap;

/// S1 and S2.
pub type Pair = (usize, usize);

// ---- the rule

/// How many references there are to each section: successors and jumps.
fn references(machine: &Machine) -> Vec<usize> {
    let mut counts = vec![0; machine.sections.len()];
    for section in &machine.sections {
        if let Next::Section(t) = section.next {
            counts[usize::from(t)] += 1;
        }
        for ins in section.code.iter().filter(|ins| ins.is_jump()) {
            counts[usize::from(ins.fields[0])] += 1;
        }
    }
    counts
}

/// The pairs that combining allows: S1's successor S2 differs from it, is no line start and has one reference in all.
pub fn pairs(machine: &Machine) -> Vec<Pair> {
    let references = references(machine);
    let second = |first: usize| match machine.sections[first].next {
        Next::Section(t) => Some(usize::from(t)),
        _ => None,
    };
    (0..machine.sections.len())
        .filter_map(|first| Some((first, second(first)?)))
        .filter(|&(first, second)| second != first && !machine.sections[second].start && references[second] == 1)
        .collect()
}

/// S2's instructions go behind S1's, S1 takes S2's successor, S2 is removed, every target above it falls by one.
pub fn join(machine: &mut Machine, (first, second): Pair) {
    let code = machine.sections[second].code.clone();
    machine.sections[first].code.extend(code);
    machine.sections[first].next = machine.sections[second].next;
    machine.sections.remove(second);
    let fall = |t: &mut u16| *t -= u16::from(usize::from(*t) > second);
    for section in &mut machine.sections {
        if let Next::Section(t) = &mut section.next {
            fall(t);
        }
        for ins in section.code.iter_mut().filter(|ins| ins.is_jump()) {
            fall(&mut ins.fields[0]);
        }
    }
}

// ---- orders

/// Which pair is next.
#[derive(Debug, Clone, Copy, PartialEq, Eq)]
pub enum Choice {
    Any,
    Last,
    /// the one whose S1 is nearest to a place that stays, or moves now and then
    Cursor(usize),
}

impl Choice {
    pub fn new(rng: &mut Rng, machine: &Machine) -> Self {
        match rng.below(5) {
            0 => Choice::Last,
            1 | 2 => Choice::Cursor(rng.below(machine.sections.len())),
            _ => Choice::Any,
        }
    }

    fn pick(&mut self, rng: &mut Rng, pairs: &[Pair]) -> Option<Pair> {
        if pairs.is_empty() {
            return None;
        }
        Some(match self {
            Choice::Any => rng.pick(pairs),
            Choice::Last => pairs[pairs.len() - 1],
            Choice::Cursor(at) => {
                if rng.chance(10) {
                    *at = rng.pick(pairs).0;
                }
                *pairs.iter().min_by_key(|pair| pair.0.abs_diff(*at))?
            }
        })
    }
}

/// Joins to the end: the order, and each machine on the way, the last one being the end.
pub fn joined(rng: &mut Rng, mut choice: Choice, machine: &Machine) -> (Vec<Pair>, Vec<Machine>) {
    let mut order = vec![];
    let mut way = vec![machine.clone()];
    loop {
        let last = &way[order.len()];
        let Some(pair) = choice.pick(rng, &pairs(last)) else {
            return (order, way);
        };
        let mut next = last.clone();
        join(&mut next, pair);
        order.push(pair);
        way.push(next);
    }
}

/// The ends of every order there is.
pub fn every_end(machine: &Machine) -> Vec<Machine> {
    let pairs = pairs(machine);
    if pairs.is_empty() {
        return vec![machine.clone()];
    }
    let mut ends: Vec<Machine> = vec![];
    for pair in pairs {
        let mut next = machine.clone();
        join(&mut next, pair);
        for end in every_end(&next) {
            if !ends.contains(&end) {
                ends.push(end);
            }
        }
    }
    ends
}

/// A tree's cleaned machine, and the finished one.
pub fn cleaned_and_finished(tree: &Tree, options: Options) -> Option<(Machine, Machine)> {
    let cleaned = machine_of(Stage::Lower, tree, options).then(|machine| pass(Op::Clean, &machine));
    match (cleaned, machine_of(Stage::Finish, tree, options)) {
        (Answer::Done(cleaned), Answer::Done(finished)) => Some((cleaned, finished)),
        _ => None,
    }
}

// ---- many machines

/// Orders of each machine, and up to how many pairs every order is tried.
const ORDERS: usize = 4;
const EVERY: usize = 5;
/// Sections of trees that are joined: each machine on the way is kept.
const MOST_SECTIONS: usize = 400;
/// Most outcomes of a list, and most instructions met.
const LONG: usize = 60;
const MOST: usize = 300;

#[derive(Default)]
pub struct Tally {
    rows: BTreeMap<&'static str, usize>,
    longest: usize,
    pub wrong: Vec<String>,
}

impl Tally {
    fn add(&mut self, row: &'static str, count: usize) {
        *self.rows.entry(row).or_default() += count;
    }

    fn require(&mut self, holds: bool, wrong: impl FnOnce() -> String) {
        if !holds {
            self.wrong.push(wrong());
        }
    }

    fn text(&self) -> String {
        let mut out: Vec<String> = self.rows.iter().map(|(row, n)| format!("{row}: {n}")).collect();
        out.push(format!("joins in the longest order: {}", self.longest));
        out.extend(self.wrong.iter().take(3).map(|wrong| format!("WRONG {wrong}")));
        out.push(
            if self.wrong.is_empty() {
                "all held"
            } else {
                "something is wrong"
            }
            .into(),
        );
        out.join("\n")
    }
}

/// Machines midway are walked as the script is read.
pub fn check_midway(tally: &mut Tally, rng: &mut Rng, script: &Script, midway: &Machine, name: &str) {
    let sort = rng.below(outcomes::SORTS);
    let list = outcomes::list(rng, sort, LONG, script);
    let (walked, read) = (walk(midway, &list, MOST), read(script, &list, MOST));
    tally.add("walks midway", 1);
    tally.require((&walked.met, walked.stop) == (&read.met, read.stop), || {
        format!("midway the walk differs: {name} {list:?}")
    });
}

pub fn check_orders(
    tally: &mut Tally,
    rng: &mut Rng,
    machine: &Machine,
    end: &Machine,
    script: Option<&Script>,
    name: &str,
) {
    for _ in 0..ORDERS {
        let choice = Choice::new(rng, machine);
        let (order, way) = joined(rng, choice, machine);
        tally.add(
            if order.len() < 2 {
                "orders of one join or none"
            } else {
                "orders of more joins"
            },
            1,
        );
        tally.add("joins", order.len());
        tally.longest = tally.longest.max(order.len());
        tally.require(way.last() == Some(end), || format!("another end: {name} {order:?}"));
        if let Some(script) = script {
            let midway = rng.pick(&way);
            check_midway(tally, rng, script, &midway, name);
        }
    }
    if (2..=EVERY).contains(&pairs(machine).len()) {
        tally.add("machines of which every order is tried", 1);
        tally.require(every_end(machine) == [end.clone()], || format!("two ends: {name}"));
    }
}

fn check_file(tally: &mut Tally, rng: &mut Rng, bytes: &[u8]) {
    let Ok(tree) = decode(bytes) else {
        return tally.add("trees refused", 1);
    };
    let options = Options::of_number(rng.below(4) as u8);
    let Some((cleaned, finished)) = cleaned_and_finished(&tree, options) else {
        return tally.wrong.push(format!("yogi panics: {}", hex(bytes)));
    };
    if cleaned.sections.len() > MOST_SECTIONS {
        return tally.add("trees left out, too long", 1);
    }
    tally.add("trees", 1);
    check_orders(tally, rng, &cleaned, &finished, Some(&script(&tree)), &hex(bytes));
}

fn check_case(tally: &mut Tally, rng: &mut Rng, (op, counts, tables): &machines::Case) {
    let (answer, after) = change(*op, counts, tables);
    let done = match answer {
        Answer::Done(done) => done,
        Answer::Refused(_) => return tally.add("machines refused", 1),
        Answer::Panic => {
            return tally
                .wrong
                .push(format!("yogi panics: {}", line::print(counts, tables)))
        }
    };
    let (machine, end) = (unpack(counts, tables), unpack(&done, &after));
    tally.add("machines handed in", 1);
    check_orders(tally, rng, &machine, &end, None, &line::print(counts, tables));
}

/// Machines that are handed to combine: at random, and of chains.
pub fn handed(seed: u64, count: usize) -> Vec<machines::Case> {
    let mut rng = Rng::new(seed);
    let mut random = |i: usize| {
        let machine = machines::random(&mut rng, Op::Combine, i % 8 != 0);
        let (counts, tables) = machines::lend(&mut rng, &machine);
        (Op::Combine, counts, tables)
    };
    let any: Vec<machines::Case> = (0..count - count / 2).map(&mut random).collect();
    in_turn(vec![any, chains::cases(seed, count / 2)]).collect()
}

/// The report, and whether all held: of COUNT trees, and of as many machines that are handed in.
pub fn run(seed: u64, count: usize) -> (String, bool) {
    let mut tally = Tally::default();
    let mut rng = Rng::new(!seed);
    for bytes in trees::files(seed, count, MOST_BYTES) {
        check_file(&mut tally, &mut rng, &bytes);
    }
    for case in handed(seed, count) {
        check_case(&mut tally, &mut rng, &case);
    }
    (tally.text(), tally.wrong.is_empty())
}
