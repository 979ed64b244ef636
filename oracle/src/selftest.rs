//! The judge held to itself: what is written is read again, and yogi answers all that is accepted.

use crate::figures;
use crate::generate::{chains, damaged, machines, trees};
use crate::judge::{build, change, machine_of, size, Answer, Op, Options, Stage};
use crate::limits::MOST_BYTES;
use crate::machine::{pack, sound, Machine, Tables};
use crate::rng::Rng;
use crate::tree::{decode, encode, Tree};
use std::collections::{BTreeMap, BTreeSet};
use std::fmt::Write;

#[derive(Default)]
struct Tally {
    rows: BTreeMap<String, usize>,
    /// opcodes that lowering and finishing gave
    opcodes: BTreeSet<u8>,
    bad: Vec<String>,
}

impl Tally {
    fn count(&mut self, what: impl Into<String>) {
        *self.rows.entry(what.into()).or_default() += 1;
    }

    fn require(&mut self, holds: bool, what: impl FnOnce() -> String) {
        if !holds {
            self.bad.push(what());
        }
    }

    fn text(&self) -> String {
        let mut out = String::new();
        for (what, count) in &self.rows {
            writeln!(out, "{what}: {count}").unwrap();
        }
        let emitted: Vec<String> = self.opcodes.iter().map(u8::to_string).collect();
        writeln!(out, "opcodes emitted: {}", emitted.join(" ")).unwrap();
        for bad in &self.bad {
            writeln!(out, "WRONG {bad}").unwrap();
        }
        write!(
            out,
            "{}",
            if self.bad.is_empty() {
                "all held"
            } else {
                "something is wrong"
            }
        )
        .unwrap();
        out
    }
}

fn check_machine(tally: &mut Tally, hex: &str, stage: Stage, answer: Answer<Machine>) {
    let Answer::Done(machine) = answer else {
        return tally.bad.push(format!("yogi panics: {stage:?} {hex}"));
    };
    let (counts, tables) = pack(&machine);
    tally.require(sound(&counts, &tables), || format!("{stage:?} breaks a rule: {hex}"));
    for ins in machine.sections.iter().flat_map(|section| &section.code) {
        tally.opcodes.insert(ins.op);
    }
}

fn check_figures(tally: &mut Tally, hex: &str, tree: &Tree, answer: &Answer<Machine>) {
    let Answer::Done(machine) = answer else { return };
    let (counts, _) = pack(machine);
    let seen = [counts.instrs, counts.numbers, counts.values];
    tally.require(seen == figures::lowered(tree), || {
        format!("lowered to other figures: {hex}")
    });
}

fn check_tree(tally: &mut Tally, tree: &Tree, bytes: &[u8], options: u8) {
    let hex = crate::bits::hex(bytes);
    tally.require(encode(tree) == bytes, || format!("encode(decode(x)) is not x: {hex}"));
    for stage in [Stage::Lower, Stage::Finish] {
        let answer = machine_of(stage, tree, Options::of_number(options));
        if stage == Stage::Lower {
            check_figures(tally, &hex, tree, &answer);
        }
        check_machine(tally, &hex, stage, answer);
    }
}

fn check_file(tally: &mut Tally, kind: &str, bytes: &[u8], options: u8) {
    match decode(bytes) {
        Err(n) => tally.count(format!("{kind}, refused {n:2}")),
        Ok(tree) => {
            tally.count(format!("{kind}, accepted"));
            check_tree(tally, &tree, bytes, options);
        }
    }
}

fn check_random_tree(tally: &mut Tally, rng: &mut Rng) {
    let (tree, bytes) = trees::sized(rng, 2_000);
    tally.count("random trees, decode(encode(x)) = x");
    tally.require(decode(&bytes).as_ref() == Ok(&tree), || {
        format!("decode(encode(x)) is not x: {tree:?}")
    });
}

fn check_random_bytes(tally: &mut Tally, rng: &mut Rng) {
    let mut bytes: Vec<u8> = (0..rng.below(64)).map(|_| rng.next() as u8).collect();
    if rng.chance(80) && bytes.len() > 2 {
        bytes[..3].copy_from_slice(&[1, 1 + rng.below(2) as u8, rng.below(2) as u8]);
    }
    let kind = "random bytes";
    check_file(tally, kind, &bytes, Options::DEFAULT);
}

fn check_change(tally: &mut Tally, kind: &str, (op, counts, tables): &machines::Case) {
    let op = *op;
    let (answer, after) = change(op, counts, tables);
    let shown = answer.show(|_| "done".into());
    tally.count(format!("{kind}, {}: {shown}", op.name()));
    tally.require(answer != Answer::Panic, || {
        format!("yogi panics: {} {}", op.name(), crate::line::print(counts, tables))
    });
    if let Answer::Done(counts) = answer {
        tally.require(sound(&counts, &after), || format!("{} breaks a rule", op.name()));
        let again = change(op, &counts, &after);
        tally.require(again == (Answer::Done(counts), after), || {
            format!("{} twice is not once", op.name())
        });
    } else {
        tally.require(&after == tables, || "a refusal has written".into());
    }
}

/// The three passes on lowered words give what finish gives.
fn check_passes(tally: &mut Tally, bytes: &[u8]) {
    let Answer::Done(size) = size(bytes) else { return };
    let need = crate::judge::estimate(&size);
    let lent = Tables::of_room(&need);
    let options = Options::of_number(Options::DEFAULT);
    let (Answer::Done(mut counts), mut tables) = build(Stage::Lower, bytes, options, &lent) else {
        return tally.bad.push("lower refuses its own estimate".into());
    };
    for op in Op::ALL {
        let (answer, after) = change(op, &counts, &tables);
        let Answer::Done(next) = answer else {
            return tally.bad.push(format!("{} refuses lowered words", op.name()));
        };
        (counts, tables) = (next, after);
    }
    let finished = build(Stage::Finish, bytes, options, &lent);
    tally.count("lower, then the passes = finish");
    tally.require(finished == (Answer::Done(counts), tables), || {
        format!("the passes do not give what finish gives: {}", crate::bits::hex(bytes))
    });
}

/// The report, and whether all held.
pub fn run(seed: u64, count: usize) -> (String, bool) {
    let mut tally = Tally::default();
    let mut rng = Rng::new(seed);
    for (i, bytes) in trees::files(seed, count, MOST_BYTES).iter().enumerate() {
        check_file(&mut tally, "trees", bytes, (i % 4) as u8);
        if bytes.len() < 1_000 {
            check_passes(&mut tally, bytes);
        }
    }
    for (i, bytes) in damaged::files(seed, count, 2 * MOST_BYTES).iter().enumerate() {
        check_file(&mut tally, "damaged", bytes, (i % 4) as u8);
    }
    for _ in 0..count {
        check_random_tree(&mut tally, &mut rng);
        check_random_bytes(&mut tally, &mut rng);
    }
    for case in machines::cases(seed, count, 2 * MOST_BYTES) {
        check_change(&mut tally, "machines", &case);
    }
    for case in chains::cases(seed, count) {
        check_change(&mut tally, "chains", &case);
    }
    (tally.text(), tally.bad.is_empty())
}
