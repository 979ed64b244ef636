//! Recorded answers for others to replay: one case a line, parts parted by `;`. See README.md.

use crate::bits::hex;
use crate::generate::{chains, damaged, machines, texts, trees};
use crate::judge::{change, machine_of, text, Answer, Options, Stage};
use crate::limits::R_BACKWARDS;
use crate::line;
use crate::machine::{pack, Machine};
use crate::rng::Rng;
use crate::tree::{decode, Size, Tree};
use std::collections::BTreeSet;

const VALID: usize = 190;
const DAMAGED: usize = 130;
const LARGER: usize = 6;
const MACHINES: usize = 240;
const CHAINS: usize = 70;
const TEXTS: usize = 80;
const SMALL_BYTES: usize = 100;
const LARGER_BYTES: usize = 400;

/// Files with refusals 8 and 10 are too long for the list.
const TREE_REFUSALS: [u8; 8] = [1, 2, 3, 4, 5, 6, 7, 9];
const MACHINE_REFUSALS: [u8; 5] = [11, 12, 13, 14, 15];

fn machine_line(machine: &Machine) -> String {
    let (counts, tables) = pack(machine);
    line::print(&counts, &tables)
}

fn tree_answer(tree: &Tree, options: Options) -> String {
    let show = |stage| machine_of(stage, tree, options).show(machine_line);
    format!(
        "{};{};{}",
        Size::of(tree).row(),
        show(Stage::Lower),
        show(Stage::Finish)
    )
}

fn files(seed: u64) -> Vec<Vec<u8>> {
    let mut rng = Rng::new(!seed);
    let mut out = trees::files(seed, VALID, SMALL_BYTES);
    out.extend((0..LARGER).map(|_| larger(&mut rng)));
    out.extend(damaged::files(seed, DAMAGED, SMALL_BYTES));
    out
}

fn larger(rng: &mut Rng) -> Vec<u8> {
    loop {
        let bytes = trees::sized(rng, LARGER_BYTES).1;
        if bytes.len() > SMALL_BYTES {
            return bytes;
        }
    }
}

fn require(seen: &BTreeSet<u8>, wanted: &[u8]) {
    let missing: Vec<_> = wanted.iter().filter(|n| !seen.contains(n)).collect();
    assert!(
        missing.is_empty(),
        "with this seed no case has refusal {missing:?}: take another"
    );
}

pub fn of_trees(seed: u64) -> String {
    let mut seen = BTreeSet::new();
    let mut lines = vec![];
    for (i, bytes) in files(seed).iter().enumerate() {
        let options = (i % 4) as u8;
        let answer = match decode(bytes) {
            Ok(tree) => tree_answer(&tree, Options::of_number(options)),
            Err(n) => {
                seen.insert(n);
                format!("R {n}")
            }
        };
        lines.push(format!("T;{};{options};{answer}", hex(bytes)));
    }
    require(&seen, &TREE_REFUSALS);
    lines.join("\n")
}

/// A line for each, and the refusals among them are those wanted.
fn of_cases(cases: Vec<machines::Case>, wanted: &[u8]) -> String {
    let mut seen = BTreeSet::new();
    let mut lines = vec![];
    for (op, counts, tables) in cases {
        let (answer, after) = change(op, &counts, &tables);
        if let Answer::Refused(n) = answer {
            seen.insert(n);
        }
        let answer = answer.show(|counts| line::print(counts, &after));
        lines.push(format!("M;{};{};{answer}", op.name(), line::print(&counts, &tables)));
    }
    require(&seen, wanted);
    lines.join("\n")
}

pub fn of_machines(seed: u64) -> String {
    of_cases(machines::cases(seed, MACHINES, SMALL_BYTES), &MACHINE_REFUSALS)
}

/// Has the program that replays the list room for these tables?
fn has_room((_, _, t): &machines::Case) -> bool {
    t.sections.len() <= 64 && t.instrs.len() <= 256 && t.numbers.len() <= 64
}

pub fn of_chains(seed: u64) -> String {
    let mut cases = chains::cases(seed, 2 * CHAINS);
    cases.retain(has_room);
    cases.truncate(CHAINS);
    of_cases(cases, &[R_BACKWARDS])
}

pub fn of_texts(seed: u64) -> String {
    let mut rng = Rng::new(seed);
    let line = |case: texts::Case| {
        let (start, length) = text(&case.strings, &case.pool, case.register);
        let words: Vec<String> = case.strings.iter().map(|w| format!("{w:x}")).collect();
        let shown = hex(&case.pool[start..start + length]);
        format!("X;{};{};{};{shown}", words.join(" "), hex(&case.pool), case.register)
    };
    let lines: Vec<String> = (0..TEXTS).map(|_| line(texts::case(&mut rng))).collect();
    lines.join("\n")
}
