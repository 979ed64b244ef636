//! The static library beside the judge: the same inputs to both, and every lent word compared.
//! Usage: compare SEED FILES MACHINES; compare chains SEED MACHINES for combining alone; compare build SEED FILES for lower and finish; compare big
//! for the time of the largest machines

mod big;
mod builds;
mod library;
mod tally;

use oracle::generate::chains::{self, Layout};
use oracle::generate::machines::{self, Case};
use oracle::judge::{self, Answer, Op};
use oracle::limits::MOST_COUNT;
use oracle::machine::Span;
use oracle::rng::Rng;
use std::process::ExitCode;
use tally::{each_file, Tally, A_BATCH, GUARD};

/// The judge's answer and the lent numbers afterwards.
fn expected_size(file: &[u8], lent: &[u64]) -> (u64, Vec<u64>) {
    let mut after = lent.to_vec();
    if lent.len() < 6 {
        return (11, after);
    }
    match judge::size(file) {
        Answer::Refused(n) => (n.into(), after),
        Answer::Panic => panic!("size is the judge's own"),
        Answer::Done(z) => {
            let row = [z.lines, z.names, z.statements, z.nodes, z.strings, z.characters];
            for (word, n) in after.iter_mut().zip(row) {
                *word = n as u64;
            }
            (0, after)
        }
    }
}

fn compare_size(tally: &mut Tally, rng: &mut Rng, file: &[u8]) {
    // mostly room for six and some words more, now and then too little
    let room = if rng.chance(5) { rng.below(6) } else { 6 + rng.below(3) };
    let lent = vec![GUARD; room];
    let (number, after) = expected_size(file, &lent);
    let mut words = lent;
    let got = library::size(file, &mut words);
    tally.count(number != 0, got == number && words == after, &|| oracle::bits::hex(file));
}

fn compare_files(seed: u64, count: usize) -> Vec<Tally> {
    let mut sizes = Tally::new("size");
    let mut rng = Rng::new(seed);
    each_file(seed, count, |file| compare_size(&mut sizes, &mut rng, file));
    vec![sizes]
}

/// The lent counts: eight and a guard behind them.
fn lent_counts(case: &Case) -> Vec<u64> {
    case.1.row().iter().map(|&n| n as u64).chain([GUARD]).collect()
}

/// How many sections are gone by the judge.
fn compare_change(tally: &mut Tally, case: &Case) -> usize {
    let lent = lent_counts(case);
    let (answer, tables) = judge::change(case.0, &case.1, &case.2);
    let (number, after) = match answer {
        Answer::Refused(n) => (n.into(), lent.clone()),
        Answer::Done(counts) => (0, counts.row().iter().map(|&n| n as u64).chain([GUARD]).collect()),
        // no answer of the rules: the judge has none to hold the library to
        Answer::Panic => panic!("yogi panics: {}", oracle::line::print(&case.1, &case.2)),
    };
    let mut words = lent;
    let mut got_tables = case.2.clone();
    let got = library::change(case.0, &mut words, &mut got_tables);
    let same = got == number && words == after && got_tables == tables;
    tally.count(number != 0, same, &|| oracle::line::print(&case.1, &case.2));
    case.1.sections - after[1] as usize
}

/// Too few counts are 11 before all else, and nothing is written.
fn compare_short(tally: &mut Tally, rng: &mut Rng, case: &Case) {
    let mut words = lent_counts(case);
    words.truncate(rng.below(8));
    let before = words.clone();
    let mut tables = case.2.clone();
    let got = library::change(case.0, &mut words, &mut tables);
    let same = got == 11 && words == before && tables == case.2;
    tally.count(true, same, &|| oracle::line::print(&case.1, &case.2));
}

fn compare_text(tally: &mut Tally, rng: &mut Rng, case: &Case) {
    let (strings, pool) = (&case.2.strings, &case.2.pool);
    let register = if rng.chance(10) { rng.next() } else { rng.below(strings.len() + 2) as u64 };
    let same = same_text(strings, pool, register);
    tally.count(false, same, &|| format!("{register} {}", oracle::line::print(&case.1, &case.2)));
}

fn same_text(strings: &[u32], pool: &[u8], register: u64) -> bool {
    let (start, length) = judge::text(strings, pool, register as usize);
    library::text(strings, pool, register) == (start as u64, length as u64)
}

/// More words than a table counts: the last register, and numbers behind it that are none.
fn compare_last_texts(tally: &mut Tally) {
    let strings = vec![Span { start: 1, length: 1 }.word(); MOST_COUNT + 3];
    for register in MOST_COUNT as u64 - 2..MOST_COUNT as u64 + 4 {
        tally.count(false, same_text(&strings, b"ab", register), &|| format!("register {register}"));
    }
}

fn compare_machines(seed: u64, count: usize) -> Vec<Tally> {
    let mut tallies: Vec<Tally> = Op::ALL.iter().map(|op| Tally::new(op.name())).collect();
    let (mut short, mut text) = (Tally::new("too few counts"), Tally::new("text"));
    compare_last_texts(&mut text);
    let mut rng = Rng::new(seed);
    let mut done = 0;
    let mut batch = 0;
    while done < count {
        // tables of 65,535 words and more come in one batch of forty
        let most = if batch % 40 == 0 { usize::MAX } else { 200 };
        let part = (A_BATCH / 5).min(count - done);
        let seed = seed.wrapping_mul(1_000_033).wrapping_add(batch);
        for case in machines::cases(seed, part, most) {
            compare_change(&mut tallies[case.0 as usize], &case);
            compare_text(&mut text, &mut rng, &case);
            if rng.chance(5) {
                compare_short(&mut short, &mut rng, &case);
            }
        }
        done += part;
        batch += 1;
    }
    tallies.extend([short, text]);
    tallies
}

/// Combining, a tally each way that chains lie, and one of long tables.
fn compare_chains(seed: u64, count: usize) -> Vec<Tally> {
    let mut rng = Rng::new(seed);
    let mut tallies: Vec<Tally> = Layout::ALL.iter().map(|layout| Tally::new(layout.name())).collect();
    let mut joins = 0;
    for (layout, tally) in Layout::ALL.into_iter().zip(&mut tallies) {
        for _ in 0..count / Layout::ALL.len() {
            joins += compare_change(tally, &chains::case(&mut rng, layout));
        }
    }
    let mut long = Tally::new("long tables");
    for case in chains::long(&mut rng) {
        joins += compare_change(&mut long, &case);
    }
    tallies.push(long);
    println!("combine: {joins} joins");
    tallies
}

fn all(seed: u64, files: usize, machines: usize) -> Vec<Tally> {
    let mut tallies = compare_files(seed, files);
    tallies.extend(compare_machines(seed, machines));
    tallies
}

fn main() -> ExitCode {
    let words: Vec<String> = std::env::args().skip(1).collect();
    let numbers: Vec<u64> = words.iter().filter_map(|word| word.parse().ok()).collect();
    let first = words.first().map_or("", String::as_str);
    judge::hush_yogi();
    let tallies = match (first, &numbers[..]) {
        ("big", []) => {
            big::run();
            return ExitCode::SUCCESS;
        }
        ("build", &[seed, files]) => builds::run(seed, files as usize),
        ("chains", &[seed, machines]) => compare_chains(seed, machines as usize),
        (_, &[seed, files, machines]) => all(seed, files as usize, machines as usize),
        _ => {
            eprintln!("usage: compare SEED FILES MACHINES, compare chains SEED MACHINES, compare build SEED FILES, or compare big");
            return ExitCode::from(2);
        }
    };
    tallies.iter().for_each(Tally::print);
    let different: u64 = tallies.iter().map(|t| t.different).sum();
    println!("{different} differences");
    ExitCode::from(u8::from(different != 0))
}
