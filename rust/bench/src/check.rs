//! The plain Rust and the library beside the judge, and the way through yogi's types, on random files.

use crate::plain::Plain;
use crate::yogi;
use oracle::generate::{damaged, trees};
use oracle::judge::{build, machine_of, Answer, Options, Stage};
use oracle::machine::Tables as Lent;
use oracle::tree::decode;
use oracle::yogi::ir::glue;
use sezkibalo::raw;
use sezkibalo::*;

/// The largest files but of one in so many, which are of any length.
const MOST: usize = 600;
const LARGE: usize = 100;

fn as_judged(t: &Tables) -> Lent {
    let t = t.clone();
    Lent { sections: t.sections, instrs: t.instructions, numbers: t.numbers, strings: t.strings, pool: t.pool, names: t.names }
}

fn number(answer: &Result<Counts, Refusal>) -> Result<[u64; 8], u64> {
    answer.map(|counts| counts.row()).map_err(|refusal| refusal.number())
}

/// Both builders on old words; how many differ from the judge.
fn compare(plain: &mut Plain, file: &[u8], bits: u8) -> usize {
    let options = CodegenOptions { protect_locals: bits & 1 == 1, protect_globals: bits & 2 == 2 };
    let need = raw::size(file).map_or(Counts::default(), |size| size.estimate());
    let mut old = Tables::of_room(&need);
    old.sections.fill(!0);
    old.instructions.fill(!0);
    old.numbers.fill(-1);
    old.strings.fill(!0);
    old.pool.fill(!0);
    old.names.fill(7);
    let mut different = 0;
    for stage in [Stage::Lower, Stage::Finish] {
        let (answer, after) = build(stage, file, Options::of_number(bits), &as_judged(&old));
        let expected = match answer {
            Answer::Done(counts) => Ok(counts.row().map(|n| n as u64)),
            Answer::Refused(n) => Err(u64::from(n)),
            Answer::Panic => panic!("yogi panics"),
        };
        let mut tables = [old.clone(), old.clone()];
        let [a, b] = &mut tables;
        let answers = match stage {
            Stage::Lower => [plain.lower(file, options, a.lend()), raw::lower(file, options, b.lend())],
            Stage::Finish => [plain.finish(file, options, a.lend()), raw::finish(file, options, b.lend())],
        };
        for (answer, tables) in answers.iter().zip(&tables) {
            different += usize::from(number(answer) != expected || as_judged(tables) != after);
        }
    }
    different
}

/// A tree as yogi's program, that as a script, packed and finished: the judge's machine of yogi's program, names aside.
fn through_yogi(file: &[u8]) -> usize {
    let Ok(tree) = decode(file) else { return 0 };
    let program = glue::program(&tree);
    let script = yogi::from_program(&program);
    let same_program = yogi::to_program(&script) == program;
    let machine = script.pack().map(|packed| Machine::finish(&packed.bytes, CodegenOptions::default()));
    let Answer::Done(mut expected) = machine_of(Stage::Finish, &tree, Options::of_number(Options::DEFAULT)) else {
        panic!("yogi panics");
    };
    let Ok(Ok(machine)) = machine else { return 1 };
    let mut got = yogi::to_machine(&machine);
    let back = yogi::from_machine(&got) == machine;
    // a script has no table of names that it does not use
    expected.names.clear();
    got.names.clear();
    usize::from(!same_program || got != expected || !back)
}

/// How many files were tried, and how many differences there are.
pub fn run(seed: u64, count: usize) -> (usize, usize) {
    let mut plain = Plain::default();
    let mut files = trees::files(seed, count, MOST);
    files.extend(damaged::files(seed, count, MOST));
    files.extend(trees::files(!seed, count / LARGE, usize::MAX));
    let different = files.iter().enumerate().map(|(i, file)| compare(&mut plain, file, (i % 4) as u8) + through_yogi(file)).sum();
    (files.len(), different)
}
