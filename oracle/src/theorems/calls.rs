//! Calls of the operations: each states the answer and every lent word afterwards.

use super::names;
use super::terms::*;
use super::Theorem;
use crate::bits::hex;
use crate::finlist::finlist;
use crate::generate::{fixed, machines, texts, trees};
use crate::judge::{build, change, estimate, size, text, Answer, Options, Stage};
use crate::limits::{MOST_BYTES, MOST_NODES};
use crate::line;
use crate::machine::{Counts, Tables};
use crate::rng::Rng;
use crate::tree::encode;

/// Bounds of the files: most are small, some of middle size.
pub const SMALL: usize = 120;
const MIDDLE: usize = 300;

/// `R n` or `done`, for the summary.
fn sort<T>(answer: &Answer<T>) -> String {
    match answer {
        Answer::Refused(n) => format!("R {n:2}"),
        _ => "done".into(),
    }
}

fn size_theorem(bytes: &[u8]) -> Theorem {
    let answer = size(bytes);
    Theorem {
        operation: names::SIZE,
        unfolds: names::SIZE,
        answer: sort(&answer),
        note: format!("size {}", hex(bytes)),
        left: format!("{} {}", names::SIZE, plain(bytes)),
        right: answer_term(&answer, size_term),
    }
}

fn stage_theorem(stage: Stage, bytes: &[u8], options: Options, lent: &Tables) -> Theorem {
    let operation = match stage {
        Stage::Lower => names::LOWER,
        Stage::Finish => names::FINISH,
    };
    let (answer, after) = build(stage, bytes, options, lent);
    Theorem {
        operation,
        unfolds: operation,
        answer: sort(&answer),
        note: format!("{operation} {}", hex(bytes)),
        left: format!(
            "{operation} {} {} ({})",
            options_term(options),
            plain(bytes),
            tables_term(lent)
        ),
        right: outcome(&answer, &after),
    }
}

pub fn change_theorem((op, counts, lent): &machines::Case) -> Theorem {
    let (answer, after) = change(*op, counts, lent);
    Theorem {
        operation: op.name(),
        unfolds: op.name(),
        answer: sort(&answer),
        note: format!("{} {}", op.name(), line::print(counts, lent)),
        left: format!("{} ({}) ({})", op.name(), tables_term(lent), counts_term(counts)),
        right: outcome(&answer, &after),
    }
}

/// What the program finlist prints, byte for byte.
pub fn finlist_theorem(bytes: &[u8]) -> Theorem {
    Theorem {
        operation: names::FINLIST,
        unfolds: names::FINLIST,
        answer: sort(&size(bytes)),
        note: format!("finlist {}", hex(bytes)),
        left: format!("{} {}", names::FINLIST, plain(bytes)),
        right: plain(finlist(bytes).as_bytes()),
    }
}

fn text_theorem(texts::Case { strings, pool, register }: &texts::Case) -> Theorem {
    let (start, length) = text(strings, pool, *register);
    Theorem {
        operation: names::TEXT,
        unfolds: names::TEXT,
        answer: "done".into(),
        note: format!("text {strings:x?} {} {register}", hex(pool)),
        left: format!("{} {} {} {register}", names::TEXT, plain(strings), plain(pool)),
        right: format!("span {start} {length}"),
    }
}

// ---- lent tables with old words

fn old<T>(rng: &mut Rng, length: usize, word: impl Fn(u64) -> T) -> Vec<T> {
    (0..length).map(|_| word(1 + rng.next() % 250)).collect()
}

/// Tables of the estimate, of more, or one of them a word short.
fn lent(rng: &mut Rng, need: &Counts) -> Tables {
    let mut room = need.row();
    match rng.below(10) {
        0..=3 => (),
        4..=8 => room.iter_mut().for_each(|n| *n += rng.below(4)),
        _ => {
            let at = rng.pick(&[1, 2, 3, 4, 5, 7]);
            room[at] = room[at].saturating_sub(1);
        }
    }
    let [_, sections, instrs, numbers, strings, pool, _, names] = room;
    Tables {
        sections: old(rng, sections, |w| w),
        instrs: old(rng, instrs, |w| w),
        numbers: old(rng, numbers, |w| w as i64 - 100),
        strings: old(rng, strings, |w| w as u32),
        pool: old(rng, pool, |w| w as u8),
        names: old(rng, names, |w| w as u16),
    }
}

pub fn of_file(rng: &mut Rng, i: usize, bytes: &[u8]) -> Vec<Theorem> {
    let need = match size(bytes) {
        Answer::Done(size) => estimate(&size),
        _ => Counts {
            sections: 2,
            instrs: 1,
            numbers: 2,
            ..Default::default()
        },
    };
    let options = Options::of_number((i % 4) as u8);
    let mut out = vec![size_theorem(bytes)];
    for stage in [Stage::Lower, Stage::Finish] {
        let lent = lent(rng, &need);
        out.push(stage_theorem(stage, bytes, options, &lent));
    }
    out
}

pub fn valid_files(seed: u64, count: usize) -> Vec<Vec<u8>> {
    let mut rng = Rng::new(!seed);
    let mut files = trees::files(seed, count, SMALL);
    files
        .iter_mut()
        .skip(9)
        .step_by(10)
        .for_each(|bytes| *bytes = trees::sized(&mut rng, MIDDLE).1);
    files
}

/// The limits of bytes and nodes: files too long for more than a few theorems.
pub fn limits() -> Vec<Theorem> {
    let zeros = |count: usize| Theorem {
        left: format!("{} (replicate {count} 0)", names::SIZE),
        note: format!("size of {count} zeros"),
        ..size_theorem(&vec![0; count])
    };
    let mut out: Vec<Theorem> = [MOST_BYTES, MOST_BYTES + 1].map(zeros).into();
    out.extend([MOST_NODES, MOST_NODES + 1].map(|nodes| size_theorem(&encode(&fixed::few_bytes(nodes)))));
    out
}

pub fn texts(rng: &mut Rng, count: usize) -> Vec<Theorem> {
    (0..count).map(|_| text_theorem(&texts::case(rng))).collect()
}
