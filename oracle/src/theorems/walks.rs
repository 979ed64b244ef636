//! The two walks of a file under a list of outcomes: the definitions' against the judge's.

use super::calls::SMALL;
use super::names;
use super::terms::{ins_term, list, options_term, plain};
use super::Theorem;
use crate::bits::hex;
use crate::generate::{outcomes, trees};
use crate::judge::Options;
use crate::rng::Rng;
use crate::tree::{decode, Stmt, Tree};
use crate::walk::{read, Ask, Stop, Walk};
use crate::walks::Subject;

/// Most outcomes of a list, and most instructions met.
const LONG: usize = 14;
const MOST: usize = 60;
/// Half of the lists are led by the questions, so that many gotos are reached.
const SORTS: [usize; 10] = [0, 1, 2, 3, 4, 5, 5, 5, 5, 5];

/// Both walks to their stop; of one that goes on and on, the first instructions.
fn theorem(bytes: &[u8], options: Options, outcomes: &[usize], fuel: usize, walk: &Walk) -> Theorem {
    let met = list(&walk.met, ins_term);
    let (operation, answer, right) = match walk.stop {
        Stop::Question(Ask::Jump(ins)) => {
            let right = format!("same (stopsAtJump {met} ({}))", ins_term(&ins));
            (names::BOTH_WALKS, "at a jump", right)
        }
        Stop::Question(Ask::Goto(n)) => (names::BOTH_WALKS, "at a goto", format!("same (stopsAtGoto {met} {n})")),
        Stop::Silent => (names::BOTH_WALKS, "silent", format!("same (fallsSilent {met})")),
        Stop::Full => (names::BOTH_FIRST, "goes on", format!("same {met}")),
        Stop::Lost => panic!("a section is absent"),
    };
    let first = match walk.stop {
        Stop::Full => format!("{operation} {}", walk.met.len()),
        _ => operation.into(),
    };
    Theorem {
        operation,
        answer: answer.into(),
        note: format!("walks {} outcomes {outcomes:?} steps {fuel}", hex(bytes)),
        left: format!(
            "{first} {} {} {} {fuel}",
            options_term(options),
            plain(bytes),
            plain(outcomes)
        ),
        right,
        unfolds: operation,
    }
}

fn has_goto(list: &[Stmt]) -> bool {
    list.iter().any(|stmt| match stmt {
        Stmt::Goto(_) => true,
        Stmt::Ite(_, then, otherwise) => has_goto(then) || has_goto(otherwise),
        _ => false,
    })
}

/// Has it several lines and gotos between them, or does it fall silent? Fewer of the others are enough.
fn is_wanted(rng: &mut Rng, tree: &Tree, walk: &Walk) -> bool {
    let gotos = tree.lines.len() > 1 && tree.lines.iter().any(|line| has_goto(line));
    gotos || walk.stop == Stop::Silent || rng.chance(30)
}

/// The longest beginning of a list that stops at a goto.
fn upto_goto<'a>(subject: &Subject, list: &'a [usize]) -> Option<&'a [usize]> {
    let stops = |part: &&[usize]| matches!(read(&subject.script, part, MOST).stop, Stop::Question(Ask::Goto(_)));
    (0..=list.len()).rev().map(|n| &list[..n]).find(stops)
}

/// A theorem on a file, if it is accepted and wanted. Steps are just enough for both, or a few more.
fn of_file(rng: &mut Rng, i: usize, bytes: &[u8]) -> Option<Theorem> {
    let tree = decode(bytes).ok()?;
    let subject = Subject::new(&tree).unwrap_or_else(|wrong| panic!("{wrong}: {}", hex(bytes)));
    let sort = rng.pick(&SORTS);
    let whole = &outcomes::list(rng, sort, LONG, &subject.script);
    let outcomes = upto_goto(&subject, whole).filter(|_| rng.chance(50)).unwrap_or(whole);
    let walked = subject
        .check(outcomes, MOST)
        .unwrap_or_else(|wrong| panic!("{wrong}: {} {outcomes:?}", hex(bytes)));
    if !is_wanted(rng, &tree, &walked) {
        return None;
    }
    let lines = read(&subject.script, outcomes, MOST).steps;
    let fuel = walked.steps.max(lines) + rng.below(3);
    let options = Options::of_number((i % 4) as u8);
    Some(theorem(bytes, options, outcomes, fuel, &walked))
}

pub fn theorems(seed: u64, count: usize) -> Vec<Theorem> {
    let mut rng = Rng::new(!seed);
    let files = trees::files(seed, 6 * count, SMALL);
    let all = files
        .iter()
        .enumerate()
        .filter_map(|(i, bytes)| of_file(&mut rng, i, bytes));
    all.take(count).collect()
}
