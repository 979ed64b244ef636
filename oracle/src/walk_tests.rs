//! Walk and reading on scripts of one line, on random trees, and on machines that are wrong.

use crate::bits::unhex;
use crate::generate::{outcomes, trees};
use crate::lowering::script;
use crate::machine::{op, Ins, Next};
use crate::origin::behind_goto;
use crate::rng::Rng;
use crate::tree::decode;
use crate::walk::{Ask, Stop, Walk};
use crate::walks::Subject;

const IF: &str = "0101020184062056000e02200000000000001f4000";
const GOTO: &str = "01010101e42200000000000001f4600200000000000003e800";
const EMPTY_THEN: &str = "01010101e015800000";

fn subject(hex: &str) -> Subject {
    let tree = decode(&unhex(hex).unwrap()).expect("an accepted tree");
    Subject::new(&tree).expect("a script like its machine")
}

fn walk(hex: &str, outcomes: &[usize], most: usize) -> Walk {
    subject(hex).check(outcomes, most).expect("both walks agree")
}

fn ins(op: u8, fields: [u16; 3]) -> Ins {
    Ins { op, fields }
}

#[test]
fn condition_taken_then_not() {
    let test = [ins(op::IsTruthyVal, [0, 0, 0]), ins(op::JumpSectionIf, [0, 0, 0])];
    let then = [ins(op::ValueifyNum, [1, 1, 0]), ins(op::CopyVal, [1, 2, 0])];
    let walk = walk(IF, &[1, 0], 100);
    assert_eq!(walk.met, [&test[..], &then, &test, &test].concat());
    assert_eq!(walk.stop, Stop::Question(Ask::Jump(test[1])));
}

#[test]
fn goto_behind_an_error() {
    let goto = [
        ins(op::ValueifyNum, [0, 0, 0]),
        ins(op::NumberifyVal, [0, 1, 0]),
        ins(op::JumpIfError, [0, 0, 0]),
    ];
    let walk = walk(GOTO, &[1, 0], 100);
    assert_eq!(walk.met, [goto, goto].concat());
    assert_eq!(walk.stop, Stop::Question(Ask::Goto(1)));
}

#[test]
fn full_and_silent() {
    let empty = walk("01010000", &[1], 100);
    assert_eq!((empty.met.len(), empty.stop), (0, Stop::Silent));
    // an empty then-list asks nothing
    let test = walk(EMPTY_THEN, &[], 4);
    assert_eq!(test.met, [ins(op::IsTruthyVal, [0, 0, 0]); 4]);
    assert_eq!(test.stop, Stop::Full);
    // with no room left a goto still asks
    assert_eq!(walk(GOTO, &[0], 3).stop, Stop::Question(Ask::Goto(1)));
    assert_eq!(walk(GOTO, &[0], 2).stop, Stop::Full);
}

#[test]
fn behind_a_goto() {
    let tree = decode(&unhex(GOTO).unwrap()).unwrap();
    let script = script(&tree);
    assert_eq!(behind_goto(&script), [false, true]);
    assert_eq!((script.numbers, script.values), (3, 3));
}

#[test]
fn random_trees() {
    let mut rng = Rng::new(5);
    for i in 0..600 {
        let (tree, _) = trees::sized(&mut rng, 300);
        let subject = Subject::new(&tree).unwrap();
        let list = outcomes::list(&mut rng, i % outcomes::SORTS, 30, &subject.script);
        subject.check(&list, 500).unwrap();
    }
}

/// One thing changed in the machine, and a list that shows it.
#[test]
fn wrong_machines_are_noticed() {
    let wrong = |hex: &str, outcomes: &[usize], change: fn(&mut Subject)| {
        let mut subject = subject(hex);
        change(&mut subject);
        subject.check(outcomes, 50).err()
    };
    let line = |subject: &mut Subject| subject.machine.sections[0].next = Next::Line(2);
    assert_eq!(wrong(GOTO, &[0], line), Some("they stop otherwise"));
    let absent = |subject: &mut Subject| subject.machine.sections[0].next = Next::Section(9);
    assert_eq!(wrong(IF, &[0], absent), Some("a section is absent"));
    let otherwise = |subject: &mut Subject| subject.machine.sections[0].code[1].fields[0] = 2;
    assert_eq!(wrong(IF, &[1], otherwise), Some("other instructions are met"));
    assert_eq!(wrong(IF, &[0], otherwise), None);
}
