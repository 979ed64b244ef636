//! Joins in any order, on machines made by hand, and on all small ones.

use crate::bits::unhex;
use crate::judge::{change, Answer, Op, Options};
use crate::lowering::script;
use crate::machine::{op, pack, Ins, Machine, Next, Sect};
use crate::orders::{check_midway, check_orders, cleaned_and_finished, every_end, join, pairs, Tally};
use crate::rng::Rng;
use crate::tree::decode;

fn section(start: bool, next: usize, code: &[Ins]) -> Sect {
    Sect {
        start,
        next: Next::Section(next as u16),
        code: code.to_vec(),
    }
}

fn machine(sections: Vec<Sect>) -> Machine {
    Machine {
        lines: 1,
        sections,
        numbers: vec![],
        strings: vec![],
        pool: vec![],
        values: 1,
        names: vec![],
    }
}

fn instructions(sections: usize) -> Vec<Ins> {
    let plain = [op::IncVal, op::DecVal].map(|op| Ins { op, fields: [0; 3] });
    let jumps = (0..sections).map(|t| Ins {
        op: op::JumpIfError,
        fields: [t as u16, 0, 0],
    });
    plain.into_iter().chain(jumps).collect()
}

/// All ways to choose `n` of the items, one after another.
fn choices<T: Copy>(items: &[T], n: usize) -> Vec<Vec<T>> {
    let longer = |chosen: &Vec<T>| items.iter().map(|&x| [&chosen[..], &[x]].concat()).collect::<Vec<_>>();
    (0..n).fold(vec![vec![]], |all, _| all.iter().flat_map(longer).collect())
}

/// All machines of one line whose sections each go on to a section, with so many sections and instructions: two kinds, and jumps.
fn all(sections: usize, instructions_in_all: usize) -> Vec<Machine> {
    let places: Vec<usize> = (0..sections).collect();
    let mut out = vec![];
    for next in choices(&places, sections) {
        for code in choices(&instructions(sections), instructions_in_all) {
            for at in choices(&places, instructions_in_all) {
                let of = |i: usize| {
                    (0..code.len())
                        .filter(|&k| at[k] == i)
                        .map(|k| code[k])
                        .collect::<Vec<_>>()
                };
                out.push(machine(
                    places.iter().map(|&i| section(i == 0, next[i], &of(i))).collect(),
                ));
            }
        }
    }
    out
}

/// The only ones that end twice are those of three sections, two of them a ring, with two instructions, one in each and not the same.
#[test]
fn the_smallest_machine_that_ends_twice() {
    let sizes = [(1, 0), (1, 1), (1, 2), (2, 0), (2, 1), (2, 2), (3, 0), (3, 1)];
    for (sections, instructions) in sizes {
        assert!(all(sections, instructions)
            .iter()
            .all(|machine| every_end(machine).len() == 1));
    }
    let twice: Vec<Machine> = all(3, 2)
        .into_iter()
        .filter(|machine| every_end(machine).len() > 1)
        .collect();
    assert!(!twice.is_empty());
    for machine in twice {
        let next = |i: usize| machine.sections[i].next;
        assert_eq!((next(1), next(2)), (Next::Section(2), Next::Section(1)));
        assert_eq!((machine.sections[1].code.len(), machine.sections[2].code.len()), (1, 1));
        assert_ne!(machine.sections[1].code, machine.sections[2].code);
    }
}

#[test]
fn a_pair_is_allowed_by_each_condition() {
    let jump = |t| Ins {
        op: op::JumpIfError,
        fields: [t, 0, 0],
    };
    let mut several = machine(vec![
        section(true, 1, &[]),
        section(true, 2, &[jump(3)]),
        section(false, 3, &[]),
        section(false, 4, &[]),
        section(false, 6, &[]),
        section(false, 5, &[]),
        section(false, 0, &[]),
        section(false, 6, &[]),
    ]);
    assert_eq!(pairs(&several), [(1, 2), (3, 4)]);
    join(&mut several, (1, 2));
    assert_eq!(several.sections[1], section(true, 2, &[jump(2)]));
    assert_eq!(pairs(&several), [(2, 3)]);
}

/// A ring of two: every order is tried, and not each that is picked ends as the first.
#[test]
fn other_ends_are_noticed() {
    let ins = |op| Ins { op, fields: [0; 3] };
    let start = machine(vec![
        section(true, 0, &[]),
        section(false, 2, &[ins(op::IncVal)]),
        section(false, 1, &[ins(op::DecVal)]),
    ]);
    let mut end = start.clone();
    join(&mut end, (1, 2));
    let mut tally = Tally::default();
    check_orders(&mut tally, &mut Rng::new(1), &start, &end, None, "a ring");
    for what in ["another end: a ring", "two ends: a ring"] {
        assert!(tally.wrong.iter().any(|wrong| wrong.starts_with(what)), "{what}");
    }
    let (counts, tables) = pack(&start);
    assert_eq!(change(Op::Combine, &counts, &tables).0, Answer::Refused(15));
}

/// `if a then b=1 end`, midway with another instruction.
#[test]
fn other_walks_midway_are_noticed() {
    let tree = decode(&unhex("0101020184062056000e02200000000000001f4000").unwrap()).unwrap();
    let (mut machine, _) = cleaned_and_finished(&tree, Options::of_number(Options::DEFAULT)).unwrap();
    let mut rng = Rng::new(1);
    let mut tally = Tally::default();
    for _ in 0..20 {
        check_midway(&mut tally, &mut rng, &script(&tree), &machine, "as it is");
    }
    assert!(tally.wrong.is_empty());
    machine.sections[0].code[0].fields[0] = 1;
    for _ in 0..20 {
        check_midway(&mut tally, &mut rng, &script(&tree), &machine, "altered");
    }
    assert!(!tally.wrong.is_empty());
}
