//! The worked examples that came with the rules, and where the rules are stricter than yogi. Run by `cargo test --release`.

use crate::bits::unhex;
use crate::finlist::finlist;
use crate::generate::{broken, chains};
use crate::judge::{ask_yogi, change, jump_targets, machine_of, pass, Answer, Op, Options, Stage};
use crate::line;
use crate::machine::{op, pack, unpack, Ins, Kind, Machine, Next};
use crate::rng::Rng;
use crate::tree::{decode, encode, Expr, Name, Stmt, Tree};
use crate::yogi::ir::glue::{construct, instrs};

fn machine(stage: Stage, hex: &str) -> Machine {
    let tree = decode(&unhex(hex).unwrap()).expect("an accepted tree");
    match machine_of(stage, &tree, Options::of_number(Options::DEFAULT)) {
        Answer::Done(machine) => machine,
        _ => panic!("yogi panics"),
    }
}

fn finished(hex: &str) -> Machine {
    machine(Stage::Finish, hex)
}

fn code(machine: &Machine) -> Vec<(u8, [u16; 3])> {
    machine
        .sections
        .iter()
        .flat_map(|s| &s.code)
        .map(|ins| (ins.op, ins.fields))
        .collect()
}

#[test]
fn small_files() {
    assert_eq!(decode(&[]), Err(3));
    assert_eq!(decode(&[1, 0]), Err(2));
    let empty = finished("01010000");
    assert_eq!((empty.sections.len(), empty.sections[0].next), (1, Next::Section(0)));
    assert!(code(&empty).is_empty());
}

#[test]
fn equal_operands() {
    let same = finished("01010101e01c003000");
    assert!(code(&same).is_empty());
    assert_eq!(same.values, 1);
    assert_eq!(code(&finished("01010101e01c00b000")), [(19, [0, 0, 0])]);
}

#[test]
fn comparison() {
    let expected = [
        (4, [0, 1, 0]),
        (4, [2, 3, 0]),
        (33, [1, 3, 0]),
        (5, [0, 4, 0]),
        (4, [4, 5, 0]),
    ];
    assert_eq!(code(&finished("0101030184062018c1c080c600c040")), expected);
}

#[test]
fn sections() {
    let two = finished("01010201e00790b00100000000000000fa301100000000000001f400");
    assert_eq!((two.sections.len(), code(&two).len()), (1, 4));
    assert_eq!(finished("0101020184062056000e02200000000000001f4000").sections.len(), 3);
    let goto = "01010101e42200000000000001f4600200000000000003e800";
    assert_eq!(machine(Stage::Lower, goto).sections.len(), 3);
    let goto = finished(goto);
    assert_eq!((goto.sections.len(), goto.numbers.len(), goto.values), (1, 3, 3));
    let loose = finished("01010101842200000000000001f42c000000");
    assert_eq!(loose.sections.len(), 4);
    assert!(loose.sections[1..].iter().all(|s| s.next == Next::Section(3)));
}

/// Of each pair of ASCII characters, with and without a flag: are they one name? The reader, the judge and yogi's constructors agree.
#[test]
fn case_does_not_count() {
    let named = |c: u8, global: bool| Name { global, text: vec![c] };
    let built = |n: &Name| construct(&char::from(n.text[0]).to_string(), n.global);
    let mut same_pairs = 0;
    for (a, b) in (0..128).flat_map(|a| (0..128).map(move |b| (a, b))) {
        for (f, g) in [(false, false), (false, true), (true, true)] {
            let (x, y) = (named(a, f), named(b, g));
            let letters = a.is_ascii_alphabetic() && b.is_ascii_alphabetic();
            let same = f == g && (a == b || letters && a & 31 == b & 31);
            same_pairs += usize::from(same && a != b);
            assert_eq!(x.same(&y), same, "{x:?} {y:?}");
            assert_eq!(built(&x) == built(&y), same, "{x:?} {y:?}");
            let file = encode(&Tree {
                names: vec![x, y],
                lines: vec![vec![]],
            });
            assert_eq!(decode(&file).err(), same.then_some(6));
        }
    }
    assert_eq!(same_pairs, 2 * 2 * 26);
    assert_eq!(decode(&unhex("01010301e207801600").unwrap()).err(), Some(6));
    // beyond ASCII yogi folds more: the Kelvin sign is k
    assert_eq!(construct("\u{212a}", false), construct("k", false));
}

/// A name is spelled in whatever case: the machine is that of the folded names.
#[test]
fn spelling_does_not_show() {
    let tree = |name: &str| {
        let name = Name {
            global: true,
            text: name.into(),
        };
        let line = vec![Stmt::Incdec(true, 0), Stmt::Goto(Expr::Ident(0))];
        encode(&Tree {
            names: vec![name],
            lines: vec![line],
        })
    };
    let built = |name: &str| match machine_of(Stage::Finish, &decode(&tree(name)).unwrap(), Options::of_number(0)) {
        Answer::Done(machine) => pack(&machine),
        _ => panic!("yogi panics"),
    };
    assert_ne!(tree("Ward"), tree("ward"));
    assert_eq!(built("Ward"), built("ward"));
}

#[test]
fn five_references() {
    let lowered = machine(Stage::Lower, "01010101e021802c00008600b0000158000000");
    let Answer::Done(cleaned) = pass(Op::Clean, &lowered) else {
        panic!("yogi panics")
    };
    let references = |s: usize| {
        let links = cleaned
            .sections
            .iter()
            .filter(|from| from.next == Next::Section(s as u16))
            .count();
        links + jump_targets(&cleaned).filter(|&target| target == s).count()
    };
    assert_eq!((cleaned.lines..cleaned.sections.len()).map(references).max(), Some(5));
}

#[test]
fn finlist_sample() {
    let bytes = unhex("01010101e01c00400000000000003e80").unwrap();
    assert_eq!(
        finlist(&bytes),
        "M 1 1 1 0 2\nN 0 1000\nS 0 1 0 0 2\nI 5 0 0 0\nI 4 0 1 0\n"
    );
    assert_eq!(finlist(&[0; 8_193]), "R 10\n");
    assert_eq!(finlist(&[0; 8_192]), "R 1\n");
}

/// What the rules answer, and what yogi alone does.
fn both(op: Op, text: &str) -> (Answer<()>, Answer<Machine>) {
    let (counts, tables) = line::parse(text).unwrap();
    (
        change(op, &counts, &tables).0.map(|_| ()),
        pass(op, &unpack(&counts, &tables)),
    )
}

#[test]
fn stricter_than_yogi() {
    crate::judge::hush_yogi();
    let (answer, alone) = both(
        Op::Clean,
        "1 2 1 1 0 0 1 0|8000000000000000 3fffc00000004000|400040000000000|0|||",
    );
    assert_eq!(
        (answer, alone.map(|m| m.sections.len())),
        (Answer::Refused(13), Answer::Done(1))
    );
    let text = "1 3 0 1 0 0 1 0|8000400000000000 4000000000000000 400000000000||0|||";
    let (answer, alone) = both(Op::Combine, text);
    let as_it_was = alone.map(|m| pack(&m)) == Answer::Done(line::parse(text).unwrap());
    assert_eq!((answer, as_it_was), (Answer::Refused(15), true));
    let joins = "400000000000000 400000000000000 400000000000000|0|||";
    let backwards = format!("1 3 3 1 0 0 1 0|8000000000000000 4000000000004000 400040008000|{joins}");
    assert_eq!(both(Op::Combine, &backwards), (Answer::Refused(15), Answer::Panic));
    let unfixed = "1 1 0 0 0 0 0 0|bfffc00000000000|||||";
    assert_eq!(both(Op::Combine, unfixed), (Answer::Refused(14), Answer::Panic));
    assert_eq!(both(Op::Clean, unfixed), (Answer::Refused(13), Answer::Panic));
}

/// Each way of breaking a rule is refused with 12, but for the few that happen to stay sound.
#[test]
fn each_rule_is_broken() {
    for how in 0..broken::BREAKAGES {
        let refused = broken::broken_so(how, 60)
            .iter()
            .filter(|(op, counts, tables)| change(*op, counts, tables).0 == Answer::Refused(12))
            .count();
        assert!(refused >= 30, "breakage {how}: only {refused} of 60 are refused");
    }
}

/// Of each chain that nothing breaks yogi leaves one section, and every instruction.
#[test]
fn chains_are_joined() {
    let mut rng = Rng::new(1);
    let mut joins = 0;
    for layout in chains::Layout::ALL {
        for _ in 0..100 {
            let (machine, chains) = chains::unbroken(&mut rng, layout);
            let Answer::Done(after) = pass(Op::Combine, &machine) else {
                panic!("yogi panics")
            };
            assert_eq!(after.sections.len(), chains, "{}", layout.name());
            assert_eq!(code(&after).len(), code(&machine).len());
            joins += machine.sections.len() - chains;
        }
    }
    assert!(joins > 5_000, "{joins}");
}

/// What yogi says of single instructions, as the theorems have it.
#[test]
fn single_instructions() {
    let ins = |op, fields| Ins { op, fields };
    let (num, val) = (|n| (Kind::NumReg, n), |n| (Kind::ValReg, n));
    crate::judge::hush_yogi();
    assert_eq!(instrs::reads(ins(op::JumpSectionIf, [3, 5, 0])), [num(5)]);
    assert_eq!(instrs::reads(ins(op::Le, [3, 5, 7])), [val(3), val(5)]);
    assert_eq!(instrs::modifies(ins(op::Le, [3, 5, 7])), Some(num(7)));
    assert_eq!(instrs::get_section(ins(op::JumpIfError, [3, 0, 0])), Some(3));
    assert!(!instrs::can_runtime_err(ins(op::IncVal, [3, 0, 0])));
    let le = ins(op::Le, [3, 5, 7]);
    assert_eq!(instrs::remove_reg(le, val(4)), ins(op::Le, [3, 4, 7]));
    assert_eq!(ask_yogi(|| instrs::remove_reg(le, val(5))), Answer::Panic);
    let jump = ins(op::JumpIfError, [3, 0, 0]);
    assert_eq!(instrs::remove_section(jump, 2), ins(op::JumpIfError, [2, 0, 0]));
    assert_eq!(instrs::checked_remove_section(jump, 3), (true, jump));
    let replaced = instrs::dup_replace_with(ins(op::Eq, [4, 4, 1]), 2, 0);
    assert_eq!(
        (replaced.code, replaced.numbers),
        (vec![ins(op::CopyNum, [2, 1, 0])], vec![1_000])
    );
}
