//! Machines of small scripts, the passes one by one, guard words around lent tables, and names, numbers and texts read back.

mod common;
use common::*;
use sezkibalo::raw::{self, Lent};
use sezkibalo::Instruction::*;
use sezkibalo::*;

fn finished(script: &Script) -> Machine {
    Machine::finish(&bytes(script), CodegenOptions::default()).unwrap()
}

fn code(machine: &Machine) -> Vec<Instruction> {
    machine.sections().flat_map(|section| section.instructions().map(Option::unwrap).collect::<Vec<_>>()).collect()
}

#[test]
fn worked_examples() {
    let x_is_x = finished(&one_line(vec![assign("x", local("x"))]));
    assert_eq!((code(&x_is_x), x_is_x.values()), (vec![], 1));
    let sum = Statement::Assign(Ident::local("x"), Some(AssignOp::Add), local("x"));
    let doubled = one_line(vec![sum]);
    assert_eq!(bytes(&doubled), [0x01, 0x01, 0x01, 0x01, 0xe0, 0x1c, 0x00, 0xb0, 0x00]);
    assert_eq!(code(&finished(&doubled)), [AddSelfVal(ValReg(0))]);
    let compared = finished(&one_line(vec![assign("c", binop(local("a"), Binop::Ge, local("b")))]));
    let (b, b_copy, a, a_copy, v, c) = (ValReg(0), ValReg(1), ValReg(2), ValReg(3), ValReg(4), ValReg(5));
    let le = Le(b_copy, a_copy, NumReg(0));
    assert_eq!(code(&compared), [CopyVal(b, b_copy), CopyVal(a, a_copy), le, ValueifyNum(NumReg(0), v), CopyVal(v, c)]);
    let two = finished(&one_line(vec![assign("x", number(1)), assign("y", number(2))]));
    assert_eq!((two.sections().len(), code(&two).len()), (1, 4));
    let ite = finished(&one_line(vec![Statement::Ite(local("a"), vec![assign("b", number(1))], vec![])]));
    assert_eq!(ite.sections().len(), 3);
    let unlinked = one_line(vec![Statement::Goto(number(1)), assign("y", number(2))]);
    let lowered = Machine::lower(&bytes(&unlinked), CodegenOptions::default()).unwrap();
    let gone = finished(&unlinked);
    assert_eq!((lowered.sections().len(), gone.sections().len(), gone.numbers().len(), gone.values()), (3, 1, 3, 3));
    assert_eq!(gone.sections().next().unwrap().success, Success::Line(NumReg(1)));
}

#[test]
fn finished_is_lowered_cleaned_and_combined() {
    for script in [mixed(1, 60), mixed(20, 500), many(200), deep(64)] {
        let tree = bytes(&script);
        for options in [(false, false), (true, false), (false, true), (true, true)] {
            let options = CodegenOptions { protect_locals: options.0, protect_globals: options.1 };
            let mut machine = Machine::lower(&tree, options).unwrap();
            machine.make_room();
            machine.replace().unwrap();
            machine.clean().unwrap();
            machine.combine().unwrap();
            let finished = Machine::finish(&tree, options).unwrap();
            assert_eq!(machine.counts(), finished.counts());
            assert!(machine.sections().map(|s| s.success).eq(finished.sections().map(|s| s.success)));
            assert_eq!(code(&machine), code(&finished));
            assert_eq!(machine.numbers(), finished.numbers());
        }
    }
}

#[test]
fn the_last_text() {
    let strings = vec![1 << 16 | 1 << 9; 65_536];
    assert_eq!(raw::text(&strings, b"ab", 65_534), b"b");
    for register in [65_535, 65_536, u64::MAX] {
        let text = raw::text(&strings, b"ab", register);
        assert!(text.is_empty());
    }
    // nothing of a machine at all: slices that are empty
    assert!(raw::text(&[], &[], 0).is_empty());
}

#[test]
fn names_numbers_and_texts() {
    let text = Statement::Assign(Ident::global("g"), None, Expr::String("hi".into()));
    let script = one_line(vec![text, assign("x", Expr::Number(Number(i64::MIN)))]);
    let packed = script.pack().unwrap();
    assert_eq!(packed.names, [Ident::global("g"), Ident::local("x")]);
    let machine = Machine::finish(&packed.bytes, CodegenOptions::default()).unwrap();
    assert_eq!((machine.name(0), machine.name(1), machine.name(2)), (Some(ValReg(1)), None, None));
    assert_eq!(machine.numbers(), [i64::MIN]);
    assert_eq!((machine.strings(), machine.text(StrReg(0)), machine.text(StrReg(1))), (1, &b"hi"[..], &b""[..]));
    let both = CodegenOptions { protect_locals: true, protect_globals: true };
    assert_eq!(Machine::finish(&packed.bytes, both).unwrap().name(1), Some(ValReg(3)));
}

fn global(name: &str) -> Expr {
    Expr::Ident(Ident::global(name))
}

/// `Ward` and `ward` are one variable: one entry, spelled as it first stands, and the machine of a script without capitals.
#[test]
fn upper_and_lower_case_are_one_name() {
    let step = |name: &str| Statement::Incdec(Incdec { inc: true, ident: Ident::local(name) });
    let spelled = |names: [&str; 5]| {
        let [a, b, c, d, e] = names;
        one_line(vec![assign(a, local(b)), assign(c, global(d)), step(e)])
    };
    let mixed = spelled(["Ward", "wARD", "ward", "WARD", "waRd"]).pack().unwrap();
    let plain = spelled(["ward"; 5]).pack().unwrap();
    assert_eq!(mixed.names, [Ident::local("Ward"), Ident::global("WARD")]);
    assert_eq!(plain.names, [Ident::local("ward"), Ident::global("ward")]);
    assert_eq!((mixed.number(&Ident::local("WARD")), mixed.number(&Ident::global("ward"))), (Some(0), Some(1)));
    assert_eq!(mixed.number(&Ident::local("wards")), None);
    let all = CodegenOptions { protect_locals: true, protect_globals: true };
    let finished = |packed: &Packed| Machine::finish(&packed.bytes, all).unwrap();
    assert_eq!(finished(&mixed).tables(), finished(&plain).tables());
    // 255 names fit, in however many spellings
    let twice = |i: usize| Line { stmts: vec![assign(&format!("x{i}"), local(&format!("X{i}")))] };
    assert_eq!(Script { lines: (0..255).map(twice).collect() }.pack().unwrap().names.len(), 255);
}

/// Every ASCII character beside every other, as names of one character: one entry if they are the same letter.
#[test]
fn no_other_characters_are_one_name() {
    let text = |c: u8| char::from(c).to_string();
    for (a, b) in (0..128u8).flat_map(|a| (0..128).map(move |b| (a, b))) {
        let packed = one_line(vec![assign(&text(a), local(&text(b)))]).pack().unwrap();
        let same = a == b || a.is_ascii_alphabetic() && b.is_ascii_alphabetic() && a & 31 == b & 31;
        assert_eq!(packed.names.len(), if same { 1 } else { 2 }, "{a} {b}");
        assert_eq!(size(&packed.bytes).map(|s| s.names), Ok(packed.names.len()), "{a} {b}");
    }
    // yogi would read the Kelvin sign as k; the tree form has no such character
    let kelvin = one_line(vec![assign("k", local("\u{212a}"))]);
    assert_eq!(kelvin.pack().err(), Some(PackError::NotAscii));
}

#[test]
fn words_beyond_the_estimate_stay() {
    let tree = bytes(&mixed(3, 200));
    let need = size(&tree).unwrap().estimate();
    let mut row = need.row();
    row.iter_mut().for_each(|n| *n += 7);
    for build in [raw::lower, raw::finish] as [fn(&[u8], CodegenOptions, Lent) -> Result<Counts, Refusal>; 2] {
        let mut t = Tables::of_room(&Counts::of_row(row));
        t.sections.fill(7);
        t.instructions.fill(7);
        t.numbers.fill(7);
        t.strings.fill(7);
        t.pool.fill(7);
        t.names.fill(7);
        let c = build(&tree, CodegenOptions::default(), t.lend()).unwrap();
        // zeros up to the estimate, old words behind it
        assert!(t.sections[c.sections..need.sections].iter().all(|&w| w == 0) && t.sections[need.sections..] == [7; 7]);
        assert!(t.instructions[c.instructions..need.instructions].iter().all(|&w| w == 0) && t.instructions[need.instructions..] == [7; 7]);
        assert!(t.numbers[c.numbers..need.numbers].iter().all(|&w| w == 0) && t.numbers[need.numbers..] == [7; 7]);
        assert_eq!((&t.strings[need.strings..], &t.pool[need.characters..], &t.names[need.names..]), (&[7; 7][..], &[7; 7][..], &[7; 7][..]));
    }
}

#[test]
fn instructions_and_words() {
    let mut opcodes = 0;
    for opcode in 0..64 {
        let word = opcode << 58;
        if let Some(instruction) = Instruction::of_word(word) {
            opcodes += 1;
            assert_eq!(instruction.word(), word);
            assert_eq!(instruction.target().is_some(), opcode < 2);
        }
        assert_eq!(Instruction::of_word(word | 1), None);
    }
    assert_eq!(opcodes, 53);
    assert_eq!(Instruction::of_word(Neg(NumReg(3)).word() | 1 << 26), None);
    let le = Le(ValReg(1), ValReg(65_535), NumReg(2));
    assert_eq!(Instruction::of_word(le.word()), Some(le));
    assert_eq!(le.to_string(), "Le v1 v65535 n2");
}

#[test]
fn what_the_tree_form_cannot_hold() {
    let string = |n: usize| one_line(vec![assign("x", Expr::String("a".repeat(n)))]).pack().err();
    assert_eq!((string(127), string(128)), (None, Some(PackError::StringLength)));
    let name = |n: usize| one_line(vec![assign(&"a".repeat(n), number(1))]).pack().err();
    assert_eq!((name(0), name(64), name(65)), (Some(PackError::NameLength), None, Some(PackError::NameLength)));
    let lines = |n: usize| Script { lines: vec![Line::default(); n] }.pack().err();
    assert_eq!((lines(255), lines(256)), (None, Some(PackError::TooManyLines)));
    let list = |n: usize| one_line(vec![assign("x", local("x")); n]).pack().err();
    assert_eq!((list(63), list(64)), (None, Some(PackError::TooManyStatements)));
    let names = |n: usize| Script { lines: (0..n).map(|i| Line { stmts: vec![assign(&format!("x{i}"), number(1))] }).collect() };
    assert_eq!(names(255).pack().err(), None);
    let mut more = names(255);
    more.lines[0].stmts.push(assign("y", number(1)));
    assert_eq!(more.pack().err(), Some(PackError::TooManyNames));
    assert_eq!(one_line(vec![assign("é", number(1))]).pack().err(), Some(PackError::NotAscii));
}
