//! Calls yogi's private functions. The build script makes this file a module below yogi's
//! `optimize`, so that it sees them.

use super::sections::CombineSections;
use super::*;
use crate::machine::{Ins, Machine, Next, Sect, Span};
use crate::tree;
use parser::*;

pub mod instrs;

include!(concat!(env!("OUT_DIR"), "/yogi/conversions.rs"));

// ---- a tree as yogi's

const BINOPS: [Binop; 14] = [
    Binop::And,
    Binop::Or,
    Binop::Add,
    Binop::Sub,
    Binop::Mul,
    Binop::Div,
    Binop::Mod,
    Binop::Pow,
    Binop::Eq,
    Binop::Ne,
    Binop::Le,
    Binop::Lt,
    Binop::Ge,
    Binop::Gt,
];

const UNOPS: [Unop; 11] = [
    Unop::Neg,
    Unop::Not,
    Unop::Abs,
    Unop::Sqrt,
    Unop::Fact,
    Unop::Sin,
    Unop::Cos,
    Unop::Tan,
    Unop::Asin,
    Unop::Acos,
    Unop::Atan,
];

const ASSIGNS: [AssignOp; 6] =
    [AssignOp::Add, AssignOp::Sub, AssignOp::Mul, AssignOp::Div, AssignOp::Mod, AssignOp::Pow];

fn text(bytes: &[u8]) -> String {
    bytes.iter().map(|&b| char::from(b)).collect()
}

/// By yogi's own constructors, which fold case.
pub fn construct(name: &str, global: bool) -> Ident {
    if global {
        Ident::global(name)
    } else {
        Ident::local(name)
    }
}

/// yogi is run on folded names. Its constructors must make the same of a name as it is spelled.
fn ident(name: &tree::Name) -> Ident {
    let built = Ident { name: text(&name.folded().text), global: name.global };
    assert_eq!(construct(&text(&name.text), name.global), built, "yogi's constructor folds otherwise");
    built
}

struct Names<'a>(&'a [tree::Name]);

impl Names<'_> {
    fn ident(&self, name: u8) -> Ident {
        ident(&self.0[usize::from(name)])
    }

    fn incdec(&self, inc: bool, name: u8) -> Incdec {
        Incdec { inc, ident: self.ident(name) }
    }

    fn expr(&self, expr: &tree::Expr) -> Expr {
        match expr {
            tree::Expr::Binop(op, l, r) => {
                Expr::Binop(self.expr(l).into(), BINOPS[usize::from(*op)], self.expr(r).into())
            }
            tree::Expr::Unop(op, e) => Expr::Unop(UNOPS[usize::from(*op)], self.expr(e).into()),
            tree::Expr::Incdec(inc, name) => Expr::Incdec(self.incdec(*inc, *name)),
            tree::Expr::Ident(name) => Expr::Ident(self.ident(*name)),
            tree::Expr::Number(n) => Expr::Number(Number(*n)),
            tree::Expr::String(s) => Expr::String(text(s).into()),
        }
    }

    fn stmt(&self, stmt: &tree::Stmt) -> Statement {
        match stmt {
            tree::Stmt::Goto(e) => Statement::Goto(self.expr(e)),
            tree::Stmt::Ite(c, t, e) => Statement::Ite(self.expr(c), self.list(t), self.list(e)),
            tree::Stmt::Incdec(inc, name) => Statement::Incdec(self.incdec(*inc, *name)),
            tree::Stmt::Assign(name, op, e) => {
                let op = op.checked_sub(1).map(|op| ASSIGNS[usize::from(op)]);
                Statement::Assign(self.ident(*name), op, self.expr(e))
            }
        }
    }

    fn list(&self, list: &[tree::Stmt]) -> Vec<Statement> {
        list.iter().map(|stmt| self.stmt(stmt)).collect()
    }
}

pub fn program(tree: &tree::Tree) -> Program {
    let names = Names(&tree.names);
    Program { lines: tree.lines.iter().map(|line| Line { stmts: names.list(line) }).collect() }
}

// ---- a machine from yogi's

fn ins(i: &Instruction) -> Ins {
    let (op, f) = fields(*i);
    Ins { op: op as u8, fields: f.map(|x| u16::try_from(x).expect("a field of 16 bits")) }
}

fn next(success: SectionOrLine) -> Next {
    let short = |x: usize| u16::try_from(x).expect("a target of 16 bits");
    match success {
        SUCCESS_NEEDS_FIXING => Next::Unfixed,
        SectionOrLine::Section(s) => Next::Section(short(s.0)),
        SectionOrLine::Line(n) => Next::Line(short(n.0)),
    }
}

fn sect(code: &SectionCode) -> Sect {
    Sect { start: code.line_start, next: next(code.success), code: code.instrs.iter().map(ins).collect() }
}

/// Sections and numbers; yogi keeps line i at section i and starts at section 0.
fn common(vm: &IRMachine) -> Machine {
    assert!(vm.lines.iter().enumerate().all(|(i, s)| s.0 == i), "a line start has moved");
    assert_eq!(vm.current_sect, Section(0));
    Machine {
        lines: vm.lines.len(),
        sections: vm.sections.iter().map(sect).collect(),
        numbers: vm.numbers.iter().map(|n| n.0 .0).collect(),
        strings: vec![],
        pool: vec![],
        values: vm.values.len(),
        names: vec![],
    }
}

/// String texts stand end to end in the pool, in register order.
fn lay_texts(machine: &mut Machine, strings: &Strings) {
    for s in strings {
        let bytes = s.0.as_slice();
        machine.strings.push(Span { start: machine.pool.len() as u16, length: bytes.len() as u8 });
        machine.pool.extend_from_slice(bytes);
    }
}

fn name_word(vm: &IRMachine, name: &tree::Name) -> u16 {
    match vm.idents.get(&ident(name)) {
        Some(AnyReg::Val(v)) => u16::try_from(v.0).expect("a register of 16 bits"),
        Some(_) => panic!("a name with a number or string register"),
        None => crate::limits::MARK,
    }
}

fn of_tree(vm: &IRMachine, tree: &tree::Tree) -> Machine {
    let mut machine = common(vm);
    lay_texts(&mut machine, &vm.strings);
    machine.names = tree.names.iter().map(|name| name_word(vm, name)).collect();
    machine
}

// ---- a machine as yogi's

fn success(next: Next) -> SectionOrLine {
    match next {
        Next::Section(s) => Section(s.into()).into(),
        Next::Line(n) => NumReg(n.into()).into(),
        Next::Unfixed => SUCCESS_NEEDS_FIXING,
    }
}

fn section_code(section: &Sect) -> SectionCode {
    let code = |i: &Ins| instruction(i.op.into(), i.fields.map(usize::from));
    SectionCode {
        instrs: section.code.iter().map(code).collect(),
        line_start: section.start,
        success: success(section.next),
    }
}

fn string(machine: &Machine, span: &Span) -> DebugCell<YString> {
    YString::from(text(&machine.pool[usize::from(span.start)..span.end()])).into()
}

fn vm_of(machine: &Machine) -> IRMachine {
    IRMachine {
        sections: machine.sections.iter().map(section_code).collect(),
        lines: (0..machine.lines).map(Section).collect(),
        current_sect: Section(0),
        runtime_err: false.into(),
        numbers: machine.numbers.iter().map(|&n| Number(n).into()).collect(),
        strings: machine.strings.iter().map(|span| string(machine, span)).collect(),
        values: vec![Value.into(); machine.values],
        idents: Idents::new(),
    }
}

/// What yogi made of a given machine: pool and names stay, an added string is empty at the pool's end.
fn changed(vm: &IRMachine, before: &Machine) -> Machine {
    let same = vm.strings.iter().zip(&before.strings).all(|(s, span)| s.0 == string(before, span).0);
    assert!(same, "a string was changed");
    let mut machine = common(vm);
    machine.pool = before.pool.clone();
    machine.names = before.names.clone();
    machine.strings = before.strings.clone();
    for added in &vm.strings[before.strings.len()..] {
        assert!(added.0.as_slice().is_empty(), "an added string is not empty");
        machine.strings.push(Span { start: before.pool.len() as u16, length: 0 });
    }
    machine
}

// ---- the calls

fn clean_vm(vm: &mut IRMachine) {
    remove_unfixed_sections(&mut vm.lines, &mut vm.sections);
}

fn combine_vm(vm: &mut IRMachine) {
    while CombineSections.optimize(vm).progress {}
}

pub fn lower(tree: &tree::Tree, locals: bool, globals: bool) -> Machine {
    of_tree(&from_tree(tree, locals, globals), tree)
}

/// Lowered, cleaned, combined until nothing is left to join; never reordered.
pub fn finish(tree: &tree::Tree, locals: bool, globals: bool) -> Machine {
    of_tree(&finish_program(program(tree), locals, globals), tree)
}

fn from_tree(tree: &tree::Tree, locals: bool, globals: bool) -> IRMachine {
    lower_program(program(tree), locals, globals)
}

// ---- yogi's own part alone, for whoever measures it or has a program of yogi's

pub fn lower_program(program: Program, locals: bool, globals: bool) -> IRMachine {
    IRMachine::from_ast(CodegenOptions { protect_locals: locals, protect_globals: globals }, program)
}

pub fn finish_program(program: Program, locals: bool, globals: bool) -> IRMachine {
    let mut vm = lower_program(program, locals, globals);
    clean_vm(&mut vm);
    combine_vm(&mut vm);
    vm
}

// ---- the passes

pub fn replace(machine: &Machine) -> Machine {
    change(machine, IRMachine::replace_duplicates)
}

pub fn clean(machine: &Machine) -> Machine {
    change(machine, clean_vm)
}

pub fn combine(machine: &Machine) -> Machine {
    change(machine, combine_vm)
}

fn change(machine: &Machine, pass: impl Fn(&mut IRMachine)) -> Machine {
    let mut vm = vm_of(machine);
    pass(&mut vm);
    changed(&vm, machine)
}
