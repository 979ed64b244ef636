//! Between yogi's types and this crate's: a `Program` as a `Script` and back, and a `Machine` as the judge's, which the judge turns into yogi's
//! `IRMachine` and back.

use oracle::machine::{self, unpack};
use oracle::yogi::arith;
use oracle::yogi::ir::glue;
use oracle::yogi::parser;
use sezkibalo::*;

macro_rules! operators {
    ($to:ident, $from:ident, $name:ident, $($case:ident)*) => {
        fn $to(op: $name) -> parser::$name {
            match op {
                $($name::$case => parser::$name::$case,)*
            }
        }

        fn $from(op: parser::$name) -> $name {
            match op {
                $(parser::$name::$case => $name::$case,)*
            }
        }
    };
}

operators!(to_binop, from_binop, Binop, And Or Add Sub Mul Div Mod Pow Eq Ne Le Lt Ge Gt);
operators!(to_unop, from_unop, Unop, Neg Not Abs Sqrt Fact Sin Cos Tan Asin Acos Atan);
operators!(to_assign, from_assign, AssignOp, Add Sub Mul Div Mod Pow);

// ---- to yogi

fn to_ident(ident: &Ident) -> parser::Ident {
    glue::construct(&ident.name, ident.global)
}

fn to_incdec(incdec: &Incdec) -> parser::Incdec {
    parser::Incdec { inc: incdec.inc, ident: to_ident(&incdec.ident) }
}

fn to_expr(expr: &Expr) -> parser::Expr {
    match expr {
        Expr::Binop(l, op, r) => parser::Expr::Binop(to_expr(l).into(), to_binop(*op), to_expr(r).into()),
        Expr::Unop(op, e) => parser::Expr::Unop(to_unop(*op), to_expr(e).into()),
        Expr::Incdec(incdec) => parser::Expr::Incdec(to_incdec(incdec)),
        Expr::Ident(ident) => parser::Expr::Ident(to_ident(ident)),
        Expr::Number(n) => parser::Expr::Number(arith::Number(n.0)),
        Expr::String(text) => parser::Expr::String(text.clone().into()),
    }
}

fn to_list(list: &[Statement]) -> Vec<parser::Statement> {
    list.iter().map(to_stmt).collect()
}

fn to_stmt(stmt: &Statement) -> parser::Statement {
    match stmt {
        Statement::Goto(e) => parser::Statement::Goto(to_expr(e)),
        Statement::Ite(c, t, e) => parser::Statement::Ite(to_expr(c), to_list(t), to_list(e)),
        Statement::Incdec(incdec) => parser::Statement::Incdec(to_incdec(incdec)),
        Statement::Assign(x, op, e) => parser::Statement::Assign(to_ident(x), op.map(to_assign), to_expr(e)),
    }
}

pub fn to_program(script: &Script) -> parser::Program {
    parser::Program { lines: script.lines.iter().map(|line| parser::Line { stmts: to_list(&line.stmts) }).collect() }
}

// ---- from yogi

fn from_ident(ident: &parser::Ident) -> Ident {
    Ident { name: ident.name.clone(), global: ident.global }
}

fn from_incdec(incdec: &parser::Incdec) -> Incdec {
    Incdec { inc: incdec.inc, ident: from_ident(&incdec.ident) }
}

fn from_expr(expr: &parser::Expr) -> Expr {
    match expr {
        parser::Expr::Binop(l, op, r) => Expr::Binop(from_expr(l).into(), from_binop(*op), from_expr(r).into()),
        parser::Expr::Unop(op, e) => Expr::Unop(from_unop(*op), from_expr(e).into()),
        parser::Expr::Incdec(incdec) => Expr::Incdec(from_incdec(incdec)),
        parser::Expr::Ident(ident) => Expr::Ident(from_ident(ident)),
        parser::Expr::Number(n) => Expr::Number(Number(n.0)),
        parser::Expr::String(text) => Expr::String(String::from_utf8_lossy(text.as_slice()).into_owned()),
    }
}

fn from_list(list: &[parser::Statement]) -> Vec<Statement> {
    list.iter().map(from_stmt).collect()
}

fn from_stmt(stmt: &parser::Statement) -> Statement {
    match stmt {
        parser::Statement::Goto(e) => Statement::Goto(from_expr(e)),
        parser::Statement::Ite(c, t, e) => Statement::Ite(from_expr(c), from_list(t), from_list(e)),
        parser::Statement::Incdec(incdec) => Statement::Incdec(from_incdec(incdec)),
        parser::Statement::Assign(x, op, e) => Statement::Assign(from_ident(x), op.map(from_assign), from_expr(e)),
    }
}

pub fn from_program(program: &parser::Program) -> Script {
    Script { lines: program.lines.iter().map(|line| Line { stmts: from_list(&line.stmts) }).collect() }
}

// ---- machines

/// The machine of the judge, with sections that own their instructions as yogi's do.
pub fn to_machine(machine: &Machine) -> machine::Machine {
    let t = machine.tables().clone();
    let tables = machine::Tables {
        sections: t.sections,
        instrs: t.instructions,
        numbers: t.numbers,
        strings: t.strings,
        pool: t.pool,
        names: t.names,
    };
    let row = machine.counts().row().map(|n| n as usize);
    unpack(&machine::Counts::of_row(row), &tables)
}

/// And back.
pub fn from_machine(machine: &machine::Machine) -> Machine {
    let (counts, t) = machine::pack(machine);
    let tables = Tables {
        sections: t.sections,
        instructions: t.instrs,
        numbers: t.numbers,
        strings: t.strings,
        pool: t.pool,
        names: t.names,
    };
    Machine::of_words(Counts::of_row(counts.row().map(|n| n as u64)), tables)
}
