//! Scripts that several tests use.
#![allow(dead_code)]

use sezkibalo::*;

pub fn local(name: &str) -> Expr {
    Expr::Ident(Ident::local(name))
}

pub fn number(n: i64) -> Expr {
    Expr::Number(Number(1000 * n))
}

pub fn assign(name: &str, e: Expr) -> Statement {
    Statement::Assign(Ident::local(name), None, e)
}

pub fn binop(l: Expr, op: Binop, r: Expr) -> Expr {
    Expr::Binop(l.into(), op, r.into())
}

pub fn one_line(stmts: Vec<Statement>) -> Script {
    Script { lines: vec![Line { stmts }] }
}

pub fn bytes(script: &Script) -> Vec<u8> {
    script.pack().unwrap().bytes
}

/// `x` assigned an expression whose innermost node has this depth.
pub fn deep(depth: usize) -> Script {
    let nested = (3..=depth).fold(local("x"), |e, _| Expr::Unop(Unop::Neg, e.into()));
    one_line(vec![assign("x", nested)])
}

fn inc() -> Statement {
    Statement::Incdec(Incdec { inc: true, ident: Ident::local("x") })
}

/// Lists in each other, each the else-list of the last of `each` statements: all nodes of a tree on one way down.
pub fn nested(levels: usize, each: usize) -> Script {
    let around = |inner, _| {
        let mut list = vec![inc(); each - 1];
        list.push(Statement::Ite(local("x"), vec![], inner));
        list
    };
    one_line((0..levels).fold(vec![], around))
}

/// So many `x++`, 63 a line.
pub fn many(nodes: usize) -> Script {
    let inc = inc();
    let line = |n| Line { stmts: vec![inc.clone(); n] };
    let mut lines: Vec<Line> = (0..nodes / 63).map(|_| line(63)).collect();
    lines.push(line(nodes % 63));
    Script { lines }
}

/// So many times the statement, on all of 255 lines.
pub fn spread(count: usize, stmt: &Statement) -> Script {
    let line = |i: usize| Line { stmts: vec![stmt.clone(); count * (i + 1) / 255 - count * i / 255] };
    Script { lines: (0..255).map(line).collect() }
}

/// So many quotients, each with an increment at its ends: what takes most instructions a node.
fn quotients(count: usize) -> Expr {
    match count {
        0 => Expr::Incdec(Incdec { inc: true, ident: Ident::local("x") }),
        _ => binop(quotients((count - 1) / 2), Binop::Div, quotients(count / 2)),
    }
}

/// Trees of 2,048 nodes with the most of something: the longest estimate (increments), the most sections (empty Ites), the most instructions in few sections
/// (one statement of quotients), many of both (Ites by a quotient).
pub fn largest() -> [Script; 4] {
    let ite = |condition| Statement::Ite(condition, vec![], vec![]);
    let divided = Statement::Assign(Ident::local("x"), Some(AssignOp::Div), quotients(1_023));
    [spread(2_048, &inc()), spread(1_024, &ite(local("x"))), one_line(vec![divided]), spread(512, &ite(quotients(1)))]
}

/// A section word that goes on to a section.
pub fn section(start: u64, target: u64, first: u64, count: u64) -> u64 {
    start << 63 | target << 46 | first << 30 | count << 14
}

/// Ites in each other and beside each other, gotos and strings: at most so many nodes, in the first lines.
pub fn mixed(lines: usize, nodes: usize) -> Script {
    let text = || Expr::String("abc".into());
    let twenty = |i: usize| {
        let goto = Statement::Goto(number(i as i64));
        let inner = Statement::Ite(local("b"), vec![assign("c", text())], vec![goto]);
        let sum = binop(binop(local("a"), Binop::Div, number(2)), Binop::Ge, text());
        vec![assign("a", sum.clone()), Statement::Ite(sum, vec![inner], vec![]), assign("d", local("a"))]
    };
    let all = nodes / 20;
    // a line holds at most 63 statements
    let each = all.div_ceil(lines).min(21);
    let stmts = |i: usize| (i * each..all.min((i + 1) * each)).flat_map(twenty).collect();
    Script { lines: (0..lines).map(|i| Line { stmts: stmts(i) }).collect() }
}
