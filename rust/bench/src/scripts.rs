//! The scripts that are measured: shapes, lines, nodes.

use sezkibalo::*;

#[derive(Debug, Clone, Copy, PartialEq, Eq)]
pub enum Shape {
    Assignments,
    Ites,
    Both,
    Gotos,
    Strings,
}

/// Nodes of a list from which on statements stand in lists inside, and how many stand in one.
const MOST: usize = 240;
const EACH: usize = 40;

impl Shape {
    pub const ALL: [Shape; 5] = [Shape::Assignments, Shape::Ites, Shape::Both, Shape::Gotos, Shape::Strings];

    pub fn name(self) -> &'static str {
        match self {
            Shape::Assignments => "assignments",
            Shape::Ites => "Ites",
            Shape::Both => "Ites and assignments",
            Shape::Gotos => "gotos",
            Shape::Strings => "strings",
        }
    }

    /// A statement of four nodes: `a=b*2`, `if a then b=c end`, one of the two, `if a then goto 2 end`, `a="abc"+b`.
    fn four(self, i: usize) -> Statement {
        let binop = |l, op, r| Expr::Binop(Box::new(l), op, Box::new(r));
        match self {
            Shape::Assignments => assign("a", binop(local("b"), Binop::Mul, two())),
            Shape::Ites => Statement::Ite(local("a"), vec![assign("b", local("c"))], vec![]),
            Shape::Both if i.is_multiple_of(2) => Shape::Ites.four(i),
            Shape::Both => Shape::Assignments.four(i),
            Shape::Gotos => Statement::Ite(local("a"), vec![Statement::Goto(two())], vec![]),
            Shape::Strings => assign("a", binop(Expr::String("abc".into()), Binop::Add, local("b"))),
        }
    }

    /// Statements of together just so many nodes. Those that a list cannot hold stand in lists of their own, each in an Ite.
    fn list(self, nodes: usize) -> Vec<Statement> {
        let mut list = vec![];
        let mut left = nodes;
        while left > MOST {
            list.push(Statement::Ite(local("a"), (0..EACH).map(|i| self.four(i)).collect(), vec![]));
            left -= 4 * EACH + 2;
        }
        list.extend((0..left / 4).map(|i| self.four(i)));
        if left % 4 >= 2 {
            list.push(assign("a", local("b")));
        }
        if left % 2 == 1 {
            list.push(Statement::Incdec(Incdec { inc: true, ident: Ident::local("a") }));
        }
        list
    }

    /// Where there are more lines than statements of four nodes, the last lines are empty.
    pub fn script(self, lines: usize, nodes: usize) -> Script {
        let full = lines.min(nodes.div_ceil(4));
        let line = |i: usize| if i < full { self.list(nodes * (i + 1) / full - nodes * i / full) } else { vec![] };
        Script { lines: (0..lines).map(|i| Line { stmts: line(i) }).collect() }
    }
}

fn local(name: &str) -> Expr {
    Expr::Ident(Ident::local(name))
}

fn two() -> Expr {
    Expr::Number(Number(2000))
}

fn assign(name: &str, e: Expr) -> Statement {
    Statement::Assign(Ident::local(name), None, e)
}

/// `x=1`
pub fn smallest() -> Script {
    Script { lines: vec![Line { stmts: vec![assign("x", Expr::Number(Number::ONE))] }] }
}
