//! How much each node of a tree is lowered to. Found by running yogi; the self-test holds it to every tree.

use crate::tree::{Expr, Stmt, Tree};
use std::collections::BTreeSet;

/// Instructions, number registers and value registers.
pub type Figures = [usize; 3];

#[derive(Default)]
struct Sum {
    figures: Figures,
    names: BTreeSet<u8>,
}

pub fn lowered(tree: &Tree) -> Figures {
    let mut sum = Sum::default();
    tree.lines.iter().for_each(|line| sum.list(line));
    let [instrs, numbers, values] = sum.figures;
    [instrs, numbers, values + sum.names.len()]
}

fn binop(op: u8) -> Figures {
    match op {
        0 | 1 => [6, 2, 3],
        2 | 3 => [3, 0, 2],
        4 | 7 => [8, 2, 3],
        5 | 6 => [9, 2, 3],
        9 => [5, 1, 3],
        _ => [4, 1, 3],
    }
}

fn assign(op: u8) -> Figures {
    match op {
        0..=2 => [1, 0, 0],
        3 | 6 => [7, 2, 1],
        _ => [8, 2, 1],
    }
}

/// `x=x` and `x=++x`: the copy is dropped.
fn copies_itself(name: u8, op: u8, expr: &Expr) -> bool {
    op == 0 && matches!(expr, Expr::Ident(n) | Expr::Incdec(_, n) if *n == name)
}

impl Sum {
    fn add(&mut self, figures: Figures) {
        for (sum, more) in self.figures.iter_mut().zip(figures) {
            *sum += more;
        }
    }

    fn list(&mut self, list: &[Stmt]) {
        list.iter().for_each(|stmt| self.stmt(stmt));
    }

    fn stmt(&mut self, stmt: &Stmt) {
        match stmt {
            Stmt::Goto(e) => {
                self.add([2, 1, 0]);
                self.expr(e);
            }
            Stmt::Ite(c, t, e) => {
                self.add([1 + usize::from(!t.is_empty()), 1, 0]);
                self.expr(c);
                self.list(t);
                self.list(e);
            }
            Stmt::Incdec(_, name) => self.incdec(*name),
            Stmt::Assign(name, op, e) => {
                self.names.insert(*name);
                self.add(if copies_itself(*name, *op, e) {
                    [0, 0, 0]
                } else {
                    assign(*op)
                });
                self.expr(e);
            }
        }
    }

    fn incdec(&mut self, name: u8) {
        self.names.insert(name);
        self.add([2, 0, 0]);
    }

    fn expr(&mut self, expr: &Expr) {
        match expr {
            Expr::Binop(op, l, r) => {
                self.add(binop(*op));
                self.expr(l);
                self.expr(r);
            }
            Expr::Unop(op, e) => {
                self.add(if *op == 1 { [3, 1, 2] } else { [5, 1, 2] });
                self.expr(e);
            }
            Expr::Incdec(_, name) => self.incdec(*name),
            Expr::Ident(name) => {
                self.names.insert(*name);
            }
            Expr::Number(_) => self.add([1, 1, 1]),
            Expr::String(_) => self.add([1, 0, 1]),
        }
    }
}
