//! A tree as a script: each statement's own instructions, after replacement. Written from the written rules of
//! lowering, and from codegen.rs where that leaves something open. There are no sections: a jump's
//! target stands at 0, and nothing comes out of a built machine.

use crate::machine::{op, Ins};
use crate::tree::{Expr, Stmt, Tree};

/// What stands behind a statement's own instructions.
#[derive(Debug, Clone, PartialEq, Eq)]
pub enum What {
    Plain,
    /// asks by this number register
    Goto(u16),
    /// a condition's number register, the then-list, the else-list
    Ite(u16, Vec<Node>, Vec<Node>),
}

/// A statement, numbered in lowering order.
#[derive(Debug, Clone, PartialEq, Eq)]
pub struct Node {
    pub id: usize,
    pub what: What,
}

#[derive(Debug, Clone, PartialEq, Eq)]
pub struct Script {
    pub lines: Vec<Vec<Node>>,
    /// each statement's own instructions, by its number; an Ite's jump is not among them
    pub codes: Vec<Vec<Ins>>,
    pub numbers: u16,
    pub strings: u16,
    pub values: u16,
}

pub fn jump_if(register: u16) -> Ins {
    Ins {
        op: op::JumpSectionIf,
        fields: [0, register, 0],
    }
}

pub fn script(tree: &Tree) -> Script {
    let mut lowering = Lowering {
        names: vec![None; tree.names.len()],
        ..Default::default()
    };
    let mut script = Script {
        lines: tree.lines.iter().map(|line| lowering.list(line)).collect(),
        codes: lowering.codes,
        numbers: lowering.numbers,
        strings: lowering.strings,
        values: lowering.values,
    };
    script.replace();
    script
}

// ---- registers and instructions in lowering order

#[derive(Default)]
struct Lowering {
    codes: Vec<Vec<Ins>>,
    numbers: u16,
    strings: u16,
    values: u16,
    names: Vec<Option<u16>>,
}

fn next(count: &mut u16) -> u16 {
    *count += 1;
    *count - 1
}

impl Lowering {
    /// Into the newest statement: an Ite's own instructions are complete before its lists begin.
    fn put(&mut self, op: u8, fields: [u16; 3]) {
        self.codes.last_mut().expect("a statement").push(Ins { op, fields });
    }

    fn error_jump(&mut self) {
        self.put(op::JumpIfError, [0, 0, 0]);
    }

    fn truthy(&mut self, v: u16) -> u16 {
        let n = next(&mut self.numbers);
        self.put(op::IsTruthyVal, [v, n, 0]);
        n
    }

    fn numberify(&mut self, v: u16) -> u16 {
        let n = next(&mut self.numbers);
        self.put(op::NumberifyVal, [v, n, 0]);
        self.error_jump();
        n
    }

    fn valueify(&mut self, n: u16) -> u16 {
        let v = next(&mut self.values);
        self.put(op::ValueifyNum, [n, v, 0]);
        v
    }

    fn copy(&mut self, v: u16) -> u16 {
        let to = next(&mut self.values);
        self.put(op::CopyVal, [v, to, 0]);
        to
    }

    fn name(&mut self, name: u8) -> u16 {
        let values = &mut self.values;
        *self.names[usize::from(name)].get_or_insert_with(|| next(values))
    }

    fn incdec(&mut self, inc: bool, name: u8) -> u16 {
        let v = self.name(name);
        self.put(if inc { op::IncVal } else { op::DecVal }, [v, 0, 0]);
        self.error_jump();
        v
    }

    // ---- expressions: the value register of the result

    fn expr(&mut self, expr: &Expr) -> u16 {
        match expr {
            Expr::Binop(op, l, r) => self.binop(*op, l, r),
            Expr::Unop(op, e) => self.unop(*op, e),
            Expr::Incdec(inc, name) => self.incdec(*inc, *name),
            Expr::Ident(name) => self.name(*name),
            Expr::Number(_) => {
                let n = next(&mut self.numbers);
                self.valueify(n)
            }
            Expr::String(_) => {
                let s = next(&mut self.strings);
                let v = next(&mut self.values);
                self.put(op::ValueifyStr, [s, v, 0]);
                v
            }
        }
    }

    fn copied(&mut self, expr: &Expr) -> u16 {
        let v = self.expr(expr);
        self.copy(v)
    }

    /// Operators: And Or Add Sub Mul Div Mod Pow Eq Ne Le Lt Ge Gt.
    fn binop(&mut self, binop: u8, left: &Expr, right: &Expr) -> u16 {
        let r = self.copied(right);
        let l = self.copied(left);
        match binop {
            0 => self.logic(op::And, l, r),
            1 => self.logic(op::Or, l, r),
            2 => self.in_place(op::AddVal, l, r),
            3 => self.in_place(op::SubVal, l, r),
            4 => self.arith(op::Mul, l, r),
            5 => self.arith(op::Div, l, r),
            6 => self.arith(op::Rem, l, r),
            7 => self.arith(op::Pow, l, r),
            8 => self.compare(op::Eq, l, r, false),
            9 => self.compare(op::Eq, l, r, true),
            10 => self.compare(op::Le, l, r, false),
            11 => self.compare(op::Lt, l, r, false),
            12 => self.compare(op::Le, r, l, false),
            13 => self.compare(op::Lt, r, l, false),
            _ => unreachable!("no such operator"),
        }
    }

    fn in_place(&mut self, op: u8, l: u16, r: u16) -> u16 {
        self.put(op, [l, r, 0]);
        l
    }

    fn logic(&mut self, op: u8, l: u16, r: u16) -> u16 {
        let r = self.truthy(r);
        let l = self.truthy(l);
        self.put(op, [l, r, 0]);
        self.valueify(l)
    }

    fn arith(&mut self, op: u8, l: u16, r: u16) -> u16 {
        let r = self.numberify(r);
        let l = self.numberify(l);
        self.put(op, [l, r, 0]);
        if op == op::Div || op == op::Rem {
            self.error_jump();
        }
        self.valueify(l)
    }

    fn compare(&mut self, op: u8, l: u16, r: u16, not: bool) -> u16 {
        let n = next(&mut self.numbers);
        self.put(op, [l, r, n]);
        if not {
            self.put(op::NotNum, [n, 0, 0]);
        }
        self.valueify(n)
    }

    /// Operators: Neg Not Abs Sqrt Fact Sin Cos Tan Asin Acos Atan.
    fn unop(&mut self, unop: u8, operand: &Expr) -> u16 {
        let v = self.copied(operand);
        let op = match unop {
            0 => op::Neg,
            1 => return self.not(v),
            2 => op::Abs,
            3 => op::Sqrt,
            4 => op::Fact,
            5 => op::Sin,
            6 => op::Cos,
            7 => op::Tan,
            8 => op::Asin,
            9 => op::Acos,
            10 => op::Atan,
            _ => unreachable!("no such operator"),
        };
        let n = self.numberify(v);
        self.put(op, [n, 0, 0]);
        self.valueify(n)
    }

    fn not(&mut self, v: u16) -> u16 {
        let n = next(&mut self.numbers);
        self.put(op::NotVal, [v, n, 0]);
        self.valueify(n)
    }

    // ---- statements

    /// Operators: plain Add Sub Mul Div Mod Pow. The expression comes before the name.
    fn assign(&mut self, name: u8, assign: u8, expr: &Expr) {
        let e = self.expr(expr);
        let x = self.name(name);
        let arith = match assign {
            0 => return self.put(op::CopyVal, [e, x, 0]),
            1 => return self.put(op::AddVal, [x, e, 0]),
            2 => return self.put(op::SubVal, [x, e, 0]),
            3 => op::Mul,
            4 => op::Div,
            5 => op::Rem,
            6 => op::Pow,
            _ => unreachable!("no such operator"),
        };
        let out = self.arith(arith, x, e);
        self.put(op::CopyVal, [out, x, 0]);
    }

    fn what(&mut self, stmt: &Stmt) -> What {
        match stmt {
            Stmt::Goto(e) => {
                let v = self.expr(e);
                What::Goto(self.numberify(v))
            }
            Stmt::Ite(c, t, e) => {
                let v = self.expr(c);
                let n = self.truthy(v);
                let then = self.list(t);
                What::Ite(n, then, self.list(e))
            }
            Stmt::Incdec(inc, name) => {
                self.incdec(*inc, *name);
                What::Plain
            }
            Stmt::Assign(name, op, e) => {
                self.assign(*name, *op, e);
                What::Plain
            }
        }
    }

    fn stmt(&mut self, stmt: &Stmt) -> Node {
        let id = self.codes.len();
        self.codes.push(vec![]);
        Node {
            id,
            what: self.what(stmt),
        }
    }

    fn list(&mut self, list: &[Stmt]) -> Vec<Node> {
        list.iter().map(|stmt| self.stmt(stmt)).collect()
    }
}

// ---- replacement

impl Script {
    /// Statements in the order of the lowered sections: each line's first, then the others as lowered.
    fn in_section_order(&self) -> Vec<usize> {
        let firsts: Vec<usize> = self.lines.iter().filter_map(|line| Some(line.first()?.id)).collect();
        let others = (0..self.codes.len()).filter(|id| !firsts.contains(id));
        firsts.iter().copied().chain(others).collect()
    }

    fn replace(&mut self) {
        for id in self.in_section_order() {
            let code = std::mem::take(&mut self.codes[id]);
            self.codes[id] = code.into_iter().filter_map(|ins| self.replaced(ins)).collect();
        }
    }

    /// What becomes of one instruction, if anything: `dup_replace_with`.
    fn replaced(&mut self, ins: Ins) -> Option<Ins> {
        let [a, b, c] = ins.fields;
        if a != b {
            return Some(ins);
        }
        let (op, fields) = match ins.op {
            op::CopyNum | op::CopyStr | op::CopyVal => return None,
            op::AddNum => (op::AddSelfNum, [a, 0, 0]),
            op::AddStr => (op::AddSelfStr, [a, 0, 0]),
            op::AddVal => (op::AddSelfVal, [a, 0, 0]),
            op::SubNum => (op::CopyNum, [next(&mut self.numbers), a, 0]),
            op::SubStr => (op::CopyStr, [next(&mut self.strings), a, 0]),
            op::SubVal => (op::SubSelfVal, [a, 0, 0]),
            op::Mul => (op::MulSelf, [a, 0, 0]),
            op::Div => (op::DivSelf, [a, 0, 0]),
            op::Rem => (op::RemSelf, [a, 0, 0]),
            op::Pow => (op::PowSelf, [a, 0, 0]),
            op::Eq | op::Le | op::Lt => (op::CopyNum, [next(&mut self.numbers), c, 0]),
            op::And | op::Or => (op::IsTruthyNum, [a, 0, 0]),
            _ => return Some(ins),
        };
        Some(Ins { op, fields })
    }
}
