//! Scripts as trees, with yogi's names. A number is in thousandths.

/// A script: what yogi calls a program.
#[derive(Debug, Clone, PartialEq, Eq, Default)]
pub struct Script {
    pub lines: Vec<Line>,
}

#[derive(Debug, Clone, PartialEq, Eq, Default)]
pub struct Line {
    pub stmts: Vec<Statement>,
}

/// A name; a global one is written with a colon. It is kept as it is spelled, and `==` compares how it is spelled; but `Ward` and `ward` are
/// the same name ([`Ident::is_same`]): one variable, as with yogi, whose constructors fold case.
#[derive(Debug, Clone, PartialEq, Eq, Hash)]
pub struct Ident {
    pub name: String,
    pub global: bool,
}

impl Ident {
    pub fn local(name: &str) -> Self {
        Ident { name: name.into(), global: false }
    }

    pub fn global(name: &str) -> Self {
        Ident { name: name.into(), global: true }
    }

    /// Are both local or both global, and the same characters with A to Z read as a to z?
    pub fn is_same(&self, other: &Ident) -> bool {
        self.global == other.global && self.name.eq_ignore_ascii_case(&other.name)
    }
}

#[derive(Debug, Clone, PartialEq, Eq)]
pub struct Incdec {
    pub inc: bool,
    pub ident: Ident,
}

/// Thousandths.
#[derive(Debug, Clone, Copy, PartialEq, Eq, PartialOrd, Ord, Hash, Default)]
pub struct Number(pub i64);

impl Number {
    pub const ZERO: Number = Number(0);
    pub const ONE: Number = Number(1000);
}

#[derive(Debug, Clone, Copy, PartialEq, Eq)]
pub enum Binop {
    And,
    Or,
    Add,
    Sub,
    Mul,
    Div,
    Mod,
    Pow,
    Eq,
    Ne,
    Le,
    Lt,
    Ge,
    Gt,
}

#[derive(Debug, Clone, Copy, PartialEq, Eq)]
pub enum Unop {
    Neg,
    Not,
    Abs,
    Sqrt,
    Fact,
    Sin,
    Cos,
    Tan,
    Asin,
    Acos,
    Atan,
}

/// The operator of an assignment such as `x+=1`.
#[derive(Debug, Clone, Copy, PartialEq, Eq)]
pub enum AssignOp {
    Add,
    Sub,
    Mul,
    Div,
    Mod,
    Pow,
}

#[derive(Debug, Clone, PartialEq, Eq)]
pub enum Expr {
    Binop(Box<Expr>, Binop, Box<Expr>),
    Unop(Unop, Box<Expr>),
    Incdec(Incdec),
    Ident(Ident),
    Number(Number),
    String(String),
}

#[derive(Debug, Clone, PartialEq, Eq)]
pub enum Statement {
    Goto(Expr),
    Ite(Expr, Vec<Statement>, Vec<Statement>),
    Incdec(Incdec),
    Assign(Ident, Option<AssignOp>, Expr),
}
