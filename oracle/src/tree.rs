//! The tree form of docs/FORMAT.md: read (with its refusals), written, counted.

use crate::bits::{Reader, Writer};
use crate::limits::*;

#[derive(Debug, Clone, PartialEq, Eq)]
pub struct Name {
    pub global: bool,
    pub text: Vec<u8>,
}

impl Name {
    /// With A to Z read as a to z.
    pub fn folded(&self) -> Name {
        Name {
            text: self.text.to_ascii_lowercase(),
            ..*self
        }
    }

    pub fn same(&self, other: &Name) -> bool {
        self.folded() == other.folded()
    }

    /// Is it among these, spelled in whatever case?
    pub fn among(&self, names: &[Name]) -> bool {
        names.iter().any(|name| name.same(self))
    }
}

#[derive(Debug, Clone, PartialEq, Eq)]
pub enum Expr {
    Binop(u8, Box<Expr>, Box<Expr>),
    Unop(u8, Box<Expr>),
    Incdec(bool, u8),
    Ident(u8),
    Number(i64),
    String(Vec<u8>),
}

#[derive(Debug, Clone, PartialEq, Eq)]
pub enum Stmt {
    Goto(Expr),
    Ite(Expr, Vec<Stmt>, Vec<Stmt>),
    Incdec(bool, u8),
    Assign(u8, u8, Expr),
}

#[derive(Debug, Clone, PartialEq, Eq)]
pub struct Tree {
    pub names: Vec<Name>,
    pub lines: Vec<Vec<Stmt>>,
}

/// What `size` gives, in its order.
#[derive(Debug, Clone, Copy, PartialEq, Eq, Default)]
pub struct Size {
    pub lines: usize,
    pub names: usize,
    pub statements: usize,
    pub nodes: usize,
    pub strings: usize,
    pub characters: usize,
}

impl Size {
    pub fn of(tree: &Tree) -> Self {
        let mut size = Size {
            lines: tree.lines.len(),
            names: tree.names.len(),
            ..Default::default()
        };
        tree.lines.iter().for_each(|line| size.add_list(line));
        size
    }

    fn add_list(&mut self, list: &[Stmt]) {
        for stmt in list {
            self.statements += 1;
            self.nodes += 1;
            match stmt {
                Stmt::Goto(e) | Stmt::Assign(_, _, e) => self.add_expr(e),
                Stmt::Incdec(..) => (),
                Stmt::Ite(c, t, e) => {
                    self.add_expr(c);
                    self.add_list(t);
                    self.add_list(e);
                }
            }
        }
    }

    fn add_expr(&mut self, expr: &Expr) {
        self.nodes += 1;
        match expr {
            Expr::Binop(_, l, r) => {
                self.add_expr(l);
                self.add_expr(r);
            }
            Expr::Unop(_, e) => self.add_expr(e),
            Expr::String(s) => {
                self.strings += 1;
                self.characters += s.len();
            }
            Expr::Incdec(..) | Expr::Ident(_) | Expr::Number(_) => (),
        }
    }

    pub fn row(&self) -> String {
        format!(
            "{} {} {} {} {} {}",
            self.lines, self.names, self.statements, self.nodes, self.strings, self.characters
        )
    }
}

// ---- reading

type Read<T> = Result<T, u8>;

struct Decoder<'a> {
    reader: Reader<'a>,
    names: Vec<Name>,
    nodes: usize,
}

pub fn decode(bytes: &[u8]) -> Read<Tree> {
    if bytes.len() > MOST_BYTES {
        return Err(R_BYTES);
    }
    let mut decoder = Decoder {
        reader: Reader::new(bytes),
        names: vec![],
        nodes: 0,
    };
    let lines = decoder.file()?;
    if !decoder.reader.only_fill_left() {
        return Err(R_FILL);
    }
    Ok(Tree {
        names: decoder.names,
        lines,
    })
}

impl Decoder<'_> {
    fn field(&mut self, width: usize) -> Read<u64> {
        self.reader.field(width).ok_or(R_ENDS)
    }

    fn file(&mut self) -> Read<Vec<Vec<Stmt>>> {
        if self.field(8)? != FORM {
            return Err(R_FORM);
        }
        let lines = self.field(8)?;
        if lines == 0 {
            return Err(R_LINES);
        }
        for _ in 0..self.field(8)? {
            let name = self.new_name()?;
            self.names.push(name);
        }
        (0..lines).map(|_| self.list(1)).collect()
    }

    fn new_name(&mut self) -> Read<Name> {
        let global = self.field(1)? == 1;
        let length = self.field(6)? + 1;
        let name = Name {
            global,
            text: self.characters(length)?,
        };
        if name.among(&self.names) {
            return Err(R_SAME);
        }
        Ok(name)
    }

    fn characters(&mut self, length: u64) -> Read<Vec<u8>> {
        (0..length).map(|_| Ok(self.field(7)? as u8)).collect()
    }

    /// Before a node's bits: its depth, then its number.
    fn begin(&mut self, depth: usize) -> Read<()> {
        if depth > MOST_DEPTH {
            return Err(R_DEPTH);
        }
        self.nodes += 1;
        if self.nodes > MOST_NODES {
            return Err(R_NODES);
        }
        Ok(())
    }

    fn name(&mut self) -> Read<u8> {
        let name = self.field(8)? as u8;
        if usize::from(name) >= self.names.len() {
            return Err(R_NAME);
        }
        Ok(name)
    }

    fn operator(&mut self, width: usize, assigned: u8) -> Read<u8> {
        let operator = self.field(width)? as u8;
        if operator >= assigned {
            return Err(R_UNASSIGNED);
        }
        Ok(operator)
    }

    fn incdec(&mut self) -> Read<(bool, u8)> {
        Ok((self.field(1)? == 1, self.name()?))
    }

    fn list(&mut self, depth: usize) -> Read<Vec<Stmt>> {
        let count = self.field(6)?;
        (0..count).map(|_| self.stmt(depth)).collect()
    }

    fn stmt(&mut self, depth: usize) -> Read<Stmt> {
        self.begin(depth)?;
        Ok(match self.field(2)? {
            0 => Stmt::Goto(self.expr(depth + 1)?),
            1 => Stmt::Ite(self.expr(depth + 1)?, self.list(depth + 1)?, self.list(depth + 1)?),
            2 => {
                let (inc, name) = self.incdec()?;
                Stmt::Incdec(inc, name)
            }
            _ => Stmt::Assign(self.name()?, self.operator(3, ASSIGNS)?, self.expr(depth + 1)?),
        })
    }

    fn boxed(&mut self, depth: usize) -> Read<Box<Expr>> {
        self.expr(depth).map(Box::new)
    }

    fn expr(&mut self, depth: usize) -> Read<Expr> {
        self.begin(depth)?;
        Ok(match self.field(3)? {
            0 => Expr::Binop(
                self.operator(4, BINOPS)?,
                self.boxed(depth + 1)?,
                self.boxed(depth + 1)?,
            ),
            1 => Expr::Unop(self.operator(4, UNOPS)?, self.boxed(depth + 1)?),
            2 => {
                let (inc, name) = self.incdec()?;
                Expr::Incdec(inc, name)
            }
            3 => Expr::Ident(self.name()?),
            4 => Expr::Number(self.field(64)? as i64),
            5 => {
                let length = self.field(7)?;
                Expr::String(self.characters(length)?)
            }
            _ => return Err(R_UNASSIGNED),
        })
    }
}

// ---- writing

/// What a field of a written tree is, for those who damage it.
#[derive(Debug, Clone, Copy, PartialEq, Eq)]
pub enum What {
    Form,
    Lines,
    Names,
    Global,
    Length,
    Character,
    Count,
    StmtKind,
    ExprKind,
    Binop,
    Unop,
    Assignop,
    Inc,
    Name,
    Number,
}

#[derive(Debug, Clone, Copy)]
pub struct Field {
    pub what: What,
    pub place: usize,
    pub width: usize,
}

#[derive(Default)]
struct Encoder {
    writer: Writer,
    fields: Vec<Field>,
}

pub fn encode(tree: &Tree) -> Vec<u8> {
    encode_with_fields(tree).0
}

/// The bytes, and where each field stands in them.
pub fn encode_with_fields(tree: &Tree) -> (Vec<u8>, Vec<Field>) {
    let mut encoder = Encoder::default();
    encoder.file(tree);
    (encoder.writer.bytes(), encoder.fields)
}

impl Encoder {
    fn put(&mut self, what: What, width: usize, value: u64) {
        assert!(
            width == 64 || value >> width == 0,
            "{what:?} {value} does not fit in {width} bits"
        );
        self.fields.push(Field {
            what,
            place: self.writer.place(),
            width,
        });
        self.writer.field(width, value);
    }

    fn file(&mut self, tree: &Tree) {
        self.put(What::Form, 8, FORM);
        self.put(What::Lines, 8, tree.lines.len() as u64);
        self.put(What::Names, 8, tree.names.len() as u64);
        for name in &tree.names {
            self.put(What::Global, 1, name.global.into());
            self.put(What::Length, 6, name.text.len() as u64 - 1);
            self.characters(&name.text);
        }
        tree.lines.iter().for_each(|line| self.list(line));
    }

    fn characters(&mut self, text: &[u8]) {
        text.iter().for_each(|&c| self.put(What::Character, 7, c.into()));
    }

    fn list(&mut self, list: &[Stmt]) {
        self.put(What::Count, 6, list.len() as u64);
        list.iter().for_each(|stmt| self.stmt(stmt));
    }

    fn incdec(&mut self, inc: bool, name: u8) {
        self.put(What::Inc, 1, inc.into());
        self.put(What::Name, 8, name.into());
    }

    fn stmt(&mut self, stmt: &Stmt) {
        match stmt {
            Stmt::Goto(e) => {
                self.put(What::StmtKind, 2, 0);
                self.expr(e);
            }
            Stmt::Ite(c, t, e) => {
                self.put(What::StmtKind, 2, 1);
                self.expr(c);
                self.list(t);
                self.list(e);
            }
            Stmt::Incdec(inc, name) => {
                self.put(What::StmtKind, 2, 2);
                self.incdec(*inc, *name);
            }
            Stmt::Assign(name, op, e) => {
                self.put(What::StmtKind, 2, 3);
                self.put(What::Name, 8, (*name).into());
                self.put(What::Assignop, 3, (*op).into());
                self.expr(e);
            }
        }
    }

    fn expr(&mut self, expr: &Expr) {
        match expr {
            Expr::Binop(op, l, r) => {
                self.put(What::ExprKind, 3, 0);
                self.put(What::Binop, 4, (*op).into());
                self.expr(l);
                self.expr(r);
            }
            Expr::Unop(op, e) => {
                self.put(What::ExprKind, 3, 1);
                self.put(What::Unop, 4, (*op).into());
                self.expr(e);
            }
            Expr::Incdec(inc, name) => {
                self.put(What::ExprKind, 3, 2);
                self.incdec(*inc, *name);
            }
            Expr::Ident(name) => {
                self.put(What::ExprKind, 3, 3);
                self.put(What::Name, 8, (*name).into());
            }
            Expr::Number(n) => {
                self.put(What::ExprKind, 3, 4);
                self.put(What::Number, 64, *n as u64);
            }
            Expr::String(s) => {
                self.put(What::ExprKind, 3, 5);
                self.put(What::Length, 7, s.len() as u64);
                self.characters(s);
            }
        }
    }
}
