//! Packing a script into the tree form: fields of bits, most significant first.

use crate::script::*;
use std::collections::HashMap;
use std::fmt;
use std::hash::{Hash, Hasher};

/// What the tree form cannot hold. Its other limits are the library's to refuse.
#[derive(Debug, Clone, Copy, PartialEq, Eq)]
pub enum PackError {
    TooManyLines,
    TooManyNames,
    NameLength,
    TooManyStatements,
    StringLength,
    NotAscii,
}

impl fmt::Display for PackError {
    fn fmt(&self, f: &mut fmt::Formatter) -> fmt::Result {
        f.write_str(match self {
            PackError::TooManyLines => "the script has more than 255 lines",
            PackError::TooManyNames => "the script has more than 255 names",
            PackError::NameLength => "a name is empty or longer than 64 characters",
            PackError::TooManyStatements => "a list has more than 63 statements",
            PackError::StringLength => "a string is longer than 127 characters",
            PackError::NotAscii => "a name or a string has a character that is not ASCII",
        })
    }
}

impl std::error::Error for PackError {}

/// The tree form of a script, and the names in the order of its table.
#[derive(Debug, Clone, PartialEq, Eq)]
pub struct Packed {
    pub bytes: Vec<u8>,
    pub names: Vec<Ident>,
}

impl Packed {
    /// The number of a name in the table, in whatever case it is spelled.
    pub fn number(&self, ident: &Ident) -> Option<usize> {
        self.names.iter().position(|name| name.is_same(ident))
    }
}

impl Script {
    /// Names are in the order in which they first stand in the script. Those that differ only in case are one, spelled as it first stands.
    pub fn pack(&self) -> Result<Packed, PackError> {
        let mut packing = Packing::default();
        for line in &self.lines {
            packing.list(&line.stmts)?;
        }
        let mut head = Bits::default();
        head.put(8, FORM);
        head.put(8, within(self.lines.len(), 255, PackError::TooManyLines)?);
        head.put(8, within(packing.names.len(), 255, PackError::TooManyNames)?);
        for ident in &packing.names {
            head.put(1, ident.global.into());
            head.put(6, within(ident.name.len().wrapping_sub(1), 63, PackError::NameLength)?);
            head.text(&ident.name)?;
        }
        head.append(&packing.body);
        Ok(Packed { bytes: head.bytes(), names: packing.names })
    }
}

const FORM: u64 = 1;

/// A number that a field can hold.
fn within(n: usize, most: usize, error: PackError) -> Result<u64, PackError> {
    if n <= most {
        Ok(n as u64)
    } else {
        Err(error)
    }
}

/// Bits, most significant first; `last` holds the `held` ones that fill no byte yet.
#[derive(Default)]
struct Bits {
    full: Vec<u8>,
    last: u64,
    held: u32,
}

impl Bits {
    /// A field of at most 32 bits.
    fn put(&mut self, width: u32, value: u64) {
        self.last = self.last << width | value;
        self.held += width;
        while self.held >= 8 {
            self.held -= 8;
            self.full.push((self.last >> self.held) as u8);
        }
        self.last &= (1 << self.held) - 1;
    }

    fn put64(&mut self, value: u64) {
        self.put(32, value >> 32);
        self.put(32, value & 0xffff_ffff);
    }

    fn text(&mut self, text: &str) -> Result<(), PackError> {
        for c in text.bytes() {
            self.put(7, within(c.into(), 127, PackError::NotAscii)?);
        }
        Ok(())
    }

    fn append(&mut self, other: &Bits) {
        for &byte in &other.full {
            self.put(8, byte.into());
        }
        self.put(other.held, other.last);
    }

    /// Zero bits fill the last byte.
    fn bytes(mut self) -> Vec<u8> {
        if self.held > 0 {
            self.put(8 - self.held, 0);
        }
        self.full
    }
}

/// A name as a key: names that are the same are one key.
struct Key<'a>(&'a Ident);

impl PartialEq for Key<'_> {
    fn eq(&self, other: &Self) -> bool {
        self.0.is_same(other.0)
    }
}

impl Eq for Key<'_> {}

impl Hash for Key<'_> {
    fn hash<H: Hasher>(&self, state: &mut H) {
        self.0.global.hash(state);
        self.0.name.bytes().for_each(|c| state.write_u8(c.to_ascii_lowercase()));
    }
}

#[derive(Default)]
struct Packing<'a> {
    body: Bits,
    names: Vec<Ident>,
    numbers: HashMap<Key<'a>, u64>,
}

impl<'a> Packing<'a> {
    fn name(&mut self, ident: &'a Ident) -> Result<(), PackError> {
        let number = match self.numbers.get(&Key(ident)) {
            Some(&number) => number,
            None => {
                let number = within(self.names.len(), 254, PackError::TooManyNames)?;
                self.names.push(ident.clone());
                self.numbers.insert(Key(ident), number);
                number
            }
        };
        self.body.put(8, number);
        Ok(())
    }

    fn incdec(&mut self, incdec: &'a Incdec) -> Result<(), PackError> {
        self.body.put(1, incdec.inc.into());
        self.name(&incdec.ident)
    }

    fn list(&mut self, list: &'a [Statement]) -> Result<(), PackError> {
        self.body.put(6, within(list.len(), 63, PackError::TooManyStatements)?);
        list.iter().try_for_each(|stmt| self.stmt(stmt))
    }

    fn stmt(&mut self, stmt: &'a Statement) -> Result<(), PackError> {
        match stmt {
            Statement::Goto(e) => {
                self.body.put(2, 0);
                self.expr(e)
            }
            Statement::Ite(c, then, otherwise) => {
                self.body.put(2, 1);
                self.expr(c)?;
                self.list(then)?;
                self.list(otherwise)
            }
            Statement::Incdec(incdec) => {
                self.body.put(2, 2);
                self.incdec(incdec)
            }
            Statement::Assign(ident, op, e) => {
                self.body.put(2, 3);
                self.name(ident)?;
                self.body.put(3, op.map_or(0, |op| 1 + op as u64));
                self.expr(e)
            }
        }
    }

    fn expr(&mut self, expr: &'a Expr) -> Result<(), PackError> {
        match expr {
            Expr::Binop(l, op, r) => {
                self.body.put(3, 0);
                self.body.put(4, *op as u64);
                self.expr(l)?;
                self.expr(r)
            }
            Expr::Unop(op, e) => {
                self.body.put(3, 1);
                self.body.put(4, *op as u64);
                self.expr(e)
            }
            Expr::Incdec(incdec) => {
                self.body.put(3, 2);
                self.incdec(incdec)
            }
            Expr::Ident(ident) => {
                self.body.put(3, 3);
                self.name(ident)
            }
            Expr::Number(n) => {
                self.body.put(3, 4);
                self.body.put64(n.0 as u64);
                Ok(())
            }
            Expr::String(text) => {
                self.body.put(3, 5);
                self.body.put(7, within(text.len(), 127, PackError::StringLength)?);
                self.body.text(text)
            }
        }
    }
}
