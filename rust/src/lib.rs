//! From a Yolol script to yogi's finished machine.
//!
//! A [`Script`] is a tree with yogi's names. It is packed into the tree form, and the proved static library makes a [`Machine`] of it: lowered, or
//! lowered, cleaned and combined. A machine owns its tables; its sections and instructions can be read with yogi's names.
//!
//! ```
//! use sezkibalo::{CodegenOptions, Expr, Ident, Instruction, Line, Machine, NumReg, Number, Script, Statement, ValReg};
//!
//! let x = Ident::local("x");
//! let assign = Statement::Assign(x, None, Expr::Number(Number(1000)));
//! let script = Script { lines: vec![Line { stmts: vec![assign] }] };
//! let machine = Machine::finish(&script.pack()?.bytes, CodegenOptions::default())?;
//! let section = machine.sections().next().unwrap();
//! let code: Vec<Instruction> = section.instructions().flatten().collect();
//! assert_eq!(code, [Instruction::ValueifyNum(NumReg(0), ValReg(0)), Instruction::CopyVal(ValReg(0), ValReg(1))]);
//! # Ok::<(), sezkibalo::Error>(())
//! ```
//!
//! Every call may be made from several threads at once: the library has no state of its own. The tests make calls on stacks of 2 MiB, and of
//! 256 KiB for the deepest and the largest trees.

mod instr;
mod machine;
mod pack;
pub mod raw;
mod refusal;
mod script;

pub use instr::{Instruction, NumReg, Section, StrReg, ValReg};
pub use machine::{Machine, SectionCode, Success, Tables};
pub use pack::{PackError, Packed};
pub use raw::{size, CodegenOptions, Counts, Size};
pub use refusal::Refusal;
pub use script::{AssignOp, Binop, Expr, Ident, Incdec, Line, Number, Script, Statement, Unop};

/// Why there is no machine: a script that the tree form cannot hold, or a refusal of the library.
#[derive(Debug, Clone, Copy, PartialEq, Eq)]
pub enum Error {
    Pack(PackError),
    Refused(Refusal),
}

impl From<PackError> for Error {
    fn from(e: PackError) -> Self {
        Error::Pack(e)
    }
}

impl From<Refusal> for Error {
    fn from(r: Refusal) -> Self {
        Error::Refused(r)
    }
}

impl std::fmt::Display for Error {
    fn fmt(&self, f: &mut std::fmt::Formatter) -> std::fmt::Result {
        match self {
            Error::Pack(e) => e.fmt(f),
            Error::Refused(r) => r.fmt(f),
        }
    }
}

impl std::error::Error for Error {}
