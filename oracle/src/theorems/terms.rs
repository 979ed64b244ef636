//! Values as terms of the definitions.

use crate::judge::{Answer, Options};
use crate::machine::{Counts, Ins, Tables};
use crate::tree::Size;
use std::fmt::Display;

pub fn list<T>(words: &[T], show: impl Fn(&T) -> String) -> String {
    let shown: String = words.iter().map(|w| show(w) + " ∷ ").collect();
    format!("({shown}[])")
}

pub fn plain<T: Display>(words: &[T]) -> String {
    list(words, T::to_string)
}

pub fn integer(n: &i64) -> String {
    if *n < 0 {
        format!("negsuc {}", -(n + 1))
    } else {
        format!("pos {n}")
    }
}

pub fn tables_term(tables: &Tables) -> String {
    format!(
        "tables {} {} {} {} {} {}",
        plain(&tables.sections),
        plain(&tables.instrs),
        list(&tables.numbers, integer),
        plain(&tables.strings),
        plain(&tables.pool),
        plain(&tables.names)
    )
}

pub fn row_term(name: &str, row: &[usize]) -> String {
    let row: Vec<String> = row.iter().map(usize::to_string).collect();
    format!("{name} {}", row.join(" "))
}

pub fn counts_term(counts: &Counts) -> String {
    row_term("counts", &counts.row())
}

pub fn size_term(size: &Size) -> String {
    let row = [
        size.lines,
        size.names,
        size.statements,
        size.nodes,
        size.strings,
        size.characters,
    ];
    row_term("sizes", &row)
}

pub fn answer_term<T>(answer: &Answer<T>, show: impl Fn(&T) -> String) -> String {
    match answer {
        Answer::Refused(n) => format!("refused {n}"),
        Answer::Done(x) => format!("ok ({})", show(x)),
        Answer::Panic => panic!("yogi panics: no theorem"),
    }
}

pub fn options_term(options: Options) -> String {
    format!("(options {} {})", options.locals, options.globals)
}

/// The answer, and the tables afterwards.
pub fn outcome(answer: &Answer<Counts>, after: &Tables) -> String {
    format!("({}, {})", answer_term(answer, counts_term), tables_term(after))
}

pub fn ins_term(ins: &Ins) -> String {
    let [a, b, c] = ins.fields;
    format!("ins {} {a} {b} {c}", ins.op)
}
