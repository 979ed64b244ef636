//! A machine as one line of text: see README.md.

use crate::bits::{hex, unhex};
use crate::machine::{Counts, Tables};
use std::fmt::Display;

fn row<T>(words: &[T], show: impl Fn(&T) -> String) -> String {
    words.iter().map(show).collect::<Vec<_>>().join(" ")
}

fn decimal<T: Display>(word: &T) -> String {
    word.to_string()
}

pub fn print(counts: &Counts, tables: &Tables) -> String {
    [
        row(&counts.row(), decimal),
        row(&tables.sections, |w| format!("{w:x}")),
        row(&tables.instrs, |w| format!("{w:x}")),
        row(&tables.numbers, decimal),
        row(&tables.strings, |w| format!("{w:x}")),
        hex(&tables.pool),
        row(&tables.names, decimal),
    ]
    .join("|")
}

fn words<T>(text: &str, read: impl Fn(&str) -> Option<T>) -> Option<Vec<T>> {
    text.split_whitespace().map(read).collect()
}

pub fn parse(line: &str) -> Option<(Counts, Tables)> {
    let parts: Vec<&str> = line.split('|').collect();
    let [counts, sections, instrs, numbers, strings, pool, names] = parts.try_into().ok()?;
    let hex64 = |w: &str| u64::from_str_radix(w, 16).ok();
    let tables = Tables {
        sections: words(sections, hex64)?,
        instrs: words(instrs, hex64)?,
        numbers: words(numbers, |w| w.parse().ok())?,
        strings: words(strings, |w| u32::from_str_radix(w, 16).ok())?,
        pool: unhex(pool.trim())?,
        names: words(names, |w| w.parse().ok())?,
    };
    let counts = words(counts, |w| w.parse().ok())?.try_into().ok()?;
    Some((Counts::of_row(counts), tables))
}
