//! Theorems that hold the definitions to the judge, closed by computing.

mod calls;
mod instr;
mod names;
mod orders;
mod terms;
mod walks;

use crate::generate::{damaged, in_turn, machines};
use crate::rng::Rng;
use calls::{change_theorem, finlist_theorem, limits, of_file, texts, valid_files, SMALL};
use std::collections::BTreeMap;
use std::path::Path;

const A_MODULE: usize = 50;

struct Theorem {
    operation: &'static str,
    /// the sort of answer, for the summary
    answer: String,
    note: String,
    left: String,
    right: String,
    unfolds: &'static str,
}

impl Theorem {
    fn text(&self, i: usize) -> String {
        format!(
            "-- {}\npub t{i} : {} ≡ {}\nunfolding {}\nt{i} = refl\n",
            self.note, self.left, self.right, self.unfolds
        )
    }
}

fn theorems(kind: &str, seed: u64, count: usize) -> Option<Vec<Theorem>> {
    let mut rng = Rng::new(seed);
    let mut of_files = |files: Vec<Vec<u8>>| {
        files
            .iter()
            .enumerate()
            .flat_map(|(i, bytes)| of_file(&mut rng, i, bytes))
            .collect()
    };
    Some(match kind {
        "trees" => of_files(valid_files(seed, count)),
        "damaged" => of_files(damaged::files(seed, count, SMALL)),
        "finlist" => in_turn(vec![valid_files(seed, count), damaged::files(seed, count / 3, SMALL)])
            .take(count)
            .map(|bytes| finlist_theorem(&bytes))
            .collect(),
        "texts" => texts(&mut rng, count),
        "limits" => limits().into_iter().take(count).collect(),
        "machines" => machines::cases(seed, count, SMALL).iter().map(change_theorem).collect(),
        "instr" => instr::theorems(&mut rng, count),
        "walks" => walks::theorems(seed, count),
        "orders" => orders::theorems(seed, count),
        _ => return None,
    })
}

// ---- modules

fn module_name(kind: &str, i: usize) -> String {
    let (first, rest) = kind.split_at(1);
    format!("{}{rest}{i}", first.to_uppercase())
}

fn module_text(kind: &str, theorems: &[Theorem]) -> String {
    let texts: Vec<String> = theorems
        .iter()
        .enumerate()
        .map(|(i, theorem)| theorem.text(i))
        .collect();
    format!(
        "-- Calls with the judge's answers.\n{}\n{}",
        names::uses(kind),
        texts.join("\n")
    )
}

/// How many theorems there are of each operation and answer.
fn summary(kind: &str, theorems: &[Theorem]) -> String {
    let mut rows: BTreeMap<(&str, &str), usize> = BTreeMap::new();
    for theorem in theorems {
        *rows.entry((theorem.operation, &theorem.answer)).or_default() += 1;
    }
    let rows: Vec<String> = rows
        .iter()
        .map(|((operation, answer), n)| format!("{kind} {operation} {answer}: {n}"))
        .collect();
    rows.join("\n")
}

/// Writes modules into the folder, and says what is in them. `Lib.antt` is left to the caller.
pub fn write(kind: &str, seed: u64, count: usize, folder: &Path) -> Option<String> {
    let theorems = theorems(kind, seed, count)?;
    let put = |name: &str, text: &str| std::fs::write(folder.join(format!("{name}.antt")), text).ok();
    put(names::WORDS_MODULE, names::WORDS)?;
    for (i, part) in theorems.chunks(A_MODULE).enumerate() {
        put(&module_name(kind, i), &module_text(kind, part))?;
    }
    Some(summary(kind, &theorems))
}
