//! Preservation on random trees: the finished machine is walked, the tree is read, and both must agree.

use crate::bits::hex;
use crate::generate::{outcomes, trees};
use crate::judge::{machine_of, Answer, Options, Stage};
use crate::limits::MOST_BYTES;
use crate::lowering::{script, Script};
use crate::machine::{ins_fits, pack, Counts, Machine};
use crate::origin::{behind_goto, finished_marks, statement};
use crate::rng::Rng;
use crate::tree::{decode, Tree};
use crate::walk::{read, walk, Ask, Stop, Walk};
use std::collections::BTreeMap;

/// Most outcomes of a list.
pub const LONG: usize = 200;
/// How many instructions may be met.
pub const LIMITS: [usize; 5] = [5, 60, 400, 2_000, 2_000];

/// A tree's machine and script, ready to be walked.
pub struct Subject {
    pub script: Script,
    pub machine: Machine,
    marks: Machine,
    behind: Vec<bool>,
    counts: Counts,
}

impl Subject {
    pub fn new(tree: &Tree) -> Result<Self, &'static str> {
        let options = Options::of_number(Options::DEFAULT);
        let build = |stage| match machine_of(stage, tree, options) {
            Answer::Done(machine) => Ok(machine),
            _ => Err("yogi panics"),
        };
        Subject::of(tree, &build(Stage::Lower)?, build(Stage::Finish)?)
    }

    /// With a lowered and a finished machine that anybody may have built from the tree.
    pub fn of(tree: &Tree, lowered: &Machine, machine: Machine) -> Result<Self, &'static str> {
        let script = script(tree);
        let counts = pack(&machine).0;
        let own = [script.numbers, script.strings, script.values].map(usize::from);
        if own != [counts.numbers, counts.strings, counts.values] {
            return Err("the script has other registers");
        }
        Ok(Subject {
            marks: finished_marks(&script, lowered, &machine)?,
            behind: behind_goto(&script),
            counts,
            script,
            machine,
        })
    }

    fn registers_fit(&self, walk: &Walk) -> bool {
        let goto_fits = match walk.stop {
            Stop::Question(Ask::Goto(n)) => usize::from(n) < self.counts.numbers,
            _ => true,
        };
        goto_fits && walk.met.iter().all(|ins| ins_fits(&self.counts, ins.word()))
    }

    /// The walk that both give, or what is wrong.
    pub fn check(&self, outcomes: &[usize], most: usize) -> Result<Walk, &'static str> {
        let walked = walk(&self.machine, outcomes, most);
        let read = read(&self.script, outcomes, most);
        let marks = walk(&self.marks, outcomes, most);
        let holds = [
            (walked.stop != Stop::Lost, "a section is absent"),
            (walked.met == read.met, "other instructions are met"),
            (walked.stop == read.stop, "they stop otherwise"),
            (self.registers_fit(&walked), "a register is not in its table"),
            (marks.met.len() == walked.met.len(), "the marks walk otherwise"),
            (
                !marks.met.iter().any(|mark| self.behind[statement(mark)]),
                "an instruction behind a goto is met",
            ),
        ];
        match holds.iter().find(|(holds, _)| !holds) {
            Some((_, wrong)) => Err(wrong),
            None => Ok(walked),
        }
    }
}

// ---- many trees

#[derive(Default)]
struct Tally {
    rows: BTreeMap<&'static str, usize>,
    /// the smallest by its file's length, and the list's
    wrong: Option<(usize, usize, String)>,
}

fn stop_row(stop: Stop) -> &'static str {
    match stop {
        Stop::Question(Ask::Jump(_)) => "stops at a jump",
        Stop::Question(Ask::Goto(_)) => "stops at a goto",
        Stop::Full => "stops full",
        Stop::Silent => "stops silent",
        Stop::Lost => "stops lost",
    }
}

impl Tally {
    fn add(&mut self, row: &'static str, count: usize) {
        *self.rows.entry(row).or_default() += count;
    }

    fn wrong(&mut self, bytes: &[u8], list: &[usize], most: usize, what: &str) {
        self.add("wrong", 1);
        let size = (bytes.len(), list.len());
        if self.wrong.as_ref().is_none_or(|(b, l, _)| size < (*b, *l)) {
            let text = format!("{what}: {} outcomes {list:?} at most {most}", hex(bytes));
            self.wrong = Some((size.0, size.1, text));
        }
    }

    fn text(&self) -> String {
        let mut out: Vec<String> = self.rows.iter().map(|(row, n)| format!("{row}: {n}")).collect();
        out.push(match &self.wrong {
            None => "all held".into(),
            Some((_, _, text)) => format!("WRONG {text}"),
        });
        out.join("\n")
    }
}

fn check_list(tally: &mut Tally, bytes: &[u8], subject: &Subject, list: &[usize], most: usize) {
    tally.add("lists", 1);
    match subject.check(list, most) {
        Ok(walk) => {
            tally.add(stop_row(walk.stop), 1);
            tally.add("instructions met", walk.met.len());
        }
        Err(_) => {
            // the shortest beginning that is wrong
            let wrong = (0..=list.len()).find_map(|n| Some((n, subject.check(&list[..n], most).err()?)));
            let (n, what) = wrong.expect("the whole list is wrong");
            tally.wrong(bytes, &list[..n], most, what);
        }
    }
}

fn check_file(tally: &mut Tally, rng: &mut Rng, bytes: &[u8]) {
    let Ok(tree) = decode(bytes) else {
        return tally.add("trees refused", 1);
    };
    tally.add("trees", 1);
    match Subject::new(&tree) {
        Err(what) => tally.wrong(bytes, &[], 0, what),
        Ok(subject) => {
            for sort in 0..outcomes::SORTS {
                let list = outcomes::list(rng, sort, LONG, &subject.script);
                let most = rng.pick(&LIMITS);
                check_list(tally, bytes, &subject, &list, most);
            }
        }
    }
}

/// The report, and whether all held.
pub fn run(seed: u64, count: usize) -> (String, bool) {
    let mut tally = Tally::default();
    let mut rng = Rng::new(!seed);
    for bytes in trees::files(seed, count, MOST_BYTES) {
        check_file(&mut tally, &mut rng, &bytes);
    }
    (tally.text(), tally.wrong.is_none())
}
