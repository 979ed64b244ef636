//! Lower and finish beside the judge: each file under each of the four options (a large one under one of them), on lent tables that are just
//! long enough, longer, and one word short. They are full of old words before a call. Then walk and reading on the words that the
//! library leaves.

use crate::library;
use crate::tally::{each_file, Tally, GUARD, USUAL_BYTES};
use oracle::bits::hex;
use oracle::generate::outcomes;
use oracle::judge::{estimate, machine_of, Answer, Options, Stage};
use oracle::limits::R_ROOM;
use oracle::machine::{pack, sound, unpack, Counts, Machine, Tables};
use oracle::rng::Rng;
use oracle::tree::{decode, Size, Tree};
use oracle::walks::{Subject, LIMITS, LONG};

/// Words before and behind each lent table, lent to nobody.
const MARGIN: usize = 3;

/// By how many words a longer table may exceed its estimate.
const MORE: usize = 5;

/// Counts that are lent: eight and two guards.
const COUNTS: usize = 10;

const STAGES: [Stage; 2] = [Stage::Lower, Stage::Finish];

/// Where the six tables stand among the eight counts.
const TABLES: [usize; 6] = [1, 2, 3, 4, 5, 7];

struct Tallies {
    exact: [Tally; 2],
    longer: [Tally; 2],
    short: [Tally; 2],
    few: Tally,
    walks: Tally,
}

impl Tallies {
    fn new() -> Self {
        Tallies {
            exact: [Tally::new("lower, tables as long as the estimate"), Tally::new("finish, tables as long as the estimate")],
            longer: [Tally::new("lower, longer tables"), Tally::new("finish, longer tables")],
            short: [Tally::new("lower, one table a word short"), Tally::new("finish, one table a word short")],
            few: Tally::new("too few counts"),
            walks: Tally::new("walks of the finished machine"),
        }
    }

    fn all(self) -> Vec<Tally> {
        let mut out = Vec::from(self.exact);
        out.extend(self.longer);
        out.extend(self.short);
        out.extend([self.few, self.walks]);
        out
    }
}

// ---- what is lent, and what the judge says of it

/// Old words, as many as the longest tables have, with margins.
fn old_words(rng: &mut Rng, need: &Counts) -> Tables {
    let mut row = need.row();
    row.iter_mut().for_each(|n| *n += MORE + 2 * MARGIN);
    let mut words = Tables::of_room(&Counts::of_row(row));
    words.sections.iter_mut().for_each(|w| *w = rng.next());
    words.instrs.iter_mut().for_each(|w| *w = rng.next());
    words.numbers.iter_mut().for_each(|w| *w = rng.next() as i64);
    words.strings.iter_mut().for_each(|w| *w = rng.next() as u32);
    words.pool.iter_mut().for_each(|w| *w = rng.next() as u8);
    words.names.iter_mut().for_each(|w| *w = rng.next() as u16);
    words
}

fn longer(rng: &mut Rng, need: &Counts) -> Counts {
    let mut row = need.row();
    row.iter_mut().for_each(|n| *n += rng.below(MORE + 1));
    Counts::of_row(row)
}

/// A file, the old words, and the judge's answer under one of the options.
struct Case<'a> {
    stage: Stage,
    file: &'a [u8],
    options: u8,
    old: &'a Tables,
    number: u64,
    counts: Vec<u64>,
    after: Tables,
}

fn put<T: Copy + Default>(old: &[T], upto: usize, words: &[T]) -> Vec<T> {
    let mut out = old.to_vec();
    out[MARGIN..MARGIN + upto].fill(T::default());
    assert!(words.len() <= upto, "yogi needs more than the estimate");
    out[MARGIN..MARGIN + words.len()].copy_from_slice(words);
    out
}

fn written(old: &Tables, need: &Counts, words: &Tables) -> Tables {
    Tables {
        sections: put(&old.sections, need.sections, &words.sections),
        instrs: put(&old.instrs, need.instrs, &words.instrs),
        numbers: put(&old.numbers, need.numbers, &words.numbers),
        strings: put(&old.strings, need.strings, &words.strings),
        pool: put(&old.pool, need.pool, &words.pool),
        names: put(&old.names, need.names, &words.names),
    }
}

impl<'a> Case<'a> {
    fn refused(stage: Stage, file: &'a [u8], options: u8, old: &'a Tables, number: u8) -> Self {
        Case { stage, file, options, old, number: number.into(), counts: vec![GUARD; COUNTS], after: old.clone() }
    }

    fn accepted(stage: Stage, file: &'a [u8], options: u8, old: &'a Tables, need: &Counts, tree: &Tree) -> Self {
        let Answer::Done(machine) = machine_of(stage, tree, Options::of_number(options)) else {
            // no answer of the rules: the judge has none to hold the library to
            panic!("yogi panics: {}", hex(file));
        };
        let (counts, words) = pack(&machine);
        let mut row = vec![GUARD; COUNTS];
        row.iter_mut().zip(counts.row()).for_each(|(word, n)| *word = n as u64);
        Case { stage, file, options, old, number: 0, counts: row, after: written(old, need, &words) }
    }

    /// The call's number, counts and tables.
    fn call(&self, room: &Counts, counts: usize) -> (u64, Vec<u64>, Tables) {
        let (mut counts, mut tables) = (vec![GUARD; counts], self.old.clone());
        // bits 2 and up are ignored, so they may be anything
        let bits = u64::from(self.options) | self.old.sections[0] & !3;
        let number = library::build(self.stage, self.file, bits, &mut counts, &mut tables, MARGIN, room);
        (number, counts, tables)
    }

    /// The call as the judge has it; what it leaves.
    fn agrees(&self, tally: &mut Tally, room: &Counts) -> (Vec<u64>, Tables) {
        let (number, counts, tables) = self.call(room, COUNTS);
        let same = number == self.number && counts == self.counts && tables == self.after;
        tally.count(self.number != 0, same, &|| self.difference(number, &counts, &tables, room));
        (counts, tables)
    }

    /// The call with too little room: 11, and nothing is written.
    fn too_short(&self, tally: &mut Tally, room: &Counts, counts: usize) {
        let (number, lent, tables) = self.call(room, counts);
        let same = number == u64::from(R_ROOM) && lent.iter().all(|&n| n == GUARD) && tables == *self.old;
        tally.count(true, same, &|| format!("{} options {}: answer {number}, room {:?}", hex(self.file), self.options, room.row()));
    }

    /// The first part that differs, as far as it stands in the judge's words.
    fn difference(&self, number: u64, counts: &[u64], tables: &Tables, room: &Counts) -> String {
        let at = [
            ("sections", first(&tables.sections, &self.after.sections)),
            ("instructions", first(&tables.instrs, &self.after.instrs)),
            ("numbers", first(&tables.numbers, &self.after.numbers)),
            ("strings", first(&tables.strings, &self.after.strings)),
            ("pool", first(&tables.pool, &self.after.pool)),
            ("names", first(&tables.names, &self.after.names)),
        ];
        let words: Vec<String> = at.iter().filter_map(|(name, at)| Some(format!(", {name} from word {}", (*at)?))).collect();
        let head = format!("{} options {}: answer {number} and not {}", hex(self.file), self.options, self.number);
        format!("{head}, counts {:?} and not {:?}{}; lent {:?}", &counts[..8], &self.counts[..8], words.concat(), room.row())
    }
}

/// Where two lists first differ, counted from the first lent word; negative before it.
fn first<T: PartialEq>(got: &[T], expected: &[T]) -> Option<isize> {
    let at = got.iter().zip(expected).position(|(a, b)| a != b)?;
    Some(at as isize - MARGIN as isize)
}

// ---- one file

/// The machine that a call left, if its words keep the rules.
fn left(counts: &[u64], tables: &Tables, need: &Counts) -> Option<Machine> {
    let mut row = [0; 8];
    row.iter_mut().zip(counts).for_each(|(n, &word)| *n = word as usize);
    let counts = Counts::of_row(row);
    let lent = Tables {
        sections: tables.sections[MARGIN..MARGIN + need.sections].to_vec(),
        instrs: tables.instrs[MARGIN..MARGIN + need.instrs].to_vec(),
        numbers: tables.numbers[MARGIN..MARGIN + need.numbers].to_vec(),
        strings: tables.strings[MARGIN..MARGIN + need.strings].to_vec(),
        pool: tables.pool[MARGIN..MARGIN + need.pool].to_vec(),
        names: tables.names[MARGIN..MARGIN + need.names].to_vec(),
    };
    sound(&counts, &lent).then(|| unpack(&counts, &lent))
}

/// A list of each sort through the library's finished machine, and through the tree.
fn compare_walks(tally: &mut Tally, rng: &mut Rng, file: &[u8], tree: &Tree, machines: [Option<Machine>; 2]) -> usize {
    let [Some(lowered), Some(finished)] = machines else {
        tally.count(false, false, &|| format!("{}: words break the rules", hex(file)));
        return 0;
    };
    let subject = match Subject::of(tree, &lowered, finished) {
        Ok(subject) => subject,
        Err(what) => {
            tally.count(false, false, &|| format!("{}: {what}", hex(file)));
            return 0;
        }
    };
    let mut met = 0;
    for sort in 0..outcomes::SORTS {
        let list = outcomes::list(rng, sort, LONG, &subject.script);
        let most = rng.pick(&LIMITS);
        let walked = subject.check(&list, most);
        met += walked.as_ref().map_or(0, |walk| walk.met.len());
        tally.count(false, walked.is_ok(), &|| {
            format!("{}: {} outcomes {list:?} at most {most}", hex(file), walked.as_ref().err().unwrap_or(&""))
        });
    }
    met
}

fn compare_tree(tallies: &mut Tallies, rng: &mut Rng, file: &[u8], tree: &Tree) -> usize {
    let need = estimate(&Size::of(tree));
    let old = old_words(rng, &need);
    let walked = rng.below(4) as u8;
    let mut machines = [None, None];
    // yogi takes seconds for a large file under all of them
    for options in if file.len() <= USUAL_BYTES { 0..4 } else { walked..walked + 1 } {
        for (i, stage) in STAGES.into_iter().enumerate() {
            let case = Case::accepted(stage, file, options, &old, &need, tree);
            let (counts, tables) = case.agrees(&mut tallies.exact[i], &need);
            if options == walked {
                machines[i] = left(&counts, &tables, &need);
            }
            let room = longer(rng, &need);
            case.agrees(&mut tallies.longer[i], &room);
            for table in TABLES {
                let mut row = room.row();
                if need.row()[table] > 0 {
                    row[table] = need.row()[table] - 1;
                    case.too_short(&mut tallies.short[i], &Counts::of_row(row), COUNTS);
                }
            }
            case.too_short(&mut tallies.few, &room, rng.below(8));
        }
    }
    compare_walks(&mut tallies.walks, rng, file, tree, machines)
}

/// A refused file: whatever is lent, its number is the answer, unless there is no room for the counts.
fn compare_refused(tallies: &mut Tallies, rng: &mut Rng, file: &[u8], number: u8) {
    let none = Counts::default();
    let old = old_words(rng, &none);
    for options in 0..4 {
        for (i, stage) in STAGES.into_iter().enumerate() {
            let case = Case::refused(stage, file, options, &old, number);
            case.agrees(&mut tallies.exact[i], &none);
            let room = longer(rng, &none);
            case.agrees(&mut tallies.longer[i], &room);
            case.too_short(&mut tallies.few, &room, rng.below(8));
        }
    }
}

pub fn run(seed: u64, count: usize) -> Vec<Tally> {
    let mut tallies = Tallies::new();
    let mut rng = Rng::new(!seed);
    let (mut accepted, mut refused, mut large, mut met) = (0, 0, 0, 0);
    each_file(seed, count, |file| match decode(file) {
        Ok(tree) => {
            accepted += 1;
            large += usize::from(file.len() > USUAL_BYTES);
            met += compare_tree(&mut tallies, &mut rng, file, &tree);
        }
        Err(number) => {
            refused += 1;
            compare_refused(&mut tallies, &mut rng, file, number);
        }
    });
    println!("{accepted} trees accepted, {refused} files refused; each under 4 options, but {large} large trees under one of them");
    println!("{met} instructions met on the walks");
    tallies.all()
}
