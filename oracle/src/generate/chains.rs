//! Machines for combining: chains of sections, each going on to the next of its own, that lie through each other in the table, and what ends or
//! breaks a chain. An instruction that is no jump has a register of its own: no two are the same word, so one in a wrong place is seen.

use super::machines::{lend, Case};
use crate::judge::Op;
use crate::machine::{op, Ins, Machine, Next, Sect};
use crate::rng::Rng;

/// How the chains lie.
#[derive(Debug, Clone, Copy, PartialEq, Eq)]
pub enum Layout {
    /// section i goes on to i + k: all heads first, the last sections are taken in
    Crossing,
    /// a section stands in any of the chains, or begins one
    Through,
    /// a b c c b a a b c ..: each round inside the one before
    Nested,
    /// members far apart, with sections between that stand alone
    Far,
    /// one long chain with few instructions, short ones with many
    Uneven,
    /// one long chain, then heads that jumps lead to: their numbers fall far
    HeadsLast,
    /// many lines, chains that end at line starts in their midst
    Lines,
}

/// What breaks a chain, or leads past it.
#[derive(Debug, Clone, Copy, PartialEq, Eq)]
enum Twist {
    /// a jump to a section that another goes on to
    Jump,
    /// the end of a chain goes on to a section inside another
    Second,
    /// the end of a chain goes on to another's head, which has no other reference, or has one
    Onward,
    /// a section inside a chain goes on to itself
    Itself,
    /// a link back
    Back,
}

const TWISTS: [Twist; 4] = [Twist::Jump, Twist::Second, Twist::Onward, Twist::Itself];

/// A machine in the making: of each section its chain, how many instructions it has, and where it goes on.
struct Plan {
    lines: usize,
    chain: Vec<usize>,
    counts: Vec<usize>,
    next: Vec<Next>,
    /// jumps that there are besides those to heads: from a section to a section
    jumps: Vec<(usize, usize)>,
}

impl Layout {
    pub const ALL: [Layout; 7] = [
        Layout::Crossing,
        Layout::Through,
        Layout::Nested,
        Layout::Far,
        Layout::Uneven,
        Layout::HeadsLast,
        Layout::Lines,
    ];

    pub fn name(self) -> &'static str {
        match self {
            Layout::Crossing => "chains that cross",
            Layout::Through => "chains through each other",
            Layout::Nested => "chains inside each other",
            Layout::Far => "members far apart",
            Layout::Uneven => "a long chain, and short ones with more instructions",
            Layout::HeadsLast => "heads behind all that is taken in",
            Layout::Lines => "line starts in the midst",
        }
    }

    /// The chain of each section; the first `lines` sections are in chains of their own number.
    fn chains(self, rng: &mut Rng, lines: usize, sections: usize) -> Vec<usize> {
        let most = lines + rng.below(6);
        let gap = most + 1 + rng.below(20);
        (0..sections)
            .map(|i| match self {
                _ if i < lines => i,
                Layout::Crossing => i % most,
                Layout::Nested => (i % (2 * most)).min(2 * most - 1 - i % (2 * most)),
                Layout::Far if i % gap < most => i % gap,
                Layout::Uneven if rng.chance(60) => 0,
                Layout::HeadsLast if i + most < sections => lines - 1,
                Layout::Far | Layout::HeadsLast => lines + i,
                Layout::Uneven => lines + rng.below(1 + sections / 4),
                Layout::Through | Layout::Lines => rng.below(most),
            })
            .collect()
    }

    /// How many instructions a section of this chain has.
    fn instructions(self, rng: &mut Rng, chain: usize) -> usize {
        match self {
            Layout::Uneven if chain == 0 => rng.below(2),
            Layout::Uneven => 5 + rng.below(15),
            _ => rng.pick(&[0, 0, 1, 1, 2, 3, 7]),
        }
    }

    /// Each chain ends at a line start, at a line that a register says, or, if it is one section, at itself.
    fn plan(self, rng: &mut Rng, lines: usize, sections: usize) -> Plan {
        let chain = self.chains(rng, lines, sections);
        let counts = chain.iter().map(|&c| self.instructions(rng, c)).collect();
        let next = (0..sections)
            .map(|i| match chain[i + 1..].iter().position(|&c| c == chain[i]) {
                Some(further) => Next::Section((i + 1 + further) as u16),
                None if !chain[..i].contains(&chain[i]) && rng.chance(20) => Next::Section(i as u16),
                None if rng.chance(20) => Next::Line(0),
                None => Next::Section(rng.below(lines) as u16),
            })
            .collect();
        Plan {
            lines,
            chain,
            counts,
            next,
            jumps: vec![],
        }
    }
}

impl Plan {
    fn is_head(&self, i: usize) -> bool {
        !self.chain[..i].contains(&self.chain[i])
    }

    fn is_end(&self, i: usize) -> bool {
        !self.chain[i + 1..].contains(&self.chain[i])
    }

    /// A section that passes the test.
    fn some(&self, rng: &mut Rng, test: impl Fn(usize) -> bool) -> Option<usize> {
        let all: Vec<usize> = (0..self.chain.len()).filter(|&i| test(i)).collect();
        (!all.is_empty()).then(|| rng.pick(&all))
    }

    /// Nothing where the machine has no place for it.
    fn twist(&mut self, rng: &mut Rng, twist: Twist) -> Option<()> {
        let inside = self.some(rng, |i| !self.is_head(i));
        match twist {
            Twist::Jump => self.jumps.push((rng.below(self.chain.len()), inside?)),
            Twist::Second => {
                let to = inside?;
                let end = self.some(rng, |i| i < to && self.is_end(i))?;
                self.next[end] = Next::Section(to as u16);
            }
            Twist::Onward => {
                let to = self.some(rng, |i| i >= self.lines && self.is_head(i))?;
                let end = self.some(rng, |i| i < to && self.is_end(i))?;
                self.next[end] = Next::Section(to as u16);
            }
            Twist::Itself => {
                let at = inside?;
                self.next[at] = Next::Section(at as u16);
            }
            Twist::Back => {
                let from = self.some(rng, |i| i > self.lines)?;
                self.next[from] = Next::Section((self.lines + rng.below(from - self.lines)) as u16);
            }
        }
        Some(())
    }

    /// One instruction in so many of a hundred is a jump to a head.
    fn machine(&self, rng: &mut Rng, jumping: usize) -> Machine {
        let heads: Vec<usize> = (0..self.chain.len()).filter(|&i| self.is_head(i)).collect();
        let mut numbers: u16 = 0;
        let mut own = || {
            numbers += 1;
            numbers - 1
        };
        let jump = |rng: &mut Rng, to: usize, register| {
            let (op, register) = rng.pick(&[(op::JumpIfError, 0), (op::JumpSectionIf, register)]);
            let fields = [to as u16, register, 0];
            Ins { op, fields }
        };
        let mut code: Vec<Vec<Ins>> = vec![];
        for &count in &self.counts {
            let ins = |_| {
                let register = own();
                if rng.chance(jumping) {
                    let to = rng.pick(&heads);
                    return jump(rng, to, register);
                }
                let fields = [register, 0, 0];
                Ins { op: op::IncNum, fields }
            };
            code.push((0..count).map(ins).collect());
        }
        for &(from, to) in &self.jumps {
            let at = rng.below(code[from].len() + 1);
            let ins = jump(rng, to, own());
            code[from].insert(at, ins);
        }
        let sections = code.into_iter().zip(&self.next).enumerate();
        Machine {
            lines: self.lines,
            sections: sections
                .map(|(i, (code, &next))| Sect {
                    start: i < self.lines,
                    next,
                    code,
                })
                .collect(),
            numbers: vec![0; usize::from(numbers).max(1)],
            names: vec![],
            strings: vec![],
            pool: vec![],
            values: 0,
        }
    }
}

fn lines(rng: &mut Rng, layout: Layout) -> usize {
    match layout {
        Layout::Lines => 2 + rng.below(12),
        _ if rng.chance(60) => 1,
        _ => 1 + rng.below(4),
    }
}

/// Chains that nothing breaks: a machine, and how many there are.
#[cfg(test)]
pub fn unbroken(rng: &mut Rng, layout: Layout) -> (Machine, usize) {
    let lines = lines(rng, layout);
    let sections = lines + 1 + rng.below(40);
    let plan = layout.plan(rng, lines, sections);
    let heads = (0..plan.chain.len()).filter(|&i| plan.is_head(i)).count();
    (plan.machine(rng, 20), heads)
}

/// Words behind the counted ones, now and then many.
fn lent(rng: &mut Rng, machine: &Machine) -> Case {
    let (counts, mut tables) = lend(rng, machine);
    if rng.chance(10) {
        tables.sections.extend((0..rng.below(300)).map(|_| rng.next()));
        tables.instrs.extend((0..rng.below(300)).map(|_| rng.next()));
    }
    (Op::Combine, counts, tables)
}

/// Chains with some twists; one machine in eight has a link back, and is refused.
pub fn case(rng: &mut Rng, layout: Layout) -> Case {
    let lines = lines(rng, layout);
    let more = if rng.chance(80) { 12 } else { 60 };
    let sections = lines + 1 + rng.below(more);
    let mut plan = layout.plan(rng, lines, sections);
    for _ in 0..rng.pick(&[0, 0, 1, 2, 4]) {
        let twist = rng.pick(&TWISTS);
        plan.twist(rng, twist);
    }
    if rng.chance(13) {
        plan.twist(rng, Twist::Back);
    }
    let jumping = rng.pick(&[0, 10, 40]);
    let machine = plan.machine(rng, jumping);
    lent(rng, &machine)
}

/// The layouts in turn.
pub fn cases(seed: u64, count: usize) -> Vec<Case> {
    let mut rng = Rng::new(seed);
    let layouts = Layout::ALL.into_iter().cycle().take(count);
    layouts.map(|layout| case(&mut rng, layout)).collect()
}

/// So many sections, and so many instructions among them: what a tree can have or is estimated to, and what can be counted.
const LONG: [(usize, usize); 10] = [
    (4_351, 11_263),
    (8_447, 18_432),
    (8_447, 18_433),
    (8_448, 8_448),
    (18_432, 18_432),
    (40, 16_384),
    (40, 18_431),
    (40, 18_433),
    (9, 65_534),
    (9, 65_535),
];

/// And powers of two, and about as many.
fn long_tables() -> Vec<(usize, usize)> {
    let about = |power: u32| {
        let n = 1 << power;
        [(n - 1, n), (n, n), (n, n + 1), (n + 1, n), (12, n + 1)]
    };
    (6..=12).flat_map(about).chain(LONG).collect()
}

/// Machines with long tables: yogi takes seconds for the longest.
pub fn long(rng: &mut Rng) -> Vec<Case> {
    let mut out = vec![];
    for (i, (sections, instructions)) in long_tables().into_iter().enumerate() {
        let layout = [Layout::Crossing, Layout::Through, Layout::Nested][i % 3];
        let mut plan = layout.plan(rng, 1, sections);
        plan.counts.fill(instructions / sections);
        let rest = rng.below(sections);
        plan.counts[rest] += instructions % sections;
        let machine = plan.machine(rng, 1);
        out.push(lent(rng, &machine));
    }
    out
}
