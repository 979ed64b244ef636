//! Valid trees at random, with the fixed ones between them.

use super::fixed;
use crate::limits::*;
use crate::rng::Rng;
use crate::tree::{encode, Expr, Name, Size, Stmt, Tree};

/// Grows statements and expressions until the nodes asked for are spent.
struct Growth<'a> {
    rng: &'a mut Rng,
    names: usize,
    left: usize,
}

const NUMBERS: [i64; 10] = [
    0,
    1,
    -1,
    1_000,
    -1_000,
    999,
    i64::MAX,
    i64::MIN,
    i64::MAX - 807,
    0x5555_5555_5555_5555,
];

impl Growth<'_> {
    fn spend(&mut self) {
        self.left = self.left.saturating_sub(1);
    }

    fn name(&mut self) -> u8 {
        self.rng.below(self.names) as u8
    }

    fn number(&mut self) -> i64 {
        match self.rng.below(3) {
            0 => self.rng.pick(&NUMBERS),
            1 => 1_000 * self.rng.below(30) as i64,
            _ => self.rng.next() as i64,
        }
    }

    fn string(&mut self) -> Vec<u8> {
        let length = match self.rng.below(10) {
            0 | 1 => 0,
            2 => self.rng.below(MOST_STRING + 1),
            _ => 1 + self.rng.below(5),
        };
        (0..length).map(|_| self.rng.below(128) as u8).collect()
    }

    fn leaf(&mut self) -> Expr {
        let choice = if self.names == 0 {
            70 + self.rng.below(30)
        } else {
            self.rng.below(100)
        };
        match choice {
            0..=44 => Expr::Ident(self.name()),
            45..=69 => Expr::Incdec(self.rng.chance(50), self.name()),
            70..=86 => Expr::Number(self.number()),
            _ => Expr::String(self.string()),
        }
    }

    fn expr(&mut self, depth: usize) -> Expr {
        self.spend();
        if depth >= MOST_DEPTH || self.left == 0 || self.rng.chance(45) {
            return self.leaf();
        }
        if self.rng.chance(65) {
            let op = self.rng.below(BINOPS.into()) as u8;
            let left = self.expr(depth + 1);
            let right = if self.rng.chance(15) && matches!(left, Expr::Ident(_)) {
                self.spend();
                left.clone()
            } else {
                self.expr(depth + 1)
            };
            Expr::Binop(op, left.into(), right.into())
        } else {
            Expr::Unop(self.rng.below(UNOPS.into()) as u8, self.expr(depth + 1).into())
        }
    }

    fn assign(&mut self, depth: usize) -> Stmt {
        let name = self.name();
        let op = if self.rng.chance(40) {
            0
        } else {
            self.rng.below(ASSIGNS.into()) as u8
        };
        let expr = match self.rng.below(6) {
            0 => Expr::Ident(name),
            1 => Expr::Incdec(self.rng.chance(50), name),
            _ => return Stmt::Assign(name, op, self.expr(depth + 1)),
        };
        self.spend();
        Stmt::Assign(name, op, expr)
    }

    fn branch(&mut self, depth: usize) -> Vec<Stmt> {
        let most = if self.rng.chance(35) { 0 } else { 1 + self.rng.below(3) };
        self.list(depth, most)
    }

    fn stmt(&mut self, depth: usize) -> Stmt {
        self.spend();
        let choice = if self.names == 0 {
            self.rng.below(45)
        } else {
            self.rng.below(100)
        };
        match choice {
            0..=14 => Stmt::Goto(self.expr(depth + 1)),
            15..=44 => {
                let condition = self.expr(depth + 1);
                let then = self.branch(depth + 1);
                Stmt::Ite(condition, then, self.branch(depth + 1))
            }
            45..=57 => Stmt::Incdec(self.rng.chance(50), self.name()),
            _ => self.assign(depth),
        }
    }

    fn list(&mut self, depth: usize, most: usize) -> Vec<Stmt> {
        let mut list = vec![];
        // a statement needs room for an expression below it
        while list.len() < most.min(MOST_STATEMENTS) && self.left > 0 && depth < MOST_DEPTH {
            list.push(self.stmt(depth));
        }
        list
    }
}

fn one_name(rng: &mut Rng) -> Name {
    let length = match rng.below(20) {
        0 => 1 + rng.below(MOST_NAME),
        1 => MOST_NAME,
        2..=9 => 2 + rng.below(2),
        _ => 1,
    };
    // few characters, among them those next to the letters, so that names differ in flag or one character only
    let text = (0..length).map(|_| {
        if rng.chance(3) {
            rng.below(128) as u8
        } else {
            rng.pick(b"aaAAbzZ@`[{")
        }
    });
    Name {
        text: text.collect(),
        global: rng.chance(50),
    }
}

/// What upper and lower case differ in, and other characters too.
const CASE_BIT: u8 = 0x20;

/// Letters in the other case, here and there.
pub fn respell(rng: &mut Rng, name: &mut Name) {
    for c in &mut name.text {
        if c.is_ascii_alphabetic() && rng.chance(50) {
            *c ^= CASE_BIT;
        }
    }
}

/// Names of which no two are the same.
pub fn names(rng: &mut Rng, most: usize) -> Vec<Name> {
    let mut names: Vec<Name> = vec![];
    for _ in 0..most {
        let mut name = one_name(rng);
        if let Some(last) = names.last().filter(|_| rng.chance(30)) {
            name = last.clone();
            match rng.below(3) {
                0 => name.global ^= true,
                1 => name.text[0] ^= CASE_BIT,
                _ => *name.text.last_mut().unwrap() ^= 1,
            }
            respell(rng, &mut name);
        }
        if !name.among(&names) {
            names.push(name);
        }
    }
    names
}

fn line_count(rng: &mut Rng) -> usize {
    match rng.below(40) {
        0..=19 => 1,
        20..=34 => 2 + rng.below(3),
        35..=38 => 5 + rng.below(16),
        _ => 1 + rng.below(MOST_LINES),
    }
}

/// A valid tree of about so many nodes.
pub fn tree(rng: &mut Rng, nodes: usize) -> Tree {
    let most = if rng.chance(5) { 0 } else { 1 + rng.below(6) };
    let names = names(rng, most);
    let count = line_count(rng).min(1 + nodes / 2 + rng.below(4)).min(MOST_LINES);
    let mut growth = Growth {
        rng,
        names: names.len(),
        left: nodes,
    };
    let mut lines = vec![];
    for i in 0..count {
        let most = match growth.rng.below(8) {
            _ if i + 1 == count => MOST_STATEMENTS,
            0 | 1 => 0,
            _ => 1 + growth.rng.below(5),
        };
        lines.push(growth.list(1, most));
    }
    Tree { names, lines }
}

fn nodes(rng: &mut Rng) -> usize {
    match rng.below(100) {
        0..=39 => 1 + rng.below(8),
        40..=74 => 8 + rng.below(16),
        75..=94 => 24 + rng.below(40),
        95..=98 => 64 + rng.below(340),
        _ => 400 + rng.below(1_500),
    }
}

/// A random valid tree of at most so many bytes.
pub fn sized(rng: &mut Rng, most_bytes: usize) -> (Tree, Vec<u8>) {
    loop {
        let nodes = nodes(rng).min(most_bytes);
        let tree = tree(rng, nodes);
        let bytes = encode(&tree);
        if Size::of(&tree).nodes <= MOST_NODES && bytes.len() <= most_bytes.min(MOST_BYTES) {
            return (tree, bytes);
        }
    }
}

/// The fixed trees, one on every second line until they run out, and random ones.
pub fn files(seed: u64, count: usize, most_bytes: usize) -> Vec<Vec<u8>> {
    let mut rng = Rng::new(seed);
    let mut fixed = fixed::trees()
        .into_iter()
        .map(|tree| encode(&tree))
        .filter(|bytes| bytes.len() <= most_bytes);
    (0..count)
        .map(|i| match if i % 2 == 0 { fixed.next() } else { None } {
            Some(bytes) => bytes,
            None => sized(&mut rng, most_bytes).1,
        })
        .collect()
}
