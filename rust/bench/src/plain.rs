//! The mark to come near: size, lower and finish in plain Rust, written for speed, from the same bytes to the same lent words. Nothing of it is
//! proved; `bench check` holds it to the judge.

use oracle::machine::op;
use sezkibalo::raw::Lent;
use sezkibalo::{CodegenOptions, Counts, Refusal, Size};

const MOST_BYTES: usize = 32_768;
const MOST_DEPTH: u32 = 64;
const MOST_NODES: usize = 2_048;
const MARK: u16 = 65_535;

/// Kinds of nodes: statements, then expressions.
const GOTO: u8 = 0;
const ITE: u8 = 1;
const INCDEC: u8 = 2;
const ASSIGN: u8 = 3;
const E_BINOP: u8 = 4;
const E_UNOP: u8 = 5;
const E_INCDEC: u8 = 6;
const E_IDENT: u8 = 7;
const E_NUMBER: u8 = 8;
const E_STRING: u8 = 9;

/// A node; its first child follows it. `other` is a Binop's right operand or an Ite's then-list, `last` an Ite's else-list.
#[derive(Clone, Copy)]
struct Node {
    kind: u8,
    /// operator, inc, or the length of a string or of a then-list
    small: u8,
    /// name, or the length of an else-list
    name: u8,
    other: u16,
    last: u16,
    /// behind the node and all inside
    end: u16,
    /// a number, or the bit position of a text
    value: i64,
}

const NO_NODE: Node = Node { kind: 0, small: 0, name: 0, other: 0, last: 0, end: 0, value: 0 };

/// A lowered section.
#[derive(Clone, Copy)]
struct Sect {
    first: u32,
    count: u32,
    line: bool,
    start: bool,
    target: u16,
}

impl Sect {
    fn word(self, target: u16, first: usize, count: usize) -> u64 {
        u64::from(self.start) << 63 | u64::from(self.line) << 62 | u64::from(target) << 46 | (first as u64) << 30 | (count as u64) << 14
    }

    fn unfixed(self) -> bool {
        !self.line && self.target == MARK
    }
}

/// Room that is kept from call to call.
#[derive(Default)]
pub struct Plain {
    /// the file and eight zero bytes
    bytes: Vec<u8>,
    bits: usize,
    at: usize,
    names: Vec<(bool, usize, usize)>,
    nodes: Vec<Node>,
    /// of each line the first node and how many statements
    lines: Vec<(u16, u8)>,
    size: Size,
    registers: Vec<u16>,
    code: Vec<u64>,
    sects: Vec<Sect>,
    numbers: u16,
    strings: u16,
    characters: usize,
    values: u16,
    error_line: u64,
    kept: Vec<u16>,
    references: Vec<u16>,
    heads: Vec<u16>,
}

type Read<T> = Result<T, Refusal>;

// ---- reading

impl Plain {
    /// A field of at most 57 bits.
    #[inline(always)]
    fn field(&mut self, width: usize) -> Read<u64> {
        if self.at + width > self.bits {
            return Err(Refusal::Ends);
        }
        let value = peek(&self.bytes, self.at, width);
        self.at += width;
        Ok(value)
    }

    fn file(&mut self, tree: &[u8]) -> Read<()> {
        if tree.len() > MOST_BYTES {
            return Err(Refusal::TooLong);
        }
        self.bytes.clear();
        self.bytes.extend_from_slice(tree);
        self.bytes.extend_from_slice(&[0; 8]);
        self.bits = 8 * tree.len();
        self.at = 0;
        self.names.clear();
        self.nodes.clear();
        self.lines.clear();
        self.size = Size::default();
        if self.field(8)? != 1 {
            return Err(Refusal::Form);
        }
        self.size.lines = self.field(8)? as usize;
        if self.size.lines == 0 {
            return Err(Refusal::NoLines);
        }
        self.size.names = self.field(8)? as usize;
        for _ in 0..self.size.names {
            self.name_of_table()?;
        }
        for _ in 0..self.size.lines {
            let first = self.nodes.len() as u16;
            let count = self.list(1)?;
            self.lines.push((first, count));
        }
        let left = self.bits - self.at;
        if left >= 8 || peek(&self.bytes, self.at, left) != 0 {
            return Err(Refusal::Left);
        }
        self.size.nodes = self.nodes.len();
        Ok(())
    }

    fn name_of_table(&mut self) -> Read<()> {
        let global = self.field(1)? == 1;
        let length = self.field(6)? as usize + 1;
        let from = self.at;
        if from + 7 * length > self.bits {
            return Err(Refusal::Ends);
        }
        self.at += 7 * length;
        let letter = |at: usize| (peek(&self.bytes, at, 7) as u8).to_ascii_lowercase();
        for &(g, f, l) in &self.names {
            if g == global && l == length && (0..length).all(|i| letter(f + 7 * i) == letter(from + 7 * i)) {
                return Err(Refusal::SameNames);
            }
        }
        self.names.push((global, from, length));
        Ok(())
    }

    /// Before a node's bits: its depth, then its number.
    #[inline(always)]
    fn begin(&mut self, depth: u32) -> Read<usize> {
        if depth > MOST_DEPTH {
            return Err(Refusal::TooDeep);
        }
        let i = self.nodes.len();
        if i == MOST_NODES {
            return Err(Refusal::TooManyNodes);
        }
        self.nodes.push(NO_NODE);
        Ok(i)
    }

    #[inline(always)]
    fn name(&mut self) -> Read<u8> {
        let name = self.field(8)?;
        if name as usize >= self.size.names {
            return Err(Refusal::NoName);
        }
        Ok(name as u8)
    }

    #[inline(always)]
    fn operator(&mut self, width: usize, assigned: u64) -> Read<u8> {
        let operator = self.field(width)?;
        if operator >= assigned {
            return Err(Refusal::Unassigned);
        }
        Ok(operator as u8)
    }

    fn list(&mut self, depth: u32) -> Read<u8> {
        let count = self.field(6)? as u8;
        for _ in 0..count {
            self.stmt(depth)?;
        }
        Ok(count)
    }

    fn stmt(&mut self, depth: u32) -> Read<()> {
        let i = self.begin(depth)?;
        self.size.statements += 1;
        let mut node = NO_NODE;
        node.kind = self.field(2)? as u8;
        match node.kind {
            GOTO => self.expr(depth + 1)?,
            ITE => {
                self.expr(depth + 1)?;
                node.other = self.nodes.len() as u16;
                node.small = self.list(depth + 1)?;
                node.last = self.nodes.len() as u16;
                node.name = self.list(depth + 1)?;
            }
            INCDEC => {
                node.small = self.field(1)? as u8;
                node.name = self.name()?;
            }
            _ => {
                node.name = self.name()?;
                node.small = self.operator(3, 7)?;
                self.expr(depth + 1)?;
            }
        }
        node.end = self.nodes.len() as u16;
        self.nodes[i] = node;
        Ok(())
    }

    fn expr(&mut self, depth: u32) -> Read<()> {
        let i = self.begin(depth)?;
        let mut node = NO_NODE;
        node.kind = 4 + self.field(3)? as u8;
        match node.kind {
            E_BINOP => {
                node.small = self.operator(4, 14)?;
                self.expr(depth + 1)?;
                node.other = self.nodes.len() as u16;
                self.expr(depth + 1)?;
            }
            E_UNOP => {
                node.small = self.operator(4, 11)?;
                self.expr(depth + 1)?;
            }
            E_INCDEC => {
                node.small = self.field(1)? as u8;
                node.name = self.name()?;
            }
            E_IDENT => node.name = self.name()?,
            E_NUMBER => {
                if self.at + 64 > self.bits {
                    return Err(Refusal::Ends);
                }
                node.value = (self.field(32)? << 32 | self.field(32)?) as i64;
            }
            E_STRING => {
                node.small = self.field(7)? as u8;
                node.value = self.at as i64;
                if self.at + 7 * usize::from(node.small) > self.bits {
                    return Err(Refusal::Ends);
                }
                self.at += 7 * usize::from(node.small);
                self.size.strings += 1;
                self.size.characters += usize::from(node.small);
            }
            _ => return Err(Refusal::Unassigned),
        }
        node.end = self.nodes.len() as u16;
        self.nodes[i] = node;
        Ok(())
    }

    pub fn size(&mut self, tree: &[u8]) -> Read<Size> {
        self.file(tree)?;
        Ok(self.size)
    }
}

/// So many bits from a place on, at most 57; there are eight bytes behind the file.
#[inline(always)]
fn peek(bytes: &[u8], at: usize, width: usize) -> u64 {
    if width == 0 {
        return 0;
    }
    let eight: [u8; 8] = bytes[at / 8..at / 8 + 8].try_into().unwrap();
    u64::from_be_bytes(eight) << (at % 8) >> (64 - width)
}

// ---- lowering

impl Plain {
    #[inline(always)]
    fn put(&mut self, op: u8, a: u16, b: u16, c: u16) {
        self.code.push(u64::from(op) << 58 | u64::from(a) << 42 | u64::from(b) << 26 | u64::from(c) << 10);
    }

    #[inline(always)]
    fn error_jump(&mut self) {
        self.code.push(u64::from(op::JumpIfError) << 58 | self.error_line << 42);
    }

    #[inline(always)]
    fn number(&mut self, lent: &mut Lent, n: i64) -> u16 {
        lent.numbers[usize::from(self.numbers)] = n;
        self.numbers += 1;
        self.numbers - 1
    }

    #[inline(always)]
    fn value(&mut self) -> u16 {
        self.values += 1;
        self.values - 1
    }

    fn numberify(&mut self, lent: &mut Lent, v: u16) -> u16 {
        let n = self.number(lent, 0);
        self.put(op::NumberifyVal, v, n, 0);
        self.error_jump();
        n
    }

    fn truthy(&mut self, lent: &mut Lent, v: u16) -> u16 {
        let n = self.number(lent, 0);
        self.put(op::IsTruthyVal, v, n, 0);
        n
    }

    fn valueify(&mut self, n: u16) -> u16 {
        let v = self.value();
        self.put(op::ValueifyNum, n, v, 0);
        v
    }

    fn variable(&mut self, name: u8) -> u16 {
        let register = self.registers[usize::from(name)];
        if register != MARK {
            return register;
        }
        let v = self.value();
        self.registers[usize::from(name)] = v;
        v
    }

    fn incdec(&mut self, node: Node) -> u16 {
        let v = self.variable(node.name);
        self.put(if node.small == 1 { op::IncVal } else { op::DecVal }, v, 0, 0);
        self.error_jump();
        v
    }

    fn copied(&mut self, lent: &mut Lent, i: usize) -> u16 {
        let v = self.lower_expr(lent, i);
        let to = self.value();
        self.put(op::CopyVal, v, to, 0);
        to
    }

    fn lower_expr(&mut self, lent: &mut Lent, i: usize) -> u16 {
        let node = self.nodes[i];
        match node.kind {
            E_BINOP => {
                let r = self.copied(lent, usize::from(node.other));
                let l = self.copied(lent, i + 1);
                self.binop(lent, node.small, l, r)
            }
            E_UNOP => {
                let v = self.copied(lent, i + 1);
                self.unop(lent, node.small, v)
            }
            E_INCDEC => self.incdec(node),
            E_IDENT => self.variable(node.name),
            E_NUMBER => {
                let n = self.number(lent, node.value);
                self.valueify(n)
            }
            _ => self.string(lent, node),
        }
    }

    fn string(&mut self, lent: &mut Lent, node: Node) -> u16 {
        let (from, length) = (node.value as usize, usize::from(node.small));
        for k in 0..length {
            lent.pool[self.characters + k] = peek(&self.bytes, from + 7 * k, 7) as u8;
        }
        lent.strings[usize::from(self.strings)] = (self.characters as u32) << 16 | (length as u32) << 9;
        self.characters += length;
        let s = self.strings;
        self.strings += 1;
        let v = self.value();
        self.put(op::ValueifyStr, s, v, 0);
        v
    }

    fn arith(&mut self, lent: &mut Lent, op: u8, l: u16, r: u16) -> u16 {
        let r = self.numberify(lent, r);
        let l = self.numberify(lent, l);
        self.put(op, l, r, 0);
        if op == op::Div || op == op::Rem {
            self.error_jump();
        }
        self.valueify(l)
    }

    fn compare(&mut self, lent: &mut Lent, op: u8, l: u16, r: u16, not: bool) -> u16 {
        let n = self.number(lent, 0);
        self.put(op, l, r, n);
        if not {
            self.put(op::NotNum, n, 0, 0);
        }
        self.valueify(n)
    }

    fn binop(&mut self, lent: &mut Lent, binop: u8, l: u16, r: u16) -> u16 {
        match binop {
            0 | 1 => {
                let r = self.truthy(lent, r);
                let l = self.truthy(lent, l);
                self.put(if binop == 0 { op::And } else { op::Or }, l, r, 0);
                self.valueify(l)
            }
            2 | 3 => {
                self.put(if binop == 2 { op::AddVal } else { op::SubVal }, l, r, 0);
                l
            }
            4..=7 => self.arith(lent, [op::Mul, op::Div, op::Rem, op::Pow][usize::from(binop) - 4], l, r),
            8 | 9 => self.compare(lent, op::Eq, l, r, binop == 9),
            10 => self.compare(lent, op::Le, l, r, false),
            11 => self.compare(lent, op::Lt, l, r, false),
            12 => self.compare(lent, op::Le, r, l, false),
            _ => self.compare(lent, op::Lt, r, l, false),
        }
    }

    fn unop(&mut self, lent: &mut Lent, unop: u8, v: u16) -> u16 {
        const OPS: [u8; 11] = [
            op::Neg, op::NotVal, op::Abs, op::Sqrt, op::Fact, op::Sin, op::Cos, op::Tan, op::Asin, op::Acos, op::Atan,
        ];
        let n = if unop == 1 {
            let n = self.number(lent, 0);
            self.put(op::NotVal, v, n, 0);
            n
        } else {
            let n = self.numberify(lent, v);
            self.put(OPS[usize::from(unop)], n, 0, 0);
            n
        };
        self.valueify(n)
    }

    /// Duplicate operands are replaced as they come: in a lowered machine they come from assignments alone.
    fn assign(&mut self, lent: &mut Lent, i: usize, node: Node) {
        let e = self.lower_expr(lent, i + 1);
        let x = self.variable(node.name);
        match node.small {
            0 if e == x => (),
            0 => self.put(op::CopyVal, e, x, 0),
            1 if e == x => self.put(op::AddSelfVal, x, 0, 0),
            1 => self.put(op::AddVal, x, e, 0),
            2 if e == x => self.put(op::SubSelfVal, x, 0, 0),
            2 => self.put(op::SubVal, x, e, 0),
            other => {
                let out = self.arith(lent, [op::Mul, op::Div, op::Rem, op::Pow][usize::from(other) - 3], x, e);
                self.put(op::CopyVal, out, x, 0);
            }
        }
    }

    fn new_section(&mut self, start: bool) -> u16 {
        let first = self.code.len() as u32;
        self.sects.push(Sect { first, count: 0, line: false, start, target: MARK });
        self.sects.len() as u16 - 1
    }

    fn close(&mut self, section: u16) {
        let sect = &mut self.sects[usize::from(section)];
        sect.count = self.code.len() as u32 - sect.first;
    }

    /// The section that the statement ends in, unless it is a goto.
    fn lower_stmt(&mut self, lent: &mut Lent, i: usize, start: bool) -> (u16, Option<u16>) {
        let section = self.new_section(start);
        let node = self.nodes[i];
        let end = match node.kind {
            GOTO => {
                let v = self.lower_expr(lent, i + 1);
                let n = self.numberify(lent, v);
                self.close(section);
                let sect = &mut self.sects[usize::from(section)];
                (sect.line, sect.target) = (true, n);
                None
            }
            ITE => Some(self.ite(lent, section, i, node)),
            INCDEC => {
                self.incdec(node);
                self.close(section);
                Some(section)
            }
            _ => {
                debug_assert_eq!(node.kind, ASSIGN);
                self.assign(lent, i, node);
                self.close(section);
                Some(section)
            }
        };
        (section, end)
    }

    fn ite(&mut self, lent: &mut Lent, section: u16, i: usize, node: Node) -> u16 {
        let v = self.lower_expr(lent, i + 1);
        let n = self.truthy(lent, v);
        if node.small > 0 {
            self.put(op::JumpSectionIf, self.sects.len() as u16, n, 0);
        }
        self.close(section);
        let then_end = match self.lower_list(lent, usize::from(node.other), node.small, false) {
            Some((_, end)) => end,
            None => Some(self.new_section(false)),
        };
        let (else_start, else_end) = self.lower_list(lent, usize::from(node.last), node.name, false).unwrap_or_else(|| {
            let empty = self.new_section(false);
            (empty, Some(empty))
        });
        self.sects[usize::from(section)].target = else_start;
        let join = self.new_section(false);
        for end in [then_end, else_end].into_iter().flatten() {
            self.sects[usize::from(end)].target = join;
        }
        join
    }

    /// The first section, and the last unless a goto stands before it.
    fn lower_list(&mut self, lent: &mut Lent, mut i: usize, count: u8, start: bool) -> Option<(u16, Option<u16>)> {
        let mut list: Option<(u16, Option<u16>)> = None;
        for k in 0..count {
            let (first, end) = self.lower_stmt(lent, i, start && k == 0);
            list = match list {
                None => Some((first, end)),
                Some((head, Some(last))) => {
                    self.sects[usize::from(last)].target = first;
                    Some((head, end))
                }
                stopped => stopped,
            };
            i = usize::from(self.nodes[i].end);
        }
        list
    }

    /// All lines; sections and code are in `self`, the other tables in what is lent.
    fn program(&mut self, lent: &mut Lent) {
        self.code.clear();
        self.sects.clear();
        self.registers.clear();
        self.registers.resize(self.size.names, MARK);
        (self.numbers, self.strings, self.characters, self.values) = (0, 0, 0, 0);
        let lines = self.size.lines;
        for _ in 0..lines {
            self.new_section(true);
        }
        for line in 0..lines {
            let after = if line + 1 == lines { 0 } else { line as u16 + 1 };
            self.error_line = after.into();
            let (first, count) = self.lines[line];
            if let Some((start, end)) = self.lower_list(lent, first.into(), count, true) {
                if let Some(end) = end {
                    self.sects[usize::from(end)].target = after;
                }
                self.sects.swap(line, start.into());
            }
            if self.sects[line].unfixed() {
                self.sects[line].target = after;
            }
        }
    }

    fn begin_build(&mut self, tree: &[u8], lent: &Lent) -> Read<Counts> {
        self.file(tree)?;
        let need = self.size.estimate();
        let holds = lent.sections.len() >= need.sections
            && lent.instructions.len() >= need.instructions
            && lent.numbers.len() >= need.numbers
            && lent.strings.len() >= need.strings
            && lent.pool.len() >= need.characters
            && lent.names.len() >= need.names;
        if holds {
            Ok(need)
        } else {
            Err(Refusal::NoRoom)
        }
    }

    fn end_build(&mut self, options: CodegenOptions, lent: &mut Lent, need: &Counts, sections: usize, instructions: usize) -> Counts {
        for (i, &(global, _, _)) in self.names.iter().enumerate() {
            let protected = if global { options.protect_globals } else { options.protect_locals };
            lent.names[i] = if protected { self.registers[i] } else { MARK };
        }
        lent.sections[sections..need.sections].fill(0);
        lent.instructions[instructions..need.instructions].fill(0);
        lent.numbers[usize::from(self.numbers)..need.numbers].fill(0);
        Counts { sections, instructions, numbers: self.numbers.into(), values: self.values.into(), ..*need }
    }

    pub fn lower(&mut self, tree: &[u8], options: CodegenOptions, mut lent: Lent) -> Read<Counts> {
        let need = self.begin_build(tree, &lent)?;
        self.program(&mut lent);
        let mut reached = 0;
        for (i, sect) in self.sects.iter().enumerate() {
            let (first, count) = (sect.first as usize, sect.count as usize);
            lent.sections[i] = sect.word(sect.target, reached, count);
            lent.instructions[reached..reached + count].copy_from_slice(&self.code[first..first + count]);
            reached += count;
        }
        let sections = self.sects.len();
        Ok(self.end_build(options, &mut lent, &need, sections, reached))
    }
}

// ---- cleaning and combining

impl Plain {
    /// Of each lowered section its number among the kept ones; how many are kept, and of each kept one how often it is referred to.
    fn clean(&mut self) -> usize {
        self.kept.clear();
        let mut count = 0;
        for sect in &self.sects {
            count += u16::from(!sect.unfixed());
            self.kept.push(count.wrapping_sub(1));
        }
        self.references.clear();
        self.references.resize(count.into(), 0);
        for sect in self.sects.iter().filter(|sect| !sect.unfixed()) {
            if !sect.line {
                self.references[usize::from(self.kept[usize::from(sect.target)])] += 1;
            }
            for word in &self.code[sect.first as usize..(sect.first + sect.count) as usize] {
                if word >> 58 <= u64::from(op::JumpIfError) {
                    self.references[usize::from(self.kept[usize::from((word >> 42) as u16)])] += 1;
                }
            }
        }
        count.into()
    }

    /// Which section is joined behind this one, if any: numbers as kept.
    #[inline(always)]
    fn mate(&self, at: usize, sect: Sect) -> Option<usize> {
        if sect.line {
            return None;
        }
        let target = usize::from(self.kept[usize::from(sect.target)]);
        (target != at && target >= self.size.lines && self.references[target] == 1).then_some(target)
    }

    pub fn finish(&mut self, tree: &[u8], options: CodegenOptions, mut lent: Lent) -> Read<Counts> {
        let need = self.begin_build(tree, &lent)?;
        self.program(&mut lent);
        let count = self.clean();
        let mut sects = std::mem::take(&mut self.sects);
        sects.retain(|sect| !sect.unfixed());
        // a section that is joined to another has no number of its own
        self.heads.clear();
        self.heads.resize(count, 0);
        for (at, &sect) in sects.iter().enumerate() {
            if let Some(mate) = self.mate(at, sect) {
                self.heads[mate] = MARK;
            }
        }
        let mut left = 0;
        for head in &mut self.heads {
            if *head != MARK {
                *head = left;
                left += 1;
            }
        }
        let reached = self.write_joined(&sects, &mut lent);
        self.sects = sects;
        Ok(self.end_build(options, &mut lent, &need, left.into(), reached))
    }

    fn write_joined(&self, sects: &[Sect], lent: &mut Lent) -> usize {
        let number = |target: u16| self.heads[usize::from(self.kept[usize::from(target)])];
        let mut reached = 0;
        for (at, &sect) in sects.iter().enumerate() {
            if self.heads[at] == MARK {
                continue;
            }
            let from = reached;
            let mut last = (at, sect);
            loop {
                let (first, count) = (last.1.first as usize, last.1.count as usize);
                for &word in &self.code[first..first + count] {
                    let target = (word >> 42) as u16;
                    let moved = if word >> 58 == 0 { word & !(0xffff << 42) | u64::from(number(target)) << 42 } else { word };
                    lent.instructions[reached] = moved;
                    reached += 1;
                }
                match self.mate(last.0, last.1) {
                    Some(mate) => last = (mate, sects[mate]),
                    None => break,
                }
            }
            let target = if last.1.line { last.1.target } else { number(last.1.target) };
            let word = Sect { start: sect.start, ..last.1 }.word(target, from, reached - from);
            lent.sections[usize::from(self.heads[at])] = word;
        }
        reached
    }
}
