//! Takes yogi's text from the folder YOGI_SRC and puts it together in OUT_DIR as modules of this
//! crate. Whole files, or stretches between two markers, always word for word. A marker that is
//! not found stops the build.

use std::fmt::Write;
use std::path::{Path, PathBuf};
use std::{env, fs};

const DEFAULT_SOURCE: &str = "../../shared/docs/src";
const OPCODES: usize = 53;

struct Source {
    name: &'static str,
    text: String,
}

impl Source {
    fn read(root: &Path, name: &'static str) -> Self {
        let path = root.join(name);
        println!("cargo:rerun-if-changed={}", path.display());
        let text = fs::read_to_string(&path)
            .unwrap_or_else(|e| panic!("yogi's file {} cannot be read: {e}; set YOGI_SRC", path.display()));
        Source { name, text }
    }

    fn find(&self, marker: &str, after: usize) -> usize {
        let found = self.text[after..].find(marker);
        after + found.unwrap_or_else(|| panic!("marker {marker:?} is not in yogi's {}", self.name))
    }

    /// From the marker `from` to just before the marker `to`.
    fn take(&self, from: &str, to: &str) -> &str {
        let start = self.find(from, 0);
        let again = self.text[start + from.len()..].find(from);
        assert!(again.is_none(), "marker {from:?} is twice in yogi's {}", self.name);
        &self.text[start..self.find(to, start + from.len())]
    }

    /// From the start of the file to just before the marker `to`.
    fn head(&self, to: &str) -> &str {
        &self.text[..self.find(to, 0)]
    }

    /// From the marker `from` to the end of the file.
    fn tail(&self, from: &str) -> &str {
        &self.text[self.find(from, 0)..]
    }
}

fn number(source: &Source) -> String {
    // yogi's derives name crates that are not here: std's take their place
    let mut out = String::from("#[derive(Debug, Copy, Clone, PartialEq, Eq, Hash, PartialOrd, Ord, Default)]\n");
    out += source.take("pub struct Number(pub i64);", "impl Number {");
    out += source.take("impl Number {", "    pub(super) const SCALE_F32");
    out += source.take("    pub const ONE: Number", "    pub(super) const MAX_VAL_F64");
    out += "}\n";
    out += source.take("impl From<i64> for Number {", "impl From<f64> for Number");
    out
}

fn ystring(source: &Source) -> String {
    let mut out = String::from(source.head("impl YString {"));
    out += source.take("impl Clone for YString {", "impl AddAssign");
    out += source.tail("impl Debug for YString {");
    out
}

/// The tree types, and an assigning operator as a binary one.
fn parser(source: &Source) -> String {
    let mut out = String::from("use derive_more::{Deref, DerefMut};\nuse arith::{Number, YString};\nuse super::*;\n");
    let types = [
        (
            "#[derive(Debug, PartialEq, Eq, Clone, Hash)]\npub struct Ident {",
            "impl Ident {",
        ),
        (
            "#[derive(Debug, Copy, PartialEq, Eq, Clone)]\npub enum Binop {",
            "impl Binop {",
        ),
        (
            "impl From<AssignOp> for Binop {",
            "#[derive(Debug, Copy, PartialEq, Eq, Clone)]\npub enum Unop {",
        ),
        (
            "#[derive(Debug, Copy, PartialEq, Eq, Clone)]\npub enum Unop {",
            "impl Unop {",
        ),
        (
            "#[derive(Debug, PartialEq, Eq, Clone)]\npub struct Incdec {",
            "impl Incdec {",
        ),
        ("#[derive(Debug, PartialEq, Eq, Clone)]\npub enum Expr {", "impl Expr {"),
        (
            "#[derive(Debug, Copy, PartialEq, Eq, Clone)]\npub enum AssignOp {",
            "impl AssignOp {",
        ),
        (
            "#[derive(Debug, PartialEq, Eq, Clone)]\npub enum Statement {",
            "impl Statement {",
        ),
        (
            "#[derive(Debug, PartialEq, Eq, Clone, Default, Deref, DerefMut)]\npub struct Line {",
            "impl Line {",
        ),
        (
            "#[derive(Debug, PartialEq, Eq, Clone, Deref, DerefMut)]\npub struct Program {",
            "impl Default for Program",
        ),
    ];
    for (from, to) in types {
        out += source.take(from, to);
    }
    out += source.take(
        "impl Ident {",
        "    fn parse<'a>(mut pairs: impl Iterator<Item = Pair<'a, Rule>>) -> Ident {",
    );
    out + "}\n"
}

/// All but the running of a machine and its printing.
fn ir(source: &Source) -> String {
    let mut out = String::from(source.head("macro_rules! reg_fns"));
    out += source.take("\nmod instr;\n", "    reg_fns!(new_num_reg");
    out += source.take(
        "    fn replace_duplicates(&mut self) {",
        "    #[profiling::function]\n    fn execute_sect",
    );
    out += source.take("    pub fn optimize(&mut self) {", "impl Display for IRMachine");
    out += source.tail("impl Clone for IRMachine {");
    out += "\npub use optimize::glue;\n";
    out
}

/// The cases of `Instruction` in the order of their declaration, with the types of their fields.
fn opcodes(source: &Source) -> Vec<(String, Vec<String>)> {
    let start = "pub(super) enum Instruction {\n";
    let cases: Vec<_> = source.take(start, "\n}")[start.len()..]
        .lines()
        .map(str::trim)
        .filter(|line| !line.starts_with("//"))
        .map(|line| {
            let (name, fields) = line
                .trim_end_matches("),")
                .split_once('(')
                .expect("a case of Instruction");
            (name.to_string(), fields.split(", ").map(str::to_string).collect())
        })
        .collect();
    assert_eq!(cases.len(), OPCODES, "yogi's Instruction has another number of cases");
    cases
}

/// For the rules of a machine's words: each opcode's name and the kinds of its fields.
fn kinds_table(cases: &[(String, Vec<String>)]) -> String {
    let mut out = format!("pub const OPCODES: [(&str, [Kind; 3]); {OPCODES}] = [\n");
    for (name, fields) in cases {
        let kind = |i: usize| fields.get(i).map_or("Unused", |field| field.as_str());
        writeln!(
            out,
            "    ({name:?}, [Kind::{}, Kind::{}, Kind::{}]),",
            kind(0),
            kind(1),
            kind(2)
        )
        .unwrap();
    }
    out + "];\n"
}

/// The opcodes' numbers under their names.
fn numbers_table(cases: &[(String, Vec<String>)]) -> String {
    let mut out = String::new();
    for (op, (name, _)) in cases.iter().enumerate() {
        writeln!(out, "pub const {name}: u8 = {op};").unwrap();
    }
    out
}

/// For the glue: an instruction from its opcode and fields, and back.
fn conversions(cases: &[(String, Vec<String>)]) -> String {
    let mut from = String::new();
    let mut to = String::new();
    for (op, (name, fields)) in cases.iter().enumerate() {
        let made: Vec<_> = fields
            .iter()
            .enumerate()
            .map(|(i, field)| format!("{field}(f[{i}])"))
            .collect();
        let names = ["a", "b", "c"];
        let bound = names[..fields.len()].join(", ");
        let read: Vec<_> = (0..3)
            .map(|i| {
                if i < fields.len() {
                    format!("{}.0", names[i])
                } else {
                    "0".into()
                }
            })
            .collect();
        writeln!(from, "        {op} => Instruction::{name}({}),", made.join(", ")).unwrap();
        writeln!(
            to,
            "        Instruction::{name}({bound}) => ({op}, [{}]),",
            read.join(", ")
        )
        .unwrap();
    }
    format!(
        "fn instruction(op: usize, f: [usize; 3]) -> Instruction {{\n    match op {{\n{from}        \
         _ => panic!(\"no such opcode\"),\n    }}\n}}\n\n\
         fn fields(i: Instruction) -> (usize, [usize; 3]) {{\n    match i {{\n{to}    }}\n}}\n"
    )
}

fn write(out: &Path, name: &str, text: &str) {
    let path = out.join(name);
    fs::create_dir_all(path.parent().unwrap()).unwrap();
    fs::write(path, text).unwrap();
}

fn main() {
    println!("cargo:rerun-if-env-changed=YOGI_SRC");
    println!("cargo:rerun-if-changed=build.rs");
    let here = PathBuf::from(env::var("CARGO_MANIFEST_DIR").unwrap());
    let root = env::var("YOGI_SRC").map_or_else(|_| here.join(DEFAULT_SOURCE), PathBuf::from);
    let out = PathBuf::from(env::var("OUT_DIR").unwrap()).join("yogi");
    let read = |name| Source::read(&root, name);

    let instr = read("src/ir/instr.rs");
    let cases = opcodes(&instr);
    write(&out, "number.rs", &number(&read("src/arith/number.rs")));
    write(&out, "ystring.rs", &ystring(&read("src/arith/ystring.rs")));
    write(&out, "parser.rs", &parser(&read("src/parser.rs")));
    write(&out, "ir/mod.rs", &ir(&read("src/ir/mod.rs")));
    write(&out, "ir/instr.rs", &instr.text);
    write(&out, "ir/codegen.rs", &read("src/ir/codegen.rs").text);
    write(
        &out,
        "ir/optimize/sections.rs",
        &read("src/ir/optimize/sections.rs").text,
    );
    write(&out, "ir/optimize/instr.rs", &read("src/ir/optimize/instr.rs").text);
    // the glue stands below `optimize`, from where all private items of yogi can be reached
    let glue = here.join("src/yogi/glue.rs");
    println!("cargo:rerun-if-changed={}", glue.display());
    let optimize = read("src/ir/optimize/mod.rs").text;
    write(
        &out,
        "ir/optimize/mod.rs",
        &format!("{optimize}\n\n#[path = {glue:?}]\npub mod glue;\n"),
    );
    write(&out, "opcodes.rs", &kinds_table(&cases));
    write(&out, "numbers.rs", &numbers_table(&cases));
    write(&out, "conversions.rs", &conversions(&cases));
    let modules = ["parser.rs", "ir/mod.rs"].map(|file| {
        let name = file.split(['.', '/']).next().unwrap();
        format!("#[path = {:?}]\npub mod {name};\n", out.join(file))
    });
    write(&out, "modules.rs", &modules.concat());
}
