//! All names of the definitions stand here and nowhere else.

use crate::machine::Kind;

/// What a module of theorems of this kind uses.
pub fn uses(kind: &str) -> String {
    let more = match kind {
        "instr" => INSTR_USES,
        "walks" => WALK_USES,
        "orders" => ORDER_USES,
        _ => CALL_USES,
    };
    format!("{USES}{more}")
}

const USES: &str = "\
use Rattle.std.specs.Prelude.{◌≡◌, refl, true, false, [], ◌∷◌, pos, negsuc}
";

const CALL_USES: &str = "\
use Rattle.std.specs.Prelude.{replicate}
use Rattle.rules.specs.Bits.{refused, ok}
use Rattle.rules.specs.Operations.{size, lower, finish, replace, clean, combine, textSpan}
use Rattle.rules.specs.Listing.{finlist}
use Rattle.against.specs.Words.{sizes, counts, tables, options, span}
";

const INSTR_USES: &str = "\
use Rattle.std.specs.Prelude.{map}
use Rattle.std.proofs.Math.Option.{none, some}
use Rattle.rules.specs.Instr.{unused, num, str, val, place}
use Rattle.rules.specs.Instr.{kinds, reads, modifies, canRuntimeErr, getSection, removeReg, removeSection, checkedRemoveSection}
use Rattle.rules.specs.Replace.{rules, lookup, replaceIns}
use Rattle.against.specs.Words.{span, regs, ins}
";

const WALK_USES: &str = "\
use Rattle.against.specs.Words.{options, ins, same, stopsAtJump, stopsAtGoto, fallsSilent, bothWalks, bothFirst}
";

const ORDER_USES: &str = "\
use Rattle.std.proofs.Math.Option.{none, some}
use Rattle.rules.specs.Bits.{ok}
use Rattle.against.specs.Words.{options, counts, tables, treeJoined, machineJoined}
";

pub const WORDS_MODULE: &str = "Words";

/// The module that makes the definitions' records of plain arguments, in the judge's order.
pub const WORDS: &str = "\
-- The records of the definitions, made of plain arguments.
use Rattle.std.specs.Prelude.{Bool, List, ℕ, ℤ, take}
use Rattle.std.proofs.Math.Option.{Option, none, some}
use Rattle.rules.specs.Bits.{Res, refused, ok}
use Rattle.rules.specs.Parse.{parse}
use Rattle.rules.specs.Word.{Span}
use Rattle.rules.specs.Instr.{Instruction}
use Rattle.rules.specs.Machine.{Machine}
use Rattle.rules.specs.Tables.{Tables, Counts, decode, encode, countsOf}
use Rattle.rules.specs.Replace.{Regs}
use Rattle.rules.specs.Clean.{cleaned}
use Rattle.rules.specs.Combine.{pair, combineAt}
use Rattle.rules.specs.Lowered.{Options, lowered, finished}
use Rattle.rules.specs.Operations.{Size}
use Rattle.rules.specs.Walk.{Trace, atJump, atGoto, ask, more, over, walk}
use Rattle.rules.specs.Reading.{reading}
use Rattle.rules.specs.JoinOrder.{joinPairs}

abbrev pub options : Bool → Bool → Options
options l g = record { locals = l; globals = g }

abbrev pub sizes : ℕ → ℕ → ℕ → ℕ → ℕ → ℕ → Size
sizes l m s n t c = record { lines = l; names = m; statements = s; nodes = n; strings = t; characters = c }

abbrev pub span : ℕ → ℕ → Span
span p n = record { start = p; size = n }

abbrev pub counts : ℕ → ℕ → ℕ → ℕ → ℕ → ℕ → ℕ → ℕ → Counts
counts l s i n t p v m = record { lines = l; sections = s; instrs = i; numbers = n; strings = t; pool = p; values = v; names = m }

abbrev pub tables : List ℕ → List ℕ → List ℤ → List ℕ → List ℕ → List ℕ → Tables
tables s i n t p m = record { sections = s; instrs = i; numbers = n; strings = t; pool = p; names = m }

abbrev pub regs : List ℤ → List Span → Regs
regs n t = record { numbers = n; strings = t }

abbrev pub ins : ℕ → ℕ → ℕ → ℕ → Instruction
ins o a b c = record { op = o; fst = a; snd = b; thd = c }

-- what is met, and how it ends
abbrev pub stopsAtJump : List Instruction → Instruction → Trace
stopsAtJump l i = (l, over (ask (atJump i)))

abbrev pub stopsAtGoto : List Instruction → ℕ → Trace
stopsAtGoto l r = (l, over (ask (atGoto r)))

abbrev pub fallsSilent : List Instruction → Trace
fallsSilent l = (l, more)

-- both walks of a file: its finished machine by k sections, its tree by k lines
unfoldable pub bothWalks : Options → List ℕ → List ℕ → ℕ → Res (Trace × Trace)
unfolding parse finished walk reading
bothWalks o s os k = elim (parse s) [ refused n ↦ refused n | ok t ↦ ok (walk (finished o t) os k, reading t os k) ]

-- the first n instructions of each
unfoldable pub bothFirst : ℕ → Options → List ℕ → List ℕ → ℕ → Res (List Instruction × List Instruction)
unfolding bothWalks
bothFirst n o s os k = elim (bothWalks o s os k) [ refused r ↦ refused r | ok (a, b) ↦ ok (take n a.0, take n b.0) ]

-- a machine joined in this order, if each pair is allowed at its time: its counts, its words, and a pair that is left
unfoldable pub endOf : Machine → List (ℕ × ℕ) → Option (Counts × Tables × Option (ℕ × ℕ))
unfolding combineAt countsOf encode
endOf m ps = elim (joinPairs m ps) [ none ↦ none | some n ↦ some (countsOf n, encode n, pair n.sections) ]

-- the cleaned machine of a file; a machine in tables
unfoldable pub treeJoined : Options → List ℕ → List (ℕ × ℕ) → Res (Option (Counts × Tables × Option (ℕ × ℕ)))
unfolding parse lowered cleaned endOf
treeJoined o s ps = elim (parse s) [ refused n ↦ refused n | ok t ↦ ok (endOf (cleaned (lowered o t)) ps) ]

unfoldable pub machineJoined : Tables → Counts → List (ℕ × ℕ) → Res (Option (Counts × Tables × Option (ℕ × ℕ)))
unfolding decode endOf
machineJoined t u ps = elim (decode t u) [ refused n ↦ refused n | ok m ↦ ok (endOf m ps) ]

-- both are x
abbrev pub same : {X : Type 0} → X → Res (X × X)
same x = ok (x, x)
";

pub const SIZE: &str = "size";
pub const LOWER: &str = "lower";
pub const FINISH: &str = "finish";
pub const FINLIST: &str = "finlist";
pub const TEXT: &str = "textSpan";
pub const BOTH_WALKS: &str = "bothWalks";
pub const BOTH_FIRST: &str = "bothFirst";
pub const TREE_JOINED: &str = "treeJoined";
pub const MACHINE_JOINED: &str = "machineJoined";

/// What is said of an instruction.
pub const KINDS: &str = "kinds";
pub const READS: &str = "reads";
pub const MODIFIES: &str = "modifies";
pub const GET_SECTION: &str = "getSection";
pub const CAN_ERR: &str = "canRuntimeErr";
pub const REMOVE_REG: &str = "removeReg";
pub const REMOVE_SECTION: &str = "removeSection";
pub const CHECKED_REMOVE: &str = "checkedRemoveSection";
pub const REPLACE_INS: &str = "replaceIns";
pub const REPLACE_UNFOLDS: &str = "rules lookup";

/// The kind of a field.
pub fn kind(kind: Kind) -> &'static str {
    match kind {
        Kind::Unused => "unused",
        Kind::NumReg => "num",
        Kind::StrReg => "str",
        Kind::ValReg => "val",
        Kind::Section => "place",
    }
}
