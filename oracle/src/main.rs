//! The judge: yogi's own code behind the tree form and the refusals of docs/FORMAT.md.
//! README.md says what each command does.

use oracle::judge::{Answer, Op, Options, Stage};
use oracle::{bits, finlist, generate, judge, line, machine, orders, record, selftest, theorems, tree, walks};
use std::io::{Read, Write};
use std::process::ExitCode;

const USAGE: &str = "usage:
  oracle tree HEX [OPTIONS]
  oracle machine replace|clean|combine LINE
  oracle finlist < FILE
  oracle generate trees|damaged|machines|chains SEED COUNT [MAXBYTES]
  oracle self-test SEED COUNT
  oracle walks SEED COUNT
  oracle orders SEED COUNT
  oracle theorems trees|damaged|machines|finlist|texts|limits|instr|walks|orders SEED COUNT DIR
  oracle record trees|machines|texts|chains SEED";

fn machine_line(machine: &machine::Machine) -> String {
    let (counts, tables) = machine::pack(machine);
    line::print(&counts, &tables)
}

fn tree_command(hex: &str, options: &str) -> Option<String> {
    let bytes = bits::unhex(hex)?;
    let options = Options::of_number(options.parse().ok().filter(|&n| n < 4)?);
    Some(match tree::decode(&bytes) {
        Err(n) => format!("R {n}"),
        Ok(tree) => {
            let show = |stage| judge::machine_of(stage, &tree, options).show(machine_line);
            format!(
                "{}\n{}\n{}",
                tree::Size::of(&tree).row(),
                show(Stage::Lower),
                show(Stage::Finish)
            )
        }
    })
}

fn machine_command(op: &str, text: &str) -> Option<String> {
    let (counts, tables) = line::parse(text)?;
    let (answer, after): (Answer<_>, _) = judge::change(Op::of_name(op)?, &counts, &tables);
    Some(answer.show(|counts| line::print(counts, &after)))
}

fn finlist_command() -> Option<String> {
    let mut bytes = vec![];
    std::io::stdin().read_to_end(&mut bytes).ok()?;
    Some(finlist::finlist(&bytes).trim_end().to_string())
}

fn case_line((op, counts, tables): &generate::machines::Case) -> String {
    format!("{} {}", op.name(), line::print(counts, tables))
}

/// Unless bounded, all the fixed inputs are there.
const UNBOUNDED: usize = 1 << 20;

fn generate_command(kind: &str, seed: &str, count: &str, most_bytes: usize) -> Option<String> {
    let (seed, count) = (seed.parse().ok()?, count.parse().ok()?);
    let lines: Vec<String> = match kind {
        "trees" => generate::trees::files(seed, count, most_bytes)
            .iter()
            .map(|b| bits::hex(b))
            .collect(),
        "damaged" => generate::damaged::files(seed, count, most_bytes)
            .iter()
            .map(|b| bits::hex(b))
            .collect(),
        "machines" => generate::machines::cases(seed, count, most_bytes)
            .iter()
            .map(case_line)
            .collect(),
        "chains" => generate::chains::cases(seed, count).iter().map(case_line).collect(),
        _ => return None,
    };
    Some(lines.join("\n"))
}

/// A report; if something is wrong, as an error.
fn report_command(run: fn(u64, usize) -> (String, bool), seed: &str, count: &str) -> Option<String> {
    let (text, held) = run(seed.parse().ok()?, count.parse().ok()?);
    if held {
        return Some(text);
    }
    eprintln!("{text}");
    std::process::exit(1)
}

fn theorems_command(kind: &str, seed: &str, count: &str, folder: &str) -> Option<String> {
    theorems::write(
        kind,
        seed.parse().ok()?,
        count.parse().ok()?,
        std::path::Path::new(folder),
    )
}

fn run(words: &[&str]) -> Option<String> {
    match words {
        ["tree", hex] => tree_command(hex, "2"),
        ["tree", hex, options] => tree_command(hex, options),
        ["machine", op, text] => machine_command(op, text),
        ["finlist"] => finlist_command(),
        ["generate", kind, seed, count] => generate_command(kind, seed, count, UNBOUNDED),
        ["generate", kind, seed, count, most] => generate_command(kind, seed, count, most.parse().ok()?),
        ["record", "trees", seed] => Some(record::of_trees(seed.parse().ok()?)),
        ["record", "machines", seed] => Some(record::of_machines(seed.parse().ok()?)),
        ["record", "chains", seed] => Some(record::of_chains(seed.parse().ok()?)),
        ["record", "texts", seed] => Some(record::of_texts(seed.parse().ok()?)),
        ["theorems", kind, seed, count, folder] => theorems_command(kind, seed, count, folder),
        ["self-test", seed, count] => report_command(selftest::run, seed, count),
        ["orders", seed, count] => report_command(orders::run, seed, count),
        ["walks", seed, count] => report_command(walks::run, seed, count),
        _ => None,
    }
}

fn main() -> ExitCode {
    judge::hush_yogi();
    let words: Vec<String> = std::env::args().skip(1).collect();
    let words: Vec<&str> = words.iter().map(String::as_str).collect();
    let Some(out) = run(&words) else {
        eprintln!("{USAGE}");
        return ExitCode::from(2);
    };
    // a reader that has seen enough is no error
    let _ = writeln!(std::io::stdout(), "{out}");
    ExitCode::SUCCESS
}
