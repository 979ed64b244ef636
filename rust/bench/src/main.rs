//! Speed of the library beside yogi and beside plain Rust: the same scripts, one program, one run.
//! Usage: bench [SVG], or bench check SEED COUNT

mod check;
mod plain;
mod plot;
mod scripts;
mod timing;
mod yogi;

use std::process::ExitCode;

fn main() -> ExitCode {
    let words: Vec<String> = std::env::args().skip(1).collect();
    let words: Vec<&str> = words.iter().map(String::as_str).collect();
    match words[..] {
        ["check", seed, count] => {
            oracle::judge::hush_yogi();
            let (files, different) = check::run(seed.parse().expect("a seed"), count.parse().expect("a count"));
            println!("{files} files, {different} differences");
            ExitCode::from(u8::from(different != 0))
        }
        [] => {
            timing::table();
            ExitCode::SUCCESS
        }
        [svg] => {
            timing::table();
            std::fs::write(svg, plot::growth()).expect("the plot cannot be written");
            ExitCode::SUCCESS
        }
        _ => {
            eprintln!("usage: bench [SVG], or bench check SEED COUNT");
            ExitCode::from(2)
        }
    }
}
