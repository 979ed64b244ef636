//! How long each takes on a script: time of the processor, not of the clock, so that others on the machine disturb little. A time is the
//! shortest mean of several batches, in several rounds.

use crate::plain::Plain;
use crate::scripts::{smallest, Shape};
use crate::yogi::to_program;
use oracle::yogi::ir::{glue, IRMachine};
use oracle::yogi::parser::Program;
use sezkibalo::raw;
use sezkibalo::*;
use std::hint::black_box;

const BATCHES: usize = 3;
/// A row of the library and of plain Rust is timed so many times over, and the shortest of each kept: what disturbs one round seldom disturbs all.
const ROUNDS: usize = 3;
/// Seconds of a batch, and the most calls in one.
const A_BATCH: f64 = 0.02;
const MOST_CALLS: usize = 50_000;
/// A call that takes longer than this is made a few times only.
const LONG: f64 = 0.3;
/// Programs that are copied at once for yogi, and machines of yogi's that are kept at once.
const AT_ONCE: usize = 64;

#[repr(C)]
struct Time {
    seconds: i64,
    nanoseconds: i64,
}

extern "C" {
    fn clock_gettime(clock: i32, time: *mut Time) -> i32;
}

/// This thread's seconds on the processor, on Linux.
fn now() -> f64 {
    const THREAD_CPUTIME: i32 = 3;
    let mut time = Time { seconds: 0, nanoseconds: 0 };
    // SAFETY: the time is lent for the call, in C's layout on 64 bits.
    let failed = unsafe { clock_gettime(THREAD_CPUTIME, &mut time) } != 0;
    assert!(!failed, "there is no such clock");
    time.seconds as f64 + time.nanoseconds as f64 * 1e-9
}

/// Seconds a call. `batch` makes so many calls and says how long they took.
fn best(mut batch: impl FnMut(usize) -> f64) -> f64 {
    batch(1);
    let once = batch(1).max(1e-7);
    let calls = ((A_BATCH / once) as usize).clamp(1, MOST_CALLS);
    let batches = if once > LONG { 2 } else { BATCHES };
    let means = (0..batches).map(|_| batch(calls) / calls as f64);
    means.fold(once, f64::min)
}

fn repeated<T>(mut call: impl FnMut() -> T) -> f64 {
    best(|calls| {
        let start = now();
        for _ in 0..calls {
            black_box(call());
        }
        now() - start
    })
}

/// yogi uses up the program: they are copied before, and the machines dropped behind.
fn yogi(program: &Program, call: impl Fn(Program) -> IRMachine) -> f64 {
    best(|calls| {
        let mut time = 0.0;
        for done in (0..calls).step_by(AT_ONCE) {
            let programs = vec![program.clone(); AT_ONCE.min(calls - done)];
            let mut machines = Vec::with_capacity(programs.len());
            let start = now();
            machines.extend(programs.into_iter().map(&call));
            time += now() - start;
            drop(black_box(machines));
        }
        time
    })
}

/// Seconds of each on one script.
#[derive(Clone, Copy)]
pub struct Times {
    pub yogi: f64,
    pub yogi_lower: f64,
    pub size: f64,
    pub lower: f64,
    pub finish: f64,
    /// from a script, with packing and tables of its own
    pub whole: f64,
    pub plain_size: f64,
    pub plain_lower: f64,
    pub plain_finish: f64,
}

pub fn times(script: &Script) -> Times {
    let program = to_program(script);
    let bytes = script.pack().expect("a script that can be packed").bytes;
    let options = CodegenOptions::default();
    let mut tables = Tables::of_room(&size(&bytes).expect("a tree").estimate());
    let mut plain = Plain::default();
    let mut round = || {
        [
            repeated(|| raw::size(black_box(&bytes))),
            repeated(|| raw::lower(black_box(&bytes), options, tables.lend())),
            repeated(|| raw::finish(black_box(&bytes), options, tables.lend())),
            repeated(|| Machine::finish(&black_box(script).pack().unwrap().bytes, options)),
            repeated(|| plain.size(black_box(&bytes))),
            repeated(|| plain.lower(black_box(&bytes), options, tables.lend())),
            repeated(|| plain.finish(black_box(&bytes), options, tables.lend())),
        ]
    };
    let mut best = round();
    for _ in 1..ROUNDS {
        for (least, time) in best.iter_mut().zip(round()) {
            *least = least.min(time);
        }
    }
    let [size, lower, finish, whole, plain_size, plain_lower, plain_finish] = best;
    Times {
        yogi: yogi(&program, |program| glue::finish_program(program, false, true)),
        yogi_lower: yogi(&program, |program| glue::lower_program(program, false, true)),
        size,
        lower,
        finish,
        whole,
        plain_size,
        plain_lower,
        plain_finish,
    }
}

fn shown(seconds: f64) -> String {
    let micros = seconds * 1e6;
    match micros {
        m if m < 10.0 => format!("{m:.2} µs"),
        m if m < 1000.0 => format!("{m:.0} µs"),
        m => format!("{:.2} ms", m / 1000.0),
    }
}

/// Prints a script's row.
fn row(what: &str, script: &Script) -> Times {
    let nodes = size(&script.pack().expect("a script that can be packed").bytes).expect("a tree").nodes;
    let t = times(script);
    let times = [t.yogi_lower, t.yogi, t.size, t.lower, t.finish, t.whole, t.plain_size, t.plain_lower, t.plain_finish].map(shown);
    let ratios = [t.yogi / t.finish, t.size / t.plain_size, t.lower / t.plain_lower, t.finish / t.plain_finish];
    let ratios = ratios.map(|ratio| if ratio < 10.0 { format!("{ratio:.2}") } else { format!("{ratio:.0}") });
    println!("| {what} | {} | {nodes} | {} | {} |", script.lines.len(), times.join(" | "), ratios.join(" | "));
    t
}

/// The largest of the ratios, and whose it is.
fn print_worst(what: &str, ratios: &[(f64, String)]) {
    let (ratio, whose) = ratios.iter().max_by(|a, b| a.0.total_cmp(&b.0)).expect("a row");
    println!("{what}: at most {ratio:.2}, {whose}");
}

pub fn table() {
    println!("| script | lines | nodes | yogi lower | yogi finish | size | lower | finish | pack and finish | plain size | plain lower | plain finish | yogi finish / finish | size / plain | lower / plain | finish / plain |");
    println!("|{}", "---|".repeat(16));
    row("`x=1`", &smallest());
    row("Ites and assignments", &Shape::Both.script(20, 360));
    let (mut growth, mut beside_plain) = (vec![], vec![]);
    for shape in Shape::ALL {
        for lines in [1, 20, 255] {
            let rows = [100, 500, 2_040].map(|nodes| (nodes, row(shape.name(), &shape.script(lines, nodes))));
            growth.push((rows[2].1.finish / rows[1].1.finish, format!("{}, {lines} lines", shape.name())));
            beside_plain.extend(rows.map(|(nodes, t)| (t.finish / t.plain_finish, format!("{}, {lines} lines, {nodes} nodes", shape.name()))));
        }
    }
    println!();
    print_worst("finish of 2040 nodes / of 500", &growth);
    print_worst("finish / plain, from 100 nodes on", &beside_plain);
}
