//! The growth with the nodes as a plot: both axes by powers of ten.

use crate::scripts::Shape;
use crate::timing::{times, Times};
use std::fmt::Write;

const NODES: [usize; 9] = [4, 8, 20, 60, 120, 250, 500, 1_000, 2_040];
const LINES: usize = 20;

const WIDTH: f64 = 760.0;
const HEIGHT: f64 = 480.0;
const LEFT: f64 = 70.0;
const BELOW: f64 = 50.0;
const RIGHT: f64 = 190.0;
const ABOVE: f64 = 30.0;

/// Powers of ten at the ends of the axes: nodes, and seconds.
const FEW: f64 = 0.5;
const MANY: f64 = 3.4;
const SHORT: f64 = -7.5;
const LONG: f64 = 0.5;

type Curve = (&'static str, &'static str, fn(&Times) -> f64);

const CURVES: [Curve; 5] = [
    ("yogi: finish", "#b03030", |t| t.yogi),
    ("finish", "#2050b0", |t| t.finish),
    ("lower", "#3090c0", |t| t.lower),
    ("size", "#70b0d0", |t| t.size),
    ("plain Rust: finish", "#308040", |t| t.plain_finish),
];

fn x(nodes: f64) -> f64 {
    LEFT + (nodes.log10() - FEW) / (MANY - FEW) * (WIDTH - LEFT - RIGHT)
}

fn y(seconds: f64) -> f64 {
    HEIGHT - BELOW - (seconds.log10() - SHORT) / (LONG - SHORT) * (HEIGHT - ABOVE - BELOW)
}

fn text(out: &mut String, x: f64, y: f64, anchor: &str, text: &str) {
    writeln!(out, "<text x=\"{x:.1}\" y=\"{y:.1}\" text-anchor=\"{anchor}\">{text}</text>").unwrap();
}

fn axes(out: &mut String) {
    let (right, low) = (WIDTH - RIGHT, HEIGHT - BELOW);
    for (seconds, name) in [(1e-7, "0.1 µs"), (1e-6, "1 µs"), (1e-5, "10 µs"), (1e-4, "0.1 ms"), (1e-3, "1 ms"), (1e-2, "10 ms"), (1e-1, "0.1 s"), (1.0, "1 s")] {
        let y = y(seconds);
        writeln!(out, "<path d=\"M{LEFT} {y:.1}H{right}\" stroke=\"#ddd\"/>").unwrap();
        text(out, LEFT - 6.0, y + 4.0, "end", name);
    }
    for nodes in [10.0, 100.0, 1_000.0] {
        let x = x(nodes);
        writeln!(out, "<path d=\"M{x:.1} {ABOVE}V{low}\" stroke=\"#ddd\"/>").unwrap();
        text(out, x, low + 18.0, "middle", &format!("{nodes}"));
    }
    text(out, (LEFT + right) / 2.0, HEIGHT - 10.0, "middle", "nodes (Ites and assignments on 20 lines)");
}

fn curve(out: &mut String, points: &[(f64, Times)], i: usize, (name, colour, time): Curve) {
    let path: Vec<String> = points.iter().map(|(nodes, t)| format!("{:.1} {:.1}", x(*nodes), y(time(t)))).collect();
    writeln!(out, "<path d=\"M{}\" fill=\"none\" stroke=\"{colour}\" stroke-width=\"2\"/>", path.join("L")).unwrap();
    let (left, line) = (WIDTH - RIGHT + 20.0, ABOVE + 20.0 * (i + 1) as f64);
    writeln!(out, "<path d=\"M{left} {line}h24\" stroke=\"{colour}\" stroke-width=\"2\"/>").unwrap();
    text(out, left + 32.0, line + 4.0, "start", name);
}

pub fn growth() -> String {
    let point = |&nodes: &usize| {
        let script = Shape::Both.script(LINES, nodes);
        let bytes = script.pack().expect("a script that can be packed").bytes;
        (sezkibalo::size(&bytes).expect("a tree").nodes as f64, times(&script))
    };
    let points: Vec<(f64, Times)> = NODES.iter().map(point).collect();
    let mut out = format!("<svg xmlns=\"http://www.w3.org/2000/svg\" width=\"{WIDTH}\" height=\"{HEIGHT}\" font-family=\"sans-serif\" font-size=\"12\">\n");
    out.push_str("<rect width=\"100%\" height=\"100%\" fill=\"white\"/>\n");
    axes(&mut out);
    CURVES.into_iter().enumerate().for_each(|(i, c)| curve(&mut out, &points, i, c));
    out + "</svg>\n"
}
