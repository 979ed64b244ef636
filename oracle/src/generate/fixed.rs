//! Trees that are there at every seed: each operator, each shape of a list, and the limits.

use super::in_turn;
use crate::limits::*;
use crate::tree::{encode, Expr, Name, Stmt, Tree};

pub fn local(text: &str) -> Name {
    Name {
        global: false,
        text: text.as_bytes().to_vec(),
    }
}

pub fn global(text: &str) -> Name {
    Name {
        global: true,
        text: text.as_bytes().to_vec(),
    }
}

fn a() -> Expr {
    Expr::Ident(0)
}

fn b() -> Expr {
    Expr::Ident(1)
}

fn one() -> Expr {
    Expr::Number(1_000)
}

fn set(name: u8, expr: Expr) -> Stmt {
    Stmt::Assign(name, 0, expr)
}

fn goto() -> Stmt {
    Stmt::Goto(one())
}

fn ite(then: Vec<Stmt>, otherwise: Vec<Stmt>) -> Stmt {
    Stmt::Ite(a(), then, otherwise)
}

fn inc() -> Stmt {
    Stmt::Incdec(true, 0)
}

fn script(lines: Vec<Vec<Stmt>>) -> Tree {
    Tree {
        names: vec![local("a"), global("b")],
        lines,
    }
}

fn one_line(line: Vec<Stmt>) -> Tree {
    script(vec![line])
}

// ---- operators and operands

fn operators() -> Vec<Tree> {
    let mut out = vec![];
    for op in 0..BINOPS {
        out.push(set(1, Expr::Binop(op, a().into(), b().into())));
        out.push(set(0, Expr::Binop(op, a().into(), a().into())));
    }
    for op in 0..UNOPS {
        out.push(set(1, Expr::Unop(op, a().into())));
    }
    for op in 0..ASSIGNS {
        for expr in [a(), b(), Expr::Incdec(true, 0), Expr::Incdec(false, 0), one()] {
            out.push(Stmt::Assign(0, op, expr));
        }
    }
    out.push(inc());
    out.push(Stmt::Incdec(false, 1));
    out.into_iter().map(|stmt| one_line(vec![stmt])).collect()
}

fn leaves() -> Vec<Tree> {
    let string = |length: usize| Expr::String((0..length).map(|i| i as u8).collect());
    let mut exprs: Vec<Expr> = [0, 1, -1, i64::MIN, i64::MAX].map(Expr::Number).into();
    exprs.extend([0, 1, 2, MOST_STRING].map(string));
    let mut out: Vec<Tree> = exprs.into_iter().map(|expr| one_line(vec![set(0, expr)])).collect();
    // empty strings before, between and behind others
    let texts = ["", "x", "", "yz", ""].map(|s| set(0, Expr::String(s.into())));
    out.push(one_line(texts.into()));
    out
}

// ---- lists

fn lists() -> Vec<Vec<Stmt>> {
    let mut out = vec![vec![], vec![goto()], vec![inc()], vec![set(1, one()), set(0, b())]];
    let branches = [
        vec![],
        vec![inc()],
        vec![goto()],
        vec![goto(), inc()],
        vec![ite(vec![], vec![])],
    ];
    for then in &branches {
        for otherwise in &branches {
            out.push(vec![ite(then.clone(), otherwise.clone())]);
            out.push(vec![goto(), ite(then.clone(), otherwise.clone())]);
        }
    }
    out.push(vec![
        ite(vec![], vec![]),
        inc(),
        goto(),
        inc(),
        ite(vec![inc()], vec![]),
        inc(),
    ]);
    out.push(vec![
        goto(),
        goto(),
        ite(vec![], vec![goto(), ite(vec![], vec![])]),
        ite(vec![], vec![]),
        inc(),
    ]);
    out.push(vec![
        goto(),
        ite(vec![], vec![goto(), ite(vec![ite(vec![], vec![])], vec![]), inc()]),
    ]);
    out.push(vec![
        goto(),
        ite(vec![], vec![goto(), ite(vec![], vec![goto(), ite(vec![], vec![])])]),
    ]);
    out.push(vec![
        ite(vec![goto()], vec![goto()]),
        inc(),
        ite(vec![], vec![]),
        goto(),
    ]);
    out.push(vec![
        ite(vec![ite(vec![ite(vec![inc()], vec![])], vec![])], vec![]),
        set(1, a()),
    ]);
    out
}

fn several_lines() -> Vec<Tree> {
    vec![
        script(vec![vec![], vec![], vec![]]),
        script(vec![vec![inc()], vec![], vec![goto()]]),
        script(vec![vec![], vec![ite(vec![inc()], vec![]), inc()], vec![]]),
        script(vec![
            vec![goto(), inc()],
            vec![ite(vec![], vec![inc()])],
            vec![set(0, a())],
        ]),
        script(vec![
            vec![ite(vec![goto()], vec![])],
            vec![inc(), inc()],
            vec![set(1, Expr::Unop(0, b().into()))],
        ]),
    ]
}

// ---- names

fn names() -> Vec<Tree> {
    let long = "a".repeat(MOST_NAME - 1);
    let near = vec![
        local("x"),
        global("X"),
        local("Xa"),
        local("xB"),
        local("@"),
        local("`"),
        local("Z["),
        local("z{"),
        global(&(long.clone() + "a")),
        global(&(long + "b")),
        local("\0"),
        local("\u{7f}"),
    ];
    let uses = (0..near.len() as u8)
        .rev()
        .filter(|i| i % 3 != 1)
        .map(|i| Stmt::Incdec(true, i))
        .collect();
    let many: Vec<Name> = (0..MOST_NAMES).map(|i| local(&format!("{i:x}"))).collect();
    let last = vec![set(254, Expr::Ident(253)), Stmt::Incdec(false, 0)];
    vec![
        Tree {
            names: vec![],
            lines: vec![vec![Stmt::Goto(Expr::String(vec![]))]],
        },
        Tree {
            names: vec![local("Ward"), global("wARD"), local("Wards")],
            lines: vec![vec![]],
        },
        Tree {
            names: near,
            lines: vec![uses],
        },
        Tree {
            names: many,
            lines: vec![last],
        },
    ]
}

// ---- limits

/// `a = op op .. a`: its last node has this depth.
pub fn deep_unops(depth: usize) -> Tree {
    let expr = (3..=depth).fold(a(), |e, i| Expr::Unop((i % 11) as u8, e.into()));
    one_line(vec![set(0, expr)])
}

fn deep_binops(depth: usize, left: bool) -> Tree {
    let grow = |e: Expr, i: usize| {
        let (l, r) = if left { (e, b()) } else { (b(), e) };
        Expr::Binop((i % 14) as u8, l.into(), r.into())
    };
    one_line(vec![set(0, (3..=depth).fold(a(), grow))])
}

fn deep_ites(depth: usize, otherwise: bool) -> Tree {
    let grow = |list: Vec<Stmt>, _| {
        vec![if otherwise {
            ite(vec![], list)
        } else {
            ite(list, vec![])
        }]
    };
    one_line((2..=depth).fold(vec![inc()], grow))
}

/// Lines of 63 statements, and one with the rest.
pub fn in_lines(stmts: Vec<Stmt>) -> Tree {
    script(stmts.chunks(MOST_STATEMENTS).map(<[Stmt]>::to_vec).collect())
}

pub fn many_incdecs(nodes: usize) -> Tree {
    in_lines((0..nodes).map(|i| Stmt::Incdec(i % 2 == 0, (i % 2) as u8)).collect())
}

/// So many nodes in few bytes: gotos to long rows of operators.
pub fn few_bytes(nodes: usize) -> Tree {
    let row = |length: usize| Stmt::Goto((2..length).fold(Expr::String(vec![]), |e, _| Expr::Unop(0, e.into())));
    let mut stmts = vec![row(MOST_DEPTH); nodes / MOST_DEPTH - 1];
    let left = nodes - MOST_DEPTH * stmts.len();
    stmts.extend([row(left / 2), row(left - left / 2)]);
    Tree {
        names: vec![],
        ..in_lines(stmts)
    }
}

fn many_assigns(nodes: usize) -> Tree {
    let mut stmts: Vec<Stmt> = (0..nodes / 2).map(|i| Stmt::Assign(0, (i % 7) as u8, b())).collect();
    stmts.extend((0..nodes % 2).map(|_| inc()));
    in_lines(stmts)
}

fn many_empty_ites(count: usize) -> Tree {
    let mut tree = in_lines(vec![ite(vec![], vec![]); count]);
    tree.lines.resize(MOST_LINES, vec![]);
    tree
}

/// A tree of just so many bytes: assigned strings, the last as long as is left.
pub fn of_bytes(bytes: usize) -> Tree {
    let text = |length: usize| set(0, Expr::String((0..length).map(|i| b'a' + i as u8 % 26).collect()));
    // each such statement takes 114 bytes: begin near the end
    let mut stmts = vec![text(MOST_STRING); bytes / 114 - 1];
    let mut last = MOST_STRING;
    loop {
        let with = |last| in_lines(stmts.iter().cloned().chain([text(last)]).collect());
        let length = encode(&with(last)).len();
        if length == bytes {
            return with(last);
        } else if length < bytes {
            stmts.push(text(MOST_STRING));
        } else {
            assert!(last > 0, "no tree of {bytes} bytes");
            last -= 1;
        }
    }
}

pub fn limits() -> Vec<Tree> {
    let mut out = vec![];
    for depth in [MOST_DEPTH, MOST_DEPTH + 1] {
        out.push(deep_unops(depth));
        out.push(deep_binops(depth, true));
        out.push(deep_binops(depth, false));
        out.push(deep_ites(depth, true));
        out.push(deep_ites(depth, false));
    }
    out.push(one_line(vec![inc(); MOST_STATEMENTS]));
    out.push(one_line(vec![ite(
        vec![inc(); MOST_STATEMENTS],
        vec![inc(); MOST_STATEMENTS],
    )]));
    out.push(script(vec![vec![]; MOST_LINES]));
    out.push(script(vec![vec![ite(vec![inc()], vec![])]; MOST_LINES]));
    out.push(script(vec![vec![inc(), goto()]; MOST_LINES]));
    for nodes in [455, 456, MOST_NODES, MOST_NODES + 1] {
        out.push(many_incdecs(nodes));
        out.push(many_assigns(nodes));
    }
    out.push(of_bytes(MOST_BYTES));
    out.push(many_empty_ites(MOST_NODES / 2));
    out
}

/// Valid but for those one past the depth or the nodes. The groups in turn, so that a few have some of each.
pub fn trees() -> Vec<Tree> {
    let lists = lists().into_iter().map(one_line).collect();
    let others = [several_lines(), leaves(), names()].concat();
    in_turn(vec![lists, others, operators(), limits()]).collect()
}
