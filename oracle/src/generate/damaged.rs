//! Files that are mostly refused: cut, flipped, aimed at single fields, at random.

use super::fixed::{deep_unops, global, local, many_incdecs, of_bytes};
use super::{in_turn, trees};
use crate::bits::patch;
use crate::limits::*;
use crate::rng::Rng;
use crate::tree::{encode, encode_with_fields, Expr, Name, Stmt, Tree, What};

/// A small tree with a field of each sort.
fn small() -> Tree {
    let string = Expr::String(b"hi".to_vec());
    let sum = Expr::Binop(3, Expr::Ident(0).into(), Expr::Incdec(true, 1).into());
    let not = Expr::Unop(1, Expr::Number(-1).into());
    let then = vec![Stmt::Assign(1, 2, string)];
    Tree {
        names: vec![
            local("a"),
            Name {
                global: true,
                text: b"bc".to_vec(),
            },
        ],
        lines: vec![
            vec![Stmt::Ite(sum, then, vec![Stmt::Incdec(false, 0)])],
            vec![Stmt::Goto(not)],
        ],
    }
}

fn tiny() -> Tree {
    Tree {
        names: vec![local("a")],
        lines: vec![vec![Stmt::Ite(Expr::Ident(0), vec![Stmt::Incdec(true, 0)], vec![])]],
    }
}

fn cuts(bytes: &[u8]) -> Vec<Vec<u8>> {
    (0..bytes.len()).map(|n| bytes[..n].to_vec()).collect()
}

fn flips(bytes: &[u8]) -> Vec<Vec<u8>> {
    (0..8 * bytes.len())
        .map(|i| {
            let mut out = bytes.to_vec();
            out[i / 8] ^= 128 >> (i % 8);
            out
        })
        .collect()
}

/// Values worth trying in a field of this sort.
fn values(what: What) -> Vec<u64> {
    match what {
        What::Form => vec![0, 2, 3, 128, 255],
        What::Lines => vec![0, 1, 3, 255],
        What::Names => vec![0, 1, 3, 255],
        What::StmtKind => (0..4).collect(),
        What::ExprKind => (0..8).collect(),
        What::Binop | What::Unop => (0..16).collect(),
        What::Assignop => (0..8).collect(),
        What::Name => vec![0, 1, 2, 3, 254, 255],
        What::Count => vec![0, 1, 2, 63],
        What::Length => vec![0, 1, 2, 3, 63],
        What::Global | What::Inc => vec![0, 1],
        What::Character | What::Number => vec![0],
    }
}

fn aimed_at_fields(tree: &Tree) -> Vec<Vec<u8>> {
    let (bytes, fields) = encode_with_fields(tree);
    let mut out = vec![];
    for field in fields {
        for value in values(field.what) {
            let mut with = bytes.clone();
            patch(&mut with, field.place, field.width, value);
            if with != bytes {
                out.push(with);
            }
        }
    }
    out
}

fn behind(bytes: &[u8]) -> Vec<Vec<u8>> {
    [&[0][..], &[1], &[128], &[255], &[0, 0], &[0; 9]]
        .map(|tail| [bytes, tail].concat())
        .into()
}

/// Two names the same, or the same but for case, beside others that differ in flag or in a character next to the letters.
fn same_names() -> Vec<Vec<u8>> {
    let lists = [
        vec![local("x"), local("x")],
        vec![local("y"), local("X"), local("x")],
        vec![local("Z"), local("z")],
        vec![local("A"), local("[a"), local("{a"), local("[A")],
        vec![local("@"), local("`"), local("Ward"), local("wARD")],
        vec![global("aZ"), local("Az"), global("Az")],
        vec![local("x"), global("x"), local("x")],
        vec![global("x"), global("x"), local("x")],
        vec![local("xy"), local("x"), local("xz"), local("xy")],
    ];
    let files = lists.map(|names| {
        let lines = vec![vec![]];
        encode(&Tree { names, lines })
    });
    // cut just behind the second name the refusal is the same, before its end it is 3
    let cut = |n: usize| files.iter().map(move |bytes| bytes[..bytes.len() - n].to_vec());
    (0..4).flat_map(cut).collect()
}

/// Depth 65 and node 2,049, and files that end where such a node would begin.
fn past_limits() -> Vec<Vec<u8>> {
    let mut out = vec![];
    for depth in [MOST_DEPTH + 1, MOST_DEPTH, MOST_DEPTH + 2] {
        let bytes = encode(&deep_unops(depth));
        out.extend((0..6).map(|n| bytes[..bytes.len() - n].to_vec()));
        out.push(bytes);
    }
    for nodes in [MOST_NODES, MOST_NODES + 1] {
        let bytes = encode(&many_incdecs(nodes));
        out.extend((0..4).map(|n| bytes[..bytes.len() - n].to_vec()));
        let mut deep = many_incdecs(nodes - MOST_DEPTH);
        deep.lines.push(deep_unops(MOST_DEPTH + 1).lines[0].clone());
        out.push(encode(&deep));
    }
    out
}

fn long_files() -> Vec<Vec<u8>> {
    let most = encode(&of_bytes(MOST_BYTES));
    let over = encode(&of_bytes(MOST_BYTES + 1));
    let mut filled = most.clone();
    *filled.last_mut().unwrap() |= 1;
    vec![
        [&most[..], &[0]].concat(),
        over.clone(),
        over[..MOST_BYTES].to_vec(),
        filled,
        vec![0; MOST_BYTES],
        vec![0; MOST_BYTES + 1],
        [&[1, 1, 0, 0][..], &[0; MOST_BYTES - 3]].concat(),
    ]
}

fn aimed() -> Vec<Vec<u8>> {
    let mut out = vec![
        vec![],
        vec![1, 0],
        vec![1, 0, 0, 0],
        vec![1, 1, 0],
        vec![1, 1, 0, 0, 0],
        vec![2, 0],
        vec![0],
    ];
    out.extend(in_turn(vec![
        same_names(),
        past_limits(),
        long_files(),
        behind(&encode(&tiny())),
    ]));
    out
}

/// A valid tree, and among its names one again in another case.
fn same_but_case(rng: &mut Rng, most_bytes: usize) -> Vec<u8> {
    let mut tree = trees::sized(rng, most_bytes).0;
    if !tree.names.is_empty() {
        let mut name = rng.pick(&tree.names);
        trees::respell(rng, &mut name);
        tree.names.insert(rng.below(tree.names.len() + 1), name);
    }
    encode(&tree)
}

fn hurt(rng: &mut Rng, bytes: &mut Vec<u8>) {
    let length = bytes.len().max(1);
    match rng.below(5) {
        0 => bytes.truncate(rng.below(length)),
        1 => bytes.push(rng.next() as u8 & rng.next() as u8),
        2 if !bytes.is_empty() => bytes[rng.below(length)] = rng.next() as u8,
        _ if !bytes.is_empty() => bytes[rng.below(length)] ^= 1 << rng.below(8),
        _ => (),
    }
}

fn random(rng: &mut Rng, most_bytes: usize) -> Vec<u8> {
    if rng.chance(10) {
        // a true start, so that not all end at once
        let mut bytes = vec![1, 1 + rng.below(3) as u8, rng.below(3) as u8];
        bytes.extend((0..rng.below(40)).map(|_| rng.next() as u8));
        return bytes;
    }
    if rng.chance(5) {
        return same_but_case(rng, most_bytes);
    }
    let mut bytes = trees::sized(rng, most_bytes).1;
    for _ in 0..1 + rng.below(2) {
        hurt(rng, &mut bytes);
    }
    bytes
}

/// Random, aimed, cut and flipped ones in turn; when the fixed ones run out, random ones only.
pub fn files(seed: u64, count: usize, most_bytes: usize) -> Vec<Vec<u8>> {
    let mut rng = Rng::new(seed);
    let fields = rng.shuffled(aimed_at_fields(&small()));
    let small = encode(&small());
    let cut_or_flipped = rng.shuffled([cuts(&small), flips(&small), flips(&encode(&tiny()))].concat());
    let randoms = (0..count).map(|_| random(&mut rng, most_bytes)).collect();
    in_turn(vec![randoms, aimed(), fields, cut_or_flipped])
        .filter(|bytes| bytes.len() <= most_bytes)
        .take(count)
        .collect()
}
