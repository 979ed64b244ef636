//! Several threads at once, each on a stack of 2 MiB, with trees at the limits; the largest machine on such a stack; and the deepest and the largest trees
//! on a stack of 256 KiB.

mod common;
use common::*;
use sezkibalo::*;
use std::thread::Builder;

const STACK: usize = 2 << 20;
/// Enough for any tree.
const SMALL_STACK: usize = 256 << 10;
const THREADS: usize = 8;

#[test]
fn all_calls_from_many_threads() {
    let scripts = [deep(64), nested(32, 63), nested(63, 31), many(2048), mixed(40, 2000), mixed(255, 2000), mixed(1, 480)];
    let trees: Vec<Vec<u8>> = scripts.iter().map(bytes).collect();
    let alone: Vec<Machine> = trees.iter().map(|tree| Machine::finish(tree, CodegenOptions::default()).unwrap()).collect();
    std::thread::scope(|scope| {
        for first in 0..THREADS {
            let (trees, alone) = (&trees, &alone);
            let work = move || {
                for i in (0..trees.len()).map(|i| (first + i) % trees.len()) {
                    let mut machine = Machine::lower(&trees[i], CodegenOptions::default()).unwrap();
                    machine.clean().unwrap();
                    machine.combine().unwrap();
                    assert_eq!(machine.counts(), alone[i].counts());
                    assert_eq!(Machine::finish(&trees[i], CodegenOptions::default()).unwrap(), alone[i]);
                }
            };
            Builder::new().stack_size(STACK).spawn_scoped(scope, work).unwrap();
        }
    });
}

/// Lower, clean and combine, and finish, of each tree on a small stack.
fn on_a_small_stack(scripts: &[Script]) {
    let trees: Vec<Vec<u8>> = scripts.iter().map(bytes).collect();
    let work = move || {
        for tree in trees {
            let mut machine = Machine::lower(&tree, CodegenOptions::default()).unwrap();
            machine.clean().unwrap();
            machine.combine().unwrap();
            assert_eq!(machine.counts(), Machine::finish(&tree, CodegenOptions::default()).unwrap().counts());
        }
    };
    Builder::new().stack_size(SMALL_STACK).spawn(work).unwrap().join().unwrap();
}

#[test]
fn the_deepest_trees_on_a_small_stack() {
    on_a_small_stack(&[deep(64), nested(32, 63), nested(63, 31)]);
}

#[test]
fn the_largest_trees_on_a_small_stack() {
    let scripts = largest();
    let [estimate, sections, instructions, both] = [0, 1, 2, 3].map(|i| bytes(&scripts[i]));
    for tree in [&estimate, &sections, &instructions, &both] {
        assert_eq!(size(tree).unwrap().nodes, 2_048);
    }
    // as many as a tree can have
    let longest = size(&estimate).unwrap().estimate();
    assert_eq!((longest.sections, longest.instructions), (255 + 4 * 2_048, 9 * 2_048));
    let lowered = |tree| *Machine::lower(tree, CodegenOptions::default()).unwrap().counts();
    assert_eq!(lowered(&sections).sections, 255 + 4 * 1_024);
    assert_eq!(lowered(&instructions).instructions, 11_263);
    on_a_small_stack(&scripts);
}

/// Two chains that cross, with one instruction a section: all sections that a machine can have, and as many instructions.
#[test]
fn the_largest_machine() {
    const MOST: u64 = 65_535;
    let target = |i| if i + 2 < MOST { i + 2 } else { 0 };
    let sections = (0..MOST).map(|i| section(u64::from(i == 0), target(i), i, 1)).collect();
    let own = |i| Instruction::IncNum(NumReg(i as u16)).word();
    let instructions = (0..MOST).map(own).collect();
    let most = MOST as usize;
    let counts = Counts { lines: 1, sections: most, instructions: most, numbers: most, ..Counts::default() };
    let tables = Tables { sections, instructions, numbers: vec![0; most], ..Tables::default() };
    let work = move || {
        let mut machine = Machine::of_words(counts, tables);
        machine.combine().unwrap();
        let first = MOST.div_ceil(2);
        let mut left = vec![section(1, 0, 0, first), section(0, 0, first, MOST - first)];
        left.resize(most, 0);
        assert_eq!((machine.counts().sections, &machine.tables().sections), (2, &left));
        let even = (0..MOST).step_by(2);
        assert!(even.chain((1..MOST).step_by(2)).map(own).eq(machine.tables().instructions.iter().copied()));
    };
    Builder::new().stack_size(STACK).spawn(work).unwrap().join().unwrap();
}
