//! Whole sequences of instructions: the terms, their positions, the refusals.
use crate::drawn;
use beside::{Counts, Draws, Instruction, Node, Numbers, Pair, Step};
use tameswulk::{Arena, Instruction as Named, Type};

/// Gives a pair so many draws, and some of them twice: then nothing is added, and the position is the same.
fn run(pair: &mut Pair, numbers: &mut Numbers, counts: &mut Counts, draws: usize) {
    for _ in 0..draws {
        let instruction = Draws::new(numbers, pair.nodes()).any();
        let step = pair.step(&instruction);
        counts.add(&instruction, step, pair.arena().cells().len());
        assert_ne!(step, Step::Refused(9), "{instruction:?}: these arenas have room");
        if numbers.below(8) == 0 {
            let mark = pair.arena().mark();
            assert_eq!((pair.step(&instruction), pair.arena().mark()), (step, mark), "{instruction:?}: given again");
            counts.add(&instruction, step, pair.arena().cells().len());
        }
    }
}

fn operations() -> impl Iterator<Item = u64> {
    (1..=5).chain(10..=16).chain(20..=26).chain(30..=56).chain(60..=66).chain(70..=75)
}

#[test]
fn of_every_operation() {
    let mut counts = Counts::default();
    for seed in 0..60 {
        let mut numbers = Numbers::new(seed);
        run(&mut Pair::new(4_096), &mut numbers, &mut counts, 300);
    }
    for operation in operations() {
        let built = counts.built.get(&operation).copied().unwrap_or(0);
        assert!(built >= 30, "operation {operation} was accepted {built} times");
    }
    for number in 2..=8 {
        let refused = counts.refused.get(&number).copied().unwrap_or(0);
        assert!(number == 3 || refused >= 30, "{number} was given {refused} times");
    }
    counts.print();
}

#[test]
fn in_the_longest_arena() {
    let mut counts = Counts::default();
    let mut numbers = Numbers::new(1_000);
    run(&mut Pair::new(65_536), &mut numbers, &mut counts, 600);
    counts.print();
}

/// Adds applications that the factory would have folded, as a caller's own arena may have them.
fn with_unfolded(pair: &Pair, numbers: &mut Numbers, count: usize) -> Arena {
    let (mut cells, mut mark) = pair.arena().clone().into_cells();
    let mut nodes = pair.nodes().clone();
    let applied: Vec<u64> = operations().filter(|op| matches!(op, 20..=22 | 24..=25 | 30..=52 | 55 | 56)).collect();
    for _ in 0..count {
        let operation = numbers.one_of(&applied);
        let Instruction { parameter, operands, .. } = Draws::new(numbers, &nodes).right(operation);
        let node = |ty| Node { kind: 100 + operation, ty, parameter, members: operands.clone() };
        let Some(node) = nodes.positions().map(node).find(|node| nodes.admits(node)) else { continue };
        let flat = [vec![node.kind, node.ty, node.parameter, node.members.len() as u64], node.members.clone()].concat();
        if nodes.push(mark, node).is_some() {
            cells[mark as usize..][..flat.len()].copy_from_slice(&flat);
            mark += flat.len() as u64;
        }
    }
    Arena::from_cells(cells, mark).expect("a well-formed arena")
}

#[test]
fn on_arenas_that_no_factory_left() {
    let mut counts = Counts::default();
    for seed in 2_000..2_010 {
        let mut numbers = Numbers::new(seed);
        let pair = drawn(&mut numbers, 8_192, 100);
        let unfolded = with_unfolded(&pair, &mut numbers, 40);
        assert!(unfolded.mark() > pair.arena().mark());
        run(&mut Pair::over(unfolded), &mut numbers, &mut counts, 200);
    }
    counts.print();
}

/// A list of fields, each attribute given twice and the attributes falling.
fn fields(values: &[u64]) -> Vec<u64> {
    values.iter().enumerate().flat_map(|(i, &t)| [1_000 - i as u64 / 2, t]).collect()
}

fn behind(first: u64, list: &[u64]) -> Vec<u64> {
    [&[first], list].concat()
}

#[test]
fn with_the_longest_lists() {
    let mut counts = Counts::default();
    let mut pair = Pair::new(65_536);
    let mut give = |operation: u64, parameter: u64, operands: Vec<u64>| {
        let instruction = Instruction { operation, parameter, operands };
        let step = pair.step(&instruction);
        counts.add(&instruction, step, pair.arena().cells().len());
        step
    };
    let mut built = |operation, parameter, operands| match give(operation, parameter, operands) {
        Step::Built(position) => position,
        Step::Refused(number) => panic!("{operation} was refused {number}"),
    };
    let bits = built(2, 16, vec![]);
    let option = built(3, 0, vec![bits]);
    let terms: Vec<u64> = (0..257).map(|id| built(16, id, vec![bits])).collect();
    let literals: Vec<u64> = (0..257).rev().map(|value| built(11, value, vec![bits])).collect();
    let options: Vec<u64> = (0..257).map(|id| built(16, id, vec![option])).collect();
    for list in [&terms, &literals] {
        let set = built(14, 0, behind(bits, &list[..256]));
        built(51, 0, vec![set, set]);
        built(50, 0, vec![list[255], set]);
        built(15, 0, fields(&list[..64]));
    }
    let types = |count: u64| (0..count).flat_map(|attribute| [attribute, bits]).collect::<Vec<u64>>();
    built(5, 0, types(64));
    built(65, 0, options[..256].to_vec());
    built(66, 0, behind(terms[0], &options[..256]));
    built(73, 0, fields(&options[..64]));
    let (many_terms, many_options) = (behind(bits, &terms), behind(terms[0], &options));
    let too_long =
        [(14, many_terms), (15, fields(&terms[..65])), (65, options.clone()), (66, many_options), (73, fields(&options[..65]))];
    assert_eq!(give(5, 0, types(65)), Step::Refused(3));
    for (operation, operands) in too_long {
        assert_eq!(give(operation, 0, operands), Step::Refused(3));
    }
    counts.print();
}

#[test]
fn of_a_term_that_is_shared_at_every_level() {
    let mut arena = Arena::new(65_536).unwrap();
    let x = arena.build(Named::variable(0, Type::BOOL)).unwrap();
    let mut pair = Pair::over(arena);
    let mut counts = Counts::default();
    let mut t = x.position();
    for _ in 0..200 {
        let instruction = Instruction { operation: 15, parameter: 0, operands: vec![1, t, 2, t] };
        let step = pair.step(&instruction);
        counts.add(&instruction, step, 65_536);
        let Step::Built(next) = step else { panic!("{step:?}") };
        t = next;
    }
    assert_eq!(pair.nodes().tree(t), u64::MAX);
    counts.print();
}
