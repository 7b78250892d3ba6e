//! Arenas that are short, too short, and too long.
use beside::{Counts, Draws, Instruction, Nodes, Numbers, Pair, Step};
use tameswulk::{raw, Arena, Refusal};

/// More room than one instruction on a short arena ever needs.
const ROOM: usize = 4_096;

/// Draws for an arena of so many cells, until it is full or the draws end. The same arena with room beside it says what must fit.
fn run(length: usize, numbers: &mut Numbers, counts: &mut Counts) {
    let mut cells = vec![0; length];
    let mut mark = raw::fresh(&mut cells).expect("a length of 12 to 65,536");
    for _ in 0..60 {
        let mut wide = cells.clone();
        wide.resize(ROOM, 0);
        let mut roomy = Pair::over(Arena::from_cells(wide, mark).expect("a well-formed arena"));
        let instruction = Draws::new(numbers, roomy.nodes()).any();
        let step = roomy.step(&instruction);
        let fits = roomy.arena().mark() as usize <= length;
        let before = cells.clone();
        let answer = raw::call(&mut cells, mark, instruction.operation, instruction.parameter, &instruction.operands);
        let step = match step {
            Step::Built(position) if fits => {
                mark = roomy.arena().mark();
                assert_eq!(answer, Ok(raw::Accepted { position, mark }), "{instruction:?}");
                assert!(cells == roomy.arena().cells()[..length], "{instruction:?}: other cells in {length}");
                step
            }
            Step::Built(_) => {
                assert_eq!(answer, Err(Refusal::NoRoom), "{instruction:?} in {length} cells");
                Step::Refused(9)
            }
            Step::Refused(number) => {
                assert_eq!(answer.map_err(Refusal::number), Err(number), "{instruction:?} in {length} cells");
                step
            }
        };
        assert!(matches!(step, Step::Built(_)) || cells == before, "{instruction:?}: refused, and cells changed");
        counts.add(&instruction, step, length);
    }
}

#[test]
fn short_arenas() {
    let mut counts = Counts::default();
    let mut numbers = Numbers::new(3_000);
    for length in 12..=120 {
        run(length, &mut numbers, &mut counts);
    }
    assert!(counts.refused[&9] >= 1_000, "9 was given {} times", counts.refused[&9]);
    counts.print();
}

/// Steps that add nodes, of which the last does not fit, at every length between.
#[test]
fn each_step_of_an_instruction_that_runs_out() {
    let mut counts = Counts::default();
    for operation in [12, 13, 15, 53, 54, 62, 63, 64, 65, 66, 70, 71, 72, 73, 74, 75] {
        let mut numbers = Numbers::new(4_000 + operation);
        let pair = crate::drawn(&mut numbers, ROOM, 120);
        for _ in 0..12 {
            let instruction = Draws::new(&mut numbers, pair.nodes()).right(operation);
            at_every_length(pair.arena(), &instruction, &mut counts);
        }
    }
    assert!(counts.refused[&9] >= 500, "9 was given {} times", counts.refused[&9]);
    counts.print();
}

fn at_every_length(arena: &Arena, instruction: &Instruction, counts: &mut Counts) {
    let mut roomy = Pair::over(arena.clone());
    let Step::Built(position) = roomy.step(instruction) else { return };
    let (from, to) = (arena.mark() as usize, roomy.arena().mark() as usize);
    for length in from..=to {
        let before = &arena.cells()[..length];
        let mut cells = before.to_vec();
        let answer = raw::call(&mut cells, arena.mark(), instruction.operation, instruction.parameter, &instruction.operands);
        if length == to {
            assert_eq!(answer, Ok(raw::Accepted { position, mark: to as u64 }));
            assert!(cells == roomy.arena().cells()[..length]);
            counts.add(instruction, Step::Built(position), 0);
        } else {
            assert_eq!(answer, Err(Refusal::NoRoom), "{instruction:?} in {length} cells");
            assert!(cells == before, "{instruction:?}: refused, and cells changed");
            counts.add(instruction, Step::Refused(9), length);
        }
    }
}

#[test]
fn lengths_at_both_limits() {
    for (length, allowed) in [(0, false), (11, false), (12, true), (13, true), (65_536, true), (65_537, false)] {
        let mut cells = vec![0; length];
        let given = raw::fresh(&mut cells);
        assert_eq!(given.is_some(), allowed, "{length} cells");
        let fresh = [1, 0, 0, 0, 16, 0, 0, 0, 16, 0, 1, 0];
        cells.iter_mut().zip(fresh).for_each(|(cell, number)| *cell = number);
        let before = cells.clone();
        for mark in [0, 11, 12, 13, length as u64, length as u64 + 1, u64::MAX] {
            let expected = if Nodes::read(&cells, mark).is_some() {
                Ok(raw::Accepted { position: 8, mark })
            } else {
                Err(Refusal::NotAnArena)
            };
            assert_eq!(Nodes::read(&cells, mark).is_some(), allowed && mark == 12);
            assert_eq!(raw::call(&mut cells, mark, 20, 0, &[4]), expected, "{length} cells, mark {mark}");
            assert!(cells == before);
        }
    }
}

#[test]
fn the_longest_arena_up_to_its_last_cell() {
    let mut arena = Arena::new(65_536).unwrap();
    let mut t = arena.call(16, 0, &[0]).unwrap();
    for id in 1.. {
        let Ok(x) = arena.call(16, id, &[0]) else { break };
        let Ok(next) = arena.call(21, 0, &[t, x]) else { break };
        t = next;
    }
    // 6,552 turns of 4 and 6 cells behind the first 16
    assert_eq!((t, arena.mark()), (65_530, 65_536));
    let full = Nodes::read(arena.cells(), arena.mark()).expect("a well-formed arena");
    assert_eq!(full.positions().last(), Some(t));
    let (mut cells, mark) = arena.into_cells();
    let before = cells.clone();
    assert_eq!(raw::call(&mut cells, mark, 24, 0, &[t, t]), Ok(raw::Accepted { position: 8, mark }));
    assert_eq!(raw::call(&mut cells, mark, 13, 0, &[t]), Err(Refusal::NoRoom));
    assert!(cells == before);
    cells[65_535] += 1;
    let damaged = cells.clone();
    assert!(Nodes::read(&cells, mark).is_none());
    assert_eq!(raw::call(&mut cells, mark, 24, 0, &[t, t]), Err(Refusal::NotAnArena));
    assert!(cells == damaged);
}
