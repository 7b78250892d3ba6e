//! What the library promises beside document 01's examples: refusals, lengths, damage, long lists, short room, deep terms.
use tameswulk::{raw, Arena, Instruction, Refusal, Term, Type};

extern "C" {
    fn tameswulk_call(
        cells: *mut u64,
        cells_len: usize,
        mark: u64,
        op: u64,
        par: u64,
        operands: *const u64,
        operands_len: usize,
        told: *mut u64,
        told_len: usize,
    ) -> u64;
}

/// Bool, false, true; Bitvec 8 at 12, a variable of it at 16, a Bool variable at 20, Set of Bitvec 8 at 24, a record of the first.
fn sample(length: usize) -> Arena {
    let mut arena = Arena::new(length).unwrap();
    let bits = arena.build(Instruction::bitvec_type(8)).unwrap();
    let x = arena.build(Instruction::variable(0, bits)).unwrap();
    arena.build(Instruction::variable(1, Type::BOOL)).unwrap();
    arena.build(Instruction::set_type(bits)).unwrap();
    arena.build(Instruction::record(&[(3, x)])).unwrap();
    arena
}

#[test]
fn each_refusal_leaves_every_cell() {
    let wide = 1 << 32;
    let mut many = vec![12];
    many.extend([16; 257]);
    let cases: &[(Refusal, u64, u64, &[u64])] = &[
        (Refusal::NotAnInstruction, 0, 0, &[]),
        (Refusal::NotAnInstruction, 6, 0, &[]),
        (Refusal::NotAnInstruction, 20, 0, &[4, 4]),
        (Refusal::NotAnInstruction, 20, 1, &[4]),
        (Refusal::TooMany, 14, 0, &many),
        (Refusal::TooMany, 65, 0, &many),
        (Refusal::NotAPosition, 20, 0, &[12]),
        (Refusal::NotAPosition, 3, 0, &[16]),
        (Refusal::NotAPosition, 20, 0, &[5]),
        (Refusal::NotAPosition, 20, 0, &[u64::MAX]),
        (Refusal::WrongType, 20, 0, &[16]),
        (Refusal::WrongType, 11, 0, &[0]),
        (Refusal::WrongType, 4, 0, &[24]),
        (Refusal::WrongWidth, 2, 0, &[]),
        (Refusal::WrongWidth, 2, 65, &[]),
        (Refusal::WrongWidth, 49, 57, &[16]),
        (Refusal::TooLarge, 11, 256, &[12]),
        (Refusal::TooLarge, 10, 2, &[]),
        (Refusal::TooLarge, 16, wide, &[12]),
        (Refusal::TooLarge, 5, 0, &[2, 0, 1, 0]),
    ];
    let mut arena = sample(4_096);
    let before = arena.clone();
    for &(refusal, operation, parameter, operands) in cases {
        assert_eq!(arena.call(operation, parameter, operands), Err(refusal), "operation {operation}");
        assert_eq!(arena, before);
        let (mut cells, mark) = before.clone().into_cells();
        assert_eq!(raw::call(&mut cells, mark, operation, parameter, operands), Err(refusal));
        assert_eq!(*cells, *before.cells());
    }
    let record = arena.nodes().find(|node| node.kind == 21).unwrap().position;
    assert_eq!(arena.call(56, 4, &[record]), Err(Refusal::AbsentAttribute));
    assert_eq!(arena.call(75, 4, &[record]), Err(Refusal::AbsentAttribute));
    assert_eq!(arena, before);
    // the smallest number that applies: room for the type of Some and not for Some
    let full = before.mark() as usize + 9;
    let mut arena = sample(full);
    let before = arena.clone();
    assert_eq!(arena.call(13, 0, &[16]), Err(Refusal::NoRoom));
    assert_eq!(arena, before);
    assert_eq!(sample(full + 1).call(13, 0, &[16]), Ok(before.mark() + 5));
}

#[test]
fn refusals_have_their_numbers() {
    for number in 1..=9 {
        let refusal = Refusal::of_number(number).unwrap();
        assert_eq!(refusal.number(), number);
        assert!(refusal.to_string().starts_with(&format!("refused {number}: ")));
    }
    assert_eq!(Refusal::of_number(0), None);
    assert_eq!(Refusal::of_number(10), None);
}

#[test]
fn lengths_of_an_arena() {
    for length in [0, 1, 11, 65_537, usize::MAX] {
        assert_eq!(Arena::new(length), Err(Refusal::NotAnArena), "{length} cells");
    }
    for length in [12, 13, 65_536] {
        let arena = Arena::new(length).unwrap();
        assert_eq!((arena.cells().len(), arena.mark()), (length, 12));
    }
    assert_eq!(Arena::new(12).unwrap().build(Instruction::bitvec_type(64)), Err(Refusal::NoRoom));
    assert_eq!(Arena::new(15).unwrap().build(Instruction::bitvec_type(64)), Err(Refusal::NoRoom));
    assert!(Arena::new(16).unwrap().build(Instruction::bitvec_type(64)).is_ok());

    for length in [0, 11, 65_537] {
        let mut cells = vec![7; length];
        assert_eq!(raw::fresh(&mut cells), None);
        assert_eq!(raw::call(&mut cells, 12, 1, 0, &[]), Err(Refusal::NotAnArena));
        assert_eq!(cells, vec![7; length]);
    }
    for length in [12, 65_536] {
        let mut cells = vec![7; length];
        assert_eq!(raw::fresh(&mut cells), Some(12));
        assert_eq!(cells[..12], [1, 0, 0, 0, 16, 0, 0, 0, 16, 0, 1, 0]);
        assert!(cells[12..].iter().all(|&cell| cell == 0));
        assert_eq!(raw::call(&mut cells, 12, 1, 0, &[]), Ok(raw::Accepted { position: 0, mark: 12 }));
    }
}

#[test]
fn a_damaged_arena_is_refused() {
    let (cells, mark) = sample(64).into_cells();
    assert!(Arena::from_cells(cells.clone(), mark).is_ok());
    for wrong in [0, 11, mark - 1, mark + 1, 64, 65, u64::MAX] {
        assert_eq!(Arena::from_cells(cells.clone(), wrong), Err(Refusal::NotAnArena), "mark {wrong}");
    }
    // a variable's id may be another number; no other cell may be, not even behind the mark
    for i in 0..cells.len() {
        if i >= 2 && cells[i - 2] == 22 {
            continue;
        }
        let mut damaged = cells.clone();
        damaged[i] += 1_000_000;
        let before = damaged.clone();
        assert_eq!(raw::call(&mut damaged, mark, 10, 1, &[]), Err(Refusal::NotAnArena), "cell {i}");
        assert_eq!(damaged, before);
        assert_eq!(Arena::from_cells(damaged, mark), Err(Refusal::NotAnArena));
    }
    // two equal nodes
    let mut twice = cells.clone();
    twice[mark as usize..mark as usize + 4].copy_from_slice(&[2, 0, 8, 0]);
    assert_eq!(Arena::from_cells(twice, mark + 4), Err(Refusal::NotAnArena));
}

#[test]
fn what_is_told_where_there_is_less_room() {
    for room in 0..=4 {
        for (operation, number, position, mark) in [(1, 0, 0, 12), (2, 0, 12, 16), (99, 2, 0, 12)] {
            let mut cells = Arena::new(64).unwrap().into_cells().0;
            let mut told = vec![77; room];
            let parameter = if operation == 2 { 64 } else { 0 };
            // SAFETY: slices that do not overlap, each with its own length.
            let answer = unsafe {
                tameswulk_call(
                    cells.as_mut_ptr(),
                    cells.len(),
                    12,
                    operation,
                    parameter,
                    [].as_ptr(),
                    0,
                    told.as_mut_ptr(),
                    told.len(),
                )
            };
            let mut expected = vec![position, mark, 77, 77];
            expected.truncate(room);
            assert_eq!((answer, told), (number, expected));
        }
    }
}

#[test]
fn lists_longer_than_any_instruction() {
    let mut arena = sample(4_096);
    let option = arena.call(3, 0, &[12]).unwrap();
    let option = arena.call(16, 9, &[option]).unwrap();
    let bits = |n: usize| [vec![12], vec![16; n]].concat();
    let set = arena.call(14, 0, &bits(256)).unwrap();
    assert_eq!(arena.call(14, 0, &bits(1)), Ok(set));
    assert!(arena.call(65, 0, &[option; 256]).is_ok());
    let before = arena.clone();
    for n in [257, 258, 300, 70_000] {
        assert_eq!(arena.call(14, 0, &bits(n)), Err(Refusal::TooMany));
        assert_eq!(arena.call(65, 0, &vec![option; n]), Err(Refusal::TooMany));
        assert_eq!(arena.call(20, 0, &vec![4; n]), Err(Refusal::NotAnInstruction));
        let (mut cells, mark) = arena.clone().into_cells();
        assert_eq!(raw::call(&mut cells, mark, 14, 0, &bits(n)), Err(Refusal::TooMany));
    }
    assert_eq!(arena, before);
}

#[test]
fn a_script_asks_for_its_cells_and_room() {
    let bytes = [0x02, 0x40, 0x00];
    for (cells, room, good) in [
        (raw::SCRIPT_CELLS, raw::SCRIPT_ROOM, true),
        (raw::SCRIPT_CELLS, raw::SCRIPT_ROOM + 1, true),
        (raw::SCRIPT_CELLS, raw::SCRIPT_ROOM - 1, false),
        (raw::SCRIPT_CELLS - 1, raw::SCRIPT_ROOM, false),
        (raw::SCRIPT_CELLS + 1, raw::SCRIPT_ROOM, false),
        (0, 0, false),
    ] {
        let mut lent = vec![7; cells];
        let mut out = vec![7; room];
        let count = raw::script(&bytes, &mut lent, &mut out);
        if good {
            assert_eq!(count, Some(9));
            assert_eq!(out[..9], *b"ok 12 16\n");
            assert!(out[9..].iter().all(|&byte| byte == 7));
            assert!(Arena::from_cells(lent, 16).is_ok());
        } else {
            assert_eq!(count, None);
            assert_eq!((lent, out), (vec![7; cells], vec![7; room]));
        }
    }
}

#[test]
fn the_deepest_terms_fit_a_thread() {
    let mut arena = Arena::new(65_536).unwrap();
    let mut t = Term::TRUE;
    let mut depth = 0;
    while let Ok(next) = arena.build(Instruction::some(t)) {
        t = next;
        depth += 1;
    }
    assert_eq!(depth, (65_536 - 12) / 10);
    assert_eq!(arena.build(Instruction::eq(t, t)), Ok(Term::TRUE));
    assert_eq!(arena.build(Instruction::is_none(t)), Ok(Term::FALSE));
    let (cells, mark) = arena.into_cells();
    assert!(Arena::from_cells(cells, mark).is_ok());
}

#[test]
fn the_tested_call_and_the_known_one_agree() {
    let mut seed: u64 = 1;
    let mut next = move |below: u64| {
        seed = seed.wrapping_mul(6_364_136_223_846_793_005).wrapping_add(1_442_695_040_888_963_407);
        (seed >> 33) % below
    };
    let mut accepted = 0;
    for _ in 0..40 {
        let mut arena = sample(600);
        let (mut cells, mut mark) = arena.clone().into_cells();
        for _ in 0..500 {
            let starts: Vec<u64> = arena.nodes().map(|node| node.position).collect();
            let operation = next(77);
            let parameter = match operation {
                2 | 11 | 16 | 26 | 49 | 56 | 74 | 75 => next(9),
                10 => next(2),
                _ => next(20) / 19,
            };
            let count = match operation {
                1 | 2 | 10 => 0,
                25 => 3,
                5 | 15 | 73 => 2 * next(3),
                14 | 65 | 66 => 1 + next(4),
                21..=24 | 26 | 31..=44 | 46..=48 | 50..=52 | 54 | 62..=64 => 2,
                _ => 1,
            };
            let operands: Vec<u64> = (0..count + next(20) / 19)
                .map(|_| if next(9) == 0 { next(30) } else { starts[next(starts.len() as u64) as usize] })
                .collect();
            let known = arena.call(operation, parameter, &operands);
            let tested = raw::call(&mut cells, mark, operation, parameter, &operands);
            if let Ok(answer) = tested {
                mark = answer.mark;
                accepted += 1;
            }
            assert_eq!(known, tested.map(|answer| answer.position));
            assert_eq!((arena.cells(), arena.mark()), (&*cells, mark));
        }
    }
    assert!(accepted > 1_000, "{accepted} of 20,000 were accepted");
}
