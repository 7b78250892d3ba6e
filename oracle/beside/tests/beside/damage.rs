//! Valid arenas with one cell changed, another mark, or a node twice: refused 1 exactly where document 01's sentence fails.
use crate::drawn;
use beside::{Draws, Nodes, Numbers, Pair};
use tameswulk::raw;

#[derive(Default)]
struct Damage {
    refused: u64,
    sound: u64,
    cells: u64,
}

impl Damage {
    /// Gives changed cells an instruction, which they refuse 1 where they are no arena, and as document 01 says where they are.
    fn tested(&mut self, cells: &mut [u64], mark: u64, numbers: &mut Numbers, sound: &Nodes) {
        let instruction = Draws::new(numbers, sound).any();
        let read = Nodes::read(cells, mark);
        let expected = read.as_ref().map_or(1, |nodes| nodes.refusal(&instruction));
        let before = cells.to_vec();
        let answer = raw::call(cells, mark, instruction.operation, instruction.parameter, &instruction.operands);
        let number = answer.map_or_else(|refusal| refusal.number(), |_| 0);
        assert!(
            number == expected || (number, expected) == (9, 0),
            "{number} and not {expected}: {instruction:?}, mark {mark} of {before:?}"
        );
        assert!(number == 0 || cells == before, "refused {number}, and cells changed");
        self.refused += u64::from(read.is_none());
        self.sound += u64::from(read.is_some());
        self.cells += if number == 0 { 0 } else { cells.len() as u64 };
        cells.copy_from_slice(&before);
    }

    fn one_cell(&mut self, pair: &Pair, numbers: &mut Numbers, changes: usize) {
        let (mut cells, mark) = pair.arena().clone().into_cells();
        for i in 0..cells.len() {
            let old = cells[i];
            for _ in 0..changes {
                let (any, kind) = (numbers.below(mark), numbers.one_of(&[0, 16, 100]) + numbers.below(60));
                let other = cells[numbers.below(mark) as usize];
                let near = [
                    old.wrapping_add(1),
                    old.wrapping_sub(1),
                    old.wrapping_add(4),
                    old.wrapping_sub(4),
                    old ^ 1 << 32,
                    u64::MAX,
                ];
                cells[i] = numbers.one_of(&[near.as_slice(), &[0, 1, any, any, kind, kind, other, other, other]].concat());
                self.tested(&mut cells, mark, numbers, pair.nodes());
                cells[i] = old;
            }
        }
    }

    fn another_mark(&mut self, pair: &Pair, numbers: &mut Numbers) {
        let mut cells = pair.arena().clone().into_cells().0;
        for mark in (0..=cells.len() as u64 + 2).chain([1 << 32, u64::MAX]) {
            self.tested(&mut cells, mark, numbers, pair.nodes());
        }
    }

    fn a_node_twice(&mut self, pair: &Pair, numbers: &mut Numbers) {
        let (mut cells, mark) = pair.arena().clone().into_cells();
        for node in pair.arena().nodes().filter(|node| node.members.len() <= 4) {
            let end = mark as usize + 4 + node.members.len();
            cells.copy_within(node.position as usize..node.position as usize + 4 + node.members.len(), mark as usize);
            self.tested(&mut cells, end as u64, numbers, pair.nodes());
            cells[mark as usize..].fill(0);
        }
    }
}

#[test]
fn of_arenas_that_sequences_left() {
    let mut damage = Damage::default();
    for seed in 5_000..5_008 {
        let mut numbers = Numbers::new(seed);
        let mark = drawn(&mut numbers, 8_192, 90).arena().mark();
        let mut numbers = Numbers::new(seed);
        // the same draws, with a little room behind them
        let pair = drawn(&mut numbers, mark as usize + 8, 90);
        damage.one_cell(&pair, &mut numbers, 5);
        damage.another_mark(&pair, &mut numbers);
        damage.a_node_twice(&pair, &mut numbers);
    }
    assert!(damage.refused >= 5_000 && damage.sound >= 100, "{} refused, {} sound", damage.refused, damage.sound);
    println!("counted damaged {}\ncounted sound {}\ncounted cells {}", damage.refused, damage.sound, damage.cells);
}
