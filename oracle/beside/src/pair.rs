//! The library's arena and the original's terms, node for node.
use crate::terms::{original_of, Id, Ids};
use crate::{Instruction, Node, Nodes};
use oracle::{run, Ins, Operand, Out, R};
use std::collections::{BTreeMap, BTreeSet, HashMap};
use tameswulk::Arena;

/// An arena, what each of its nodes is to the original, and the number of each.
pub struct Pair {
    arena: Arena,
    nodes: Nodes,
    /// By position; `Failed` where no node starts.
    originals: Vec<R>,
    ids: Ids,
    id_at: BTreeMap<u64, Id>,
    position_of: HashMap<Id, u64>,
}

/// How an instruction ended.
#[derive(Clone, Copy, Debug, PartialEq, Eq)]
pub enum Step {
    Built(u64),
    Refused(u64),
}

/// What was compared.
#[derive(Default)]
pub struct Counts {
    /// Instructions that built the original's term, by operation.
    pub built: BTreeMap<u64, u64>,
    /// Refusals as document 01's table has them, by number.
    pub refused: BTreeMap<u64, u64>,
    /// Cells that a refusal left as they were.
    pub cells: u64,
}

impl Counts {
    pub fn add(&mut self, instruction: &Instruction, step: Step, cells: usize) {
        match step {
            Step::Built(_) => *self.built.entry(instruction.operation).or_default() += 1,
            Step::Refused(number) => {
                *self.refused.entry(number).or_default() += 1;
                self.cells += cells as u64;
            }
        }
    }

    /// Prints the sums, a line each, which tools/rust/beside.sh adds up.
    pub fn print(&self) {
        println!("counted built {}", self.built.values().sum::<u64>());
        println!("counted refused {}", self.refused.values().sum::<u64>());
        println!("counted cells {}", self.cells);
    }
}

impl Pair {
    /// Takes an arena, whose nodes are the original's by their cells.
    pub fn over(arena: Arena) -> Pair {
        let nodes = Nodes::read(arena.cells(), arena.mark()).expect("a well-formed arena");
        let (ids, id_at, position_of) = Default::default();
        let mut pair = Pair { arena, nodes, originals: vec![], ids, id_at, position_of };
        pair.number(0);
        pair
    }

    /// A fresh arena.
    pub fn new(length: usize) -> Pair {
        Pair::over(Arena::new(length).expect("a length of 12 to 65,536"))
    }

    pub fn arena(&self) -> &Arena {
        &self.arena
    }

    pub fn nodes(&self) -> &Nodes {
        &self.nodes
    }

    /// Gives both an instruction, and compares: the refusal with document 01's, and then every cell; the term with the original's. A
    /// refusal for want of room is the caller's to judge.
    pub fn step(&mut self, instruction: &Instruction) -> Step {
        let before = self.arena.clone();
        let expected = self.nodes.refusal(instruction);
        match self.arena.call(instruction.operation, instruction.parameter, &instruction.operands) {
            Err(refusal) => {
                let number = refusal.number();
                assert!(
                    number == expected || (number, expected) == (9, 0),
                    "{instruction:?}: refused {number}, and not {expected}"
                );
                assert!(self.arena == before, "{instruction:?}: refused {number}, and the arena changed");
                Step::Refused(number)
            }
            Ok(position) => {
                assert_eq!(expected, 0, "{instruction:?}: accepted");
                self.take_over(&before, instruction);
                self.compare(instruction, position, before.mark());
                self.look_for_strays(instruction, position, before.mark());
                Step::Built(position)
            }
        }
    }

    /// The nodes that a call added. All else is as it was.
    fn take_over(&mut self, before: &Arena, instruction: &Instruction) {
        let (old, new) = (before.mark() as usize, self.arena.mark() as usize);
        let (cells, cells_before) = (self.arena.cells(), before.cells());
        assert!(old <= new && cells[..old] == cells_before[..old], "{instruction:?}: older cells changed");
        assert!(cells[new..] == cells_before[new..], "{instruction:?}: cells past the mark changed");
        let good = self.nodes.take(&cells[old..new], old as u64);
        assert!(good.is_some(), "{instruction:?}: no arena any more: {:?}", &cells[old..new]);
        self.number(old as u64);
    }

    /// Numbers the nodes from a position on, each of which has to be another term.
    fn number(&mut self, from: u64) {
        self.originals.resize(self.arena.mark() as usize, R::Failed);
        for position in self.nodes.positions().skip_while(|&p| p < from) {
            let node: &Node = self.nodes.node(position);
            let id = self.ids.of_node(node, |p| self.id_at[&p]);
            let other = self.position_of.insert(id, position);
            assert_eq!(other, None, "one term at {position} too");
            self.id_at.insert(position, id);
            self.originals[position as usize] = original_of(node, &self.originals);
        }
    }

    fn compare(&mut self, instruction: &Instruction, position: u64, old: u64) {
        let Instruction { operation, parameter, ref operands } = *instruction;
        let pairs = matches!(operation, 5 | 15 | 73);
        let operand = |(i, &x): (usize, &u64)| if pairs && i % 2 == 0 { Operand::Num(x) } else { Operand::Ref(x as usize) };
        let listed = operands.iter().enumerate().map(operand).collect();
        match run(operation, parameter, &Ins { operands: listed, results: &self.originals }) {
            Ok(result) => {
                let found = self.position_of.get(&self.ids.of_original(&result));
                assert_eq!(found, Some(&position), "{instruction:?}: another term than {:?}", self.nodes.node(position));
                if position >= old {
                    self.originals[position as usize] = result;
                }
            }
            // two literals shifted by 100,000 or more, for which the original is not called: 0, as SMT-LIB has it
            Err(Out::Huge) => {
                let zero = Node { kind: 17, ty: self.nodes.type_of(operands[0]), parameter: 0, members: vec![] };
                assert_eq!(*self.nodes.node(position), zero, "{instruction:?}");
            }
            Err(Out::Error(text) | Out::Bad(text)) => panic!("{instruction:?}: the original answers {text}"),
            Err(Out::R(_)) => unreachable!("a result is no error"),
        }
    }

    /// Nothing is added that the result does not name, but by operations whose steps may build what they then do not use.
    fn look_for_strays(&self, instruction: &Instruction, position: u64, old: u64) {
        if matches!(instruction.operation, 23 | 54 | 60..=66 | 70..=75) {
            return;
        }
        let mut reached = BTreeSet::from([position]);
        for position in self.nodes.positions().filter(|&p| p >= old).collect::<Vec<_>>().into_iter().rev() {
            assert!(reached.contains(&position), "{instruction:?}: added {:?} besides", self.nodes.node(position));
            let Node { ty, members, .. } = self.nodes.node(position);
            reached.extend(members.iter().chain([ty]));
        }
    }
}
