//! Instructions from a seed: most have operands of the types that the operation names, some are changed into wrong ones.
use crate::{Instruction, Nodes};

/// Operands have smaller trees, since the original walks a shared term once for each path.
const TREE: u64 = 120;

/// A row of numbers that a seed fixes.
pub struct Numbers(u64);

impl Numbers {
    pub fn new(seed: u64) -> Numbers {
        Numbers(seed)
    }

    /// Any 64 bits (splitmix64).
    pub fn bits(&mut self) -> u64 {
        self.0 = self.0.wrapping_add(0x9E37_79B9_7F4A_7C15);
        let x = (self.0 ^ (self.0 >> 30)).wrapping_mul(0xBF58_476D_1CE4_E5B9);
        let x = (x ^ (x >> 27)).wrapping_mul(0x94D0_49BB_1331_11EB);
        x ^ (x >> 31)
    }

    pub fn below(&mut self, n: u64) -> u64 {
        self.bits() % n
    }

    pub fn one_of(&mut self, numbers: &[u64]) -> u64 {
        numbers[self.below(numbers.len() as u64) as usize]
    }
}

/// Draws instructions for an arena.
pub struct Draws<'a> {
    numbers: &'a mut Numbers,
    nodes: &'a Nodes,
    terms: Vec<u64>,
    types: Vec<u64>,
}

impl<'a> Draws<'a> {
    pub fn new(numbers: &'a mut Numbers, nodes: &'a Nodes) -> Draws<'a> {
        let (terms, types) = nodes.positions().filter(|&p| nodes.tree(p) < TREE).partition(|&p| nodes.is_term(p));
        Draws { numbers, nodes, terms, types }
    }

    /// An instruction, and one of four times a wrong one.
    pub fn any(&mut self) -> Instruction {
        let operation = self.operation();
        let mut instruction = self.right(operation);
        if self.numbers.below(4) == 0 {
            self.change(&mut instruction);
        }
        instruction
    }

    /// Of three operations one makes a type or a leaf, so that there is something to operate on.
    fn operation(&mut self) -> u64 {
        let made = 12;
        let all: Vec<u64> = (1..=5).chain(10..=16).chain(20..=26).chain(30..=56).chain(60..=66).chain(70..=75).collect();
        let some = if self.numbers.below(3) == 0 { &all[..made] } else { &all[made..] };
        self.numbers.one_of(some)
    }

    /// An instruction of an operation, with operands of the types that it names as far as the arena has them.
    pub fn right(&mut self, operation: u64) -> Instruction {
        let operands = self.operands(operation);
        let parameter = self.parameter(operation, &operands);
        Instruction { operation, parameter, operands }
    }

    fn operands(&mut self, operation: u64) -> Vec<u64> {
        match operation {
            3 | 12 | 16 => vec![self.type_where(|_, _| true)],
            4 => vec![self.type_where(|nodes, ty| !nodes.contains_set(ty))],
            5 => self.type_fields(),
            11 => vec![self.type_where(|nodes, ty| nodes.kind(ty) == 2)],
            13 => vec![self.term()],
            14 => self.set(),
            15 => self.fields(Draws::term),
            20 | 70 => vec![self.of_kind(1)],
            21..=23 => vec![self.of_kind(1), self.of_kind(1)],
            24 => self.pair(Draws::term),
            25 => [vec![self.of_kind(1)], self.pair(Draws::term)].concat(),
            26 => vec![self.type_where(|_, _| true), self.term()],
            30 | 45 | 49 => vec![self.of_kind(2)],
            31..=48 => self.pair(|draws| draws.of_kind(2)),
            50 => self.member(),
            51 | 52 | 54 => self.pair(|draws| draws.of_kind(4)),
            53 | 72 => vec![self.of_kind(4)],
            55 | 60 | 61 => vec![self.of_kind(3)],
            56 | 74 | 75 => vec![self.of_kind(5)],
            62 | 63 => vec![self.of_kind(1), self.term()],
            64 => vec![self.of_kind(3), self.term()],
            65 => self.options(),
            66 => [vec![self.term()], self.options()].concat(),
            71 => vec![self.term_where(|nodes, ty| nodes.kind(ty) == 2 && nodes.width(ty) == 64)],
            73 => self.fields(|draws| draws.of_kind(3)),
            _ => vec![],
        }
    }

    fn parameter(&mut self, operation: u64, operands: &[u64]) -> u64 {
        match operation {
            2 => {
                let width = 1 + self.numbers.below(64);
                self.numbers.one_of(&[1, 2, 4, 8, 32, 33, 64, 64, 64, width])
            }
            10 => self.numbers.below(2),
            11 => self.value(operands[0]),
            16 | 26 | 49 => self.numbers.below(4),
            56 | 74 | 75 => {
                let ty = self.nodes.type_of(operands[0]);
                let there: Vec<u64> = self.nodes.node(ty).members.iter().copied().step_by(2).collect();
                let other = self.numbers.below(6);
                let known = if there.is_empty() { other } else { self.numbers.one_of(&there) };
                self.numbers.one_of(&[known, known, known, other])
            }
            _ => 0,
        }
    }

    /// A value of a Bitvec type, often at an edge.
    fn value(&mut self, ty: u64) -> u64 {
        let width = if self.nodes.kind(ty) == 2 { self.nodes.width(ty) } else { 1 };
        let most = u64::MAX >> (64 - width);
        let (any, low) = (self.numbers.bits() & most, self.numbers.below(70) & most);
        self.numbers.one_of(&[0, 1, most, most >> 1, (most >> 1) + 1, any, low, low])
    }

    fn term_where(&mut self, fits: impl Fn(&Nodes, u64) -> bool) -> u64 {
        let fitting: Vec<u64> = self.terms.iter().copied().filter(|&t| fits(self.nodes, self.nodes.type_of(t))).collect();
        self.numbers.one_of(if fitting.is_empty() { &self.terms } else { &fitting })
    }

    fn type_where(&mut self, fits: impl Fn(&Nodes, u64) -> bool) -> u64 {
        let fitting: Vec<u64> = self.types.iter().copied().filter(|&ty| fits(self.nodes, ty)).collect();
        self.numbers.one_of(if fitting.is_empty() { &self.types } else { &fitting })
    }

    fn term(&mut self) -> u64 {
        self.term_where(|_, _| true)
    }

    fn of_kind(&mut self, kind: u64) -> u64 {
        self.term_where(|nodes, ty| nodes.kind(ty) == kind)
    }

    fn of_type(&mut self, wanted: u64) -> u64 {
        self.term_where(|_, ty| ty == wanted)
    }

    fn pair(&mut self, first: impl Fn(&mut Self) -> u64) -> Vec<u64> {
        let t = first(self);
        vec![t, self.of_type(self.nodes.type_of(t))]
    }

    fn set(&mut self) -> Vec<u64> {
        let element = self.type_where(|nodes, ty| !nodes.contains_set(ty));
        let count = self.numbers.below(5);
        let members: Vec<u64> = (0..count).map(|_| self.of_type(element)).collect();
        [vec![element], members].concat()
    }

    fn member(&mut self) -> Vec<u64> {
        let set = self.of_kind(4);
        let ty = self.nodes.type_of(set);
        let wanted = if self.nodes.kind(ty) == 4 { self.nodes.element(ty) } else { ty };
        vec![self.of_type(wanted), set]
    }

    fn options(&mut self) -> Vec<u64> {
        let count = self.numbers.below(5);
        (0..count).map(|_| self.of_kind(3)).collect()
    }

    fn fields(&mut self, value: impl Fn(&mut Self) -> u64) -> Vec<u64> {
        let count = self.numbers.below(4);
        (0..count).flat_map(|_| [self.numbers.below(5), value(self)]).collect()
    }

    fn type_fields(&mut self) -> Vec<u64> {
        let mut attributes: Vec<u64> = (0..5).collect();
        attributes.retain(|_| self.numbers.below(2) == 0);
        attributes.into_iter().flat_map(|a| [a, self.type_where(|_, _| true)]).collect()
    }

    /// Makes one thing wrong, or at least another.
    fn change(&mut self, instruction: &mut Instruction) {
        let operands = &mut instruction.operands;
        let last = self.nodes.positions().last().unwrap_or(0);
        let any = self.numbers.below(last + 12);
        let position = if self.nodes.tree(any) < TREE { any } else { 5 };
        let other = self.numbers.one_of(&[position, position, position, 0, 4, 1 << 32, u64::MAX]);
        match self.numbers.below(8) {
            0 => instruction.operation = self.numbers.below(80),
            1 => instruction.parameter = self.numbers.one_of(&[0, 1, 2, 64, 65, (1 << 32) - 1, 1 << 32, u64::MAX]),
            2 => operands.push(other),
            3 => drop(operands.pop()),
            _ if operands.is_empty() => instruction.parameter = other,
            _ => {
                let i = self.numbers.below(operands.len() as u64) as usize;
                operands[i] = other;
            }
        }
    }
}
