//! A safe face of Tameswulk's proved library, the term factory of cedar-policy-symcc in an arena of 64-bit cells.
//!
//! [`Arena`] owns its cells, so they are tested once at most, where they come from elsewhere; every call keeps them well formed.
//! [`Instruction`] has document 01's operations by name, [`Refusal`] its refusal numbers. [`Term`] and [`Type`] are positions.
//! [`raw`] has the library's functions on cells that a caller lends.
//!
//! ```
//! use tameswulk::{Arena, Instruction, Refusal};
//!
//! # fn main() -> Result<(), Refusal> {
//! let mut arena = Arena::new(8_192)?;
//! let bits = arena.build(Instruction::bitvec_type(64))?;
//! let five = arena.build(Instruction::bitvec_literal(5, bits))?;
//! let minus = arena.build(Instruction::neg(five))?;
//! assert_eq!(arena.node(minus.position()).unwrap().parameter, 5u64.wrapping_neg());
//! assert_eq!(arena.display(minus).unwrap().to_string(), "18446744073709551611:BV64");
//! assert_eq!(arena.build(Instruction::not(five)), Err(Refusal::WrongType));
//! # Ok(())
//! # }
//! ```
//!
//! A type is no term, and the compiler says so:
//!
//! ```compile_fail,E0308
//! # let mut arena = tameswulk::Arena::new(64).unwrap();
//! let bits = arena.build(tameswulk::Instruction::bitvec_type(64)).unwrap();
//! tameswulk::Instruction::neg(bits);
//! ```
#![deny(missing_docs, unsafe_op_in_unsafe_fn)]

mod display;
mod instruction;
pub mod raw;
mod refusal;

pub use display::Display;
pub use instruction::Instruction;
pub use refusal::Refusal;

/// Where a term starts.
#[derive(Clone, Copy, Debug, PartialEq, Eq, PartialOrd, Ord, Hash)]
pub struct Term(u64);

/// Where a type starts.
#[derive(Clone, Copy, Debug, PartialEq, Eq, PartialOrd, Ord, Hash)]
pub struct Type(u64);

impl Term {
    /// The literal false of every arena.
    pub const FALSE: Term = Term(4);
    /// The literal true of every arena.
    pub const TRUE: Term = Term(8);

    /// The number of its first cell.
    pub fn position(self) -> u64 {
        self.0
    }
}

impl Type {
    /// The type Bool of every arena.
    pub const BOOL: Type = Type(0);

    /// The number of its first cell.
    pub fn position(self) -> u64 {
        self.0
    }
}

mod sealed {
    pub trait Position {
        fn at(position: u64) -> Self;
    }
    impl Position for super::Term {
        fn at(position: u64) -> Self {
            super::Term(position)
        }
    }
    impl Position for super::Type {
        fn at(position: u64) -> Self {
            super::Type(position)
        }
    }
}

/// What an instruction builds: a [`Term`] or a [`Type`].
pub trait Position: sealed::Position {}
impl Position for Term {}
impl Position for Type {}

/// A node of an arena, as its cells have it.
#[derive(Clone, Copy, Debug, PartialEq, Eq)]
pub struct Node<'a> {
    /// Where it starts.
    pub position: u64,
    /// 1 to 5 for a type, 16 to 22 for a term made, 100 and the operation for an application.
    pub kind: u64,
    /// A term's type; 0, and no type, for a type.
    pub ty: u64,
    /// Width, value, id, n or attribute; else 0.
    pub parameter: u64,
    /// Positions, with an attribute before each in records and their types.
    pub members: &'a [u64],
}

/// A well-formed arena: its cells and its mark.
#[derive(Clone, Debug, PartialEq, Eq)]
pub struct Arena {
    // with `mark` always a well-formed arena: made by `fresh` or tested, and changed by calls alone
    cells: Box<[u64]>,
    mark: u64,
}

impl Arena {
    /// A fresh arena of 12 to 65,536 cells: Bool, false and true.
    pub fn new(length: usize) -> Result<Arena, Refusal> {
        // the library decides on the length; one cell too many is enough to have it refused
        let mut cells = vec![0; length.min(65_537)].into_boxed_slice();
        let mark = raw::fresh(&mut cells).ok_or(Refusal::NotAnArena)?;
        Ok(Arena { cells, mark })
    }

    /// Cells from elsewhere, tested here and never again.
    pub fn from_cells(cells: impl Into<Box<[u64]>>, mark: u64) -> Result<Arena, Refusal> {
        let mut cells = cells.into();
        // there is no operation 0: it is refused 2 on a well-formed arena, and 1 on any other cells
        match raw::call(&mut cells, mark, 0, 0, &[]) {
            Err(Refusal::NotAnInstruction) => Ok(Arena { cells, mark }),
            _ => Err(Refusal::NotAnArena),
        }
    }

    /// Builds what an instruction says, or finds it. A refusal leaves every cell and the mark.
    pub fn build<P: Position>(&mut self, instruction: Instruction<P>) -> Result<P, Refusal> {
        let position = self.call(instruction.operation(), instruction.parameter(), instruction.operands())?;
        Ok(P::at(position))
    }

    /// The same for an instruction in numbers: the position of what it builds.
    pub fn call(&mut self, operation: u64, parameter: u64, operands: &[u64]) -> Result<u64, Refusal> {
        // SAFETY: the cells with the mark are a well-formed arena.
        let accepted = unsafe { raw::call_known(&mut self.cells, self.mark, operation, parameter, operands) }?;
        self.mark = accepted.mark;
        Ok(accepted.position)
    }

    /// Every cell.
    pub fn cells(&self) -> &[u64] {
        &self.cells
    }

    /// The number of cells used.
    pub fn mark(&self) -> u64 {
        self.mark
    }

    /// The cells and the mark.
    pub fn into_cells(self) -> (Box<[u64]>, u64) {
        (self.cells, self.mark)
    }

    /// The nodes in the order of their positions.
    pub fn nodes(&self) -> impl Iterator<Item = Node<'_>> {
        let mut rest = &self.cells[..self.mark as usize];
        let mut position = 0;
        std::iter::from_fn(move || {
            let (&[kind, ty, parameter, count], behind) = rest.split_first_chunk::<4>()?;
            let (members, behind) = behind.split_at(count as usize);
            let node = Node { position, kind, ty, parameter, members };
            rest = behind;
            position += 4 + count;
            Some(node)
        })
    }

    /// The node that starts at a number, if one does.
    pub fn node(&self, position: u64) -> Option<Node<'_>> {
        self.nodes().find(|node| node.position == position)
    }

    /// The term that starts at a number, if one does.
    pub fn term(&self, position: u64) -> Option<Term> {
        self.node(position).filter(|node| node.kind >= 16).map(|_| Term(position))
    }

    /// The type that starts at a number, if one does.
    pub fn type_at(&self, position: u64) -> Option<Type> {
        self.node(position).filter(|node| node.kind < 16).map(|_| Type(position))
    }

    /// The type of a term of this arena.
    pub fn type_of(&self, t: Term) -> Option<Type> {
        self.node(t.0).filter(|node| node.kind >= 16).map(|node| Type(node.ty))
    }
}

/// The lines that answer a script: instructions in bytes, one after the other, in a fresh arena of 8,192 cells.
pub fn script(bytes: &[u8]) -> Vec<u8> {
    let mut cells = vec![0; raw::SCRIPT_CELLS];
    let mut out = vec![0; raw::SCRIPT_ROOM];
    let count = raw::script(bytes, &mut cells, &mut out).expect("the cells and the room that a script asks for");
    out.truncate(count);
    out
}
