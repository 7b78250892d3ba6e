//! The linked library and the original in one process. `Pair` gives both the same instruction and compares what they build; `Nodes`
//! is a reading of document 01 that predicts every refusal; `Draws` makes instructions from a seed.
mod draws;
mod pair;
mod scope;
mod terms;

pub use draws::{Draws, Numbers};
pub use pair::{Counts, Pair, Step};
pub use scope::{Node, Nodes};

/// One instruction in numbers.
#[derive(Clone, Debug)]
pub struct Instruction {
    pub operation: u64,
    pub parameter: u64,
    pub operands: Vec<u64>,
}
