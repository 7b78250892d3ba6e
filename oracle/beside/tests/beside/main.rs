//! The linked library and the original, given the same instructions in one process.
mod damage;
mod rooms;
mod sequences;

use beside::{Draws, Numbers, Pair};

/// An arena that so many draws left.
fn drawn(numbers: &mut Numbers, length: usize, draws: usize) -> Pair {
    let mut pair = Pair::new(length);
    for _ in 0..draws {
        let instruction = Draws::new(numbers, pair.nodes()).any();
        pair.step(&instruction);
    }
    pair
}
