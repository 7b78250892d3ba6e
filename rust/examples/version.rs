//! The version rule: a lower price version never overwrites a higher one. What breaks it is `new slt old`, over two 64-bit variables.
use tameswulk::{Arena, Instruction, Refusal};

fn main() -> Result<(), Refusal> {
    let mut arena = Arena::new(8_192)?;
    let version = arena.build(Instruction::bitvec_type(64))?;
    let old = arena.build(Instruction::variable(0, version))?;
    let new = arena.build(Instruction::variable(1, version))?;
    let broken = arena.build(Instruction::slt(new, old))?;

    println!("{}", arena.display(broken).expect("a term of this arena"));
    println!("new {} slt old {} is the term {}, mark {}", new.position(), old.position(), broken.position(), arena.mark());
    for node in arena.nodes() {
        println!(
            "{}: kind {}, type {}, parameter {}, members {:?}",
            node.position, node.kind, node.ty, node.parameter, node.members
        );
    }
    Ok(())
}
