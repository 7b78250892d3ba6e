//! Stands for what the other modules take from src/symcc.rs, and from files that the oracle does not have
//! (concretizer, decoder, encoder, solver). Nothing here is executed.
use crate::symcc::{env, function::Udf, op::Uuf, term::Term, term_type::TermType};
pub use crate::symcc::{
    bitvec::BitVecError,
    env::{CompiledSchema, Environment, SymEnv},
    interpretation::Interpretation,
    result::CompileError,
};

/// Uninhabited error types, named by err.rs only.
#[derive(Debug, thiserror::Error)]
pub enum ConcretizeError {}
#[derive(Debug, thiserror::Error)]
pub enum DecodeError {}
#[derive(Debug, thiserror::Error)]
pub enum EncodeError {}
#[derive(Debug, thiserror::Error)]
pub enum SolverError {}

// interpretation.rs calls these two; their home, decoder.rs, is one of those files.
impl TermType {
    pub fn default_literal(&self, _: &env::SymEnv) -> Term {
        unimplemented!("stand-in")
    }
}
impl Uuf {
    pub fn default_udf(&self, _: &env::SymEnv) -> Udf {
        unimplemented!("stand-in")
    }
}
