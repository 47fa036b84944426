//! Random inputs for the eight functions: accepted texts, expressions, mutants, texts at the limits,
//! good and damaged images, states and rows.

pub mod arithmetic;
pub mod batches;
pub mod expressions;
pub mod images;
pub mod limits;
pub mod mutants;
pub mod random;
pub mod rows;
pub mod spelling;
pub mod states;
pub mod texts;
pub mod vectors;
