//! An independent implementation of document 01 and of the change requests that have landed, written
//! from the documents alone: the texts, the images, the cycle on a table, the direct run from the
//! text, and the trace.
//!
//! Each file has one topic and quotes the sentences that it follows. `board` gathers the eight
//! public functions in the shape of the C interface; `generate` makes random inputs for them;
//! `compare` holds two boards, or the two runs of one board, side by side.

pub mod answer;
pub mod arithmetic;
pub mod batch;
pub mod batches;
pub mod board;
pub mod caller;
pub mod classes;
pub mod clock;
pub mod compare;
pub mod damaged;
pub mod declarations;
pub mod design;
pub mod direct;
pub mod division;
pub mod encoder;
pub mod frozen;
pub mod generate;
pub mod kinds;
pub mod lexer;
pub mod limits;
pub mod loader;
pub mod loops;
pub mod names;
pub mod parser;
#[cfg(proved)]
pub mod proved;
pub mod refusals;
pub mod row;
pub mod state;
pub mod table;
pub mod trace;
pub mod tree;
pub mod types;
pub mod values;
pub mod vectors;
pub mod verdict;
