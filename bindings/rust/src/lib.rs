//! Safe calls of Rabtishu, a proved compiler from ABC-VHDL to cycle tables for countdown boards.
//!
//! A text of one clocked process is compiled to an image; an image that is opened runs row by row.
//! What every call answers, for every text, image, state and row, is proved in the repository
//! (README.md, the three promises). This crate only lends memory to the proved functions and
//! gives their answers Rust's shape; it is tested, not proved.
//!
//! ```
//! use rabtishu::Image;
//! let text = include_bytes!("../../../examples/tally/process.vhd");
//! let bytes = rabtishu::compile(text)?;
//! let image = Image::open(&bytes)?;
//! let mut state = image.fresh();
//! let mut outputs = [0];
//! let lines = image.cycle(&mut state, &[7], &mut outputs)?;
//! assert_eq!((lines, outputs), (3, [0]));
//! # Ok::<(), rabtishu::Refusal>(())
//! ```
//!
//! Compiling and the direct run keep about 230,000 bytes on the stack; a thread of 1 MiB is enough
//! for every call. The crate needs no operating system, and without the features `std` (on by
//! default) and `alloc` no heap:
//! it lacks `compile` then, and has [`compile_into`].

#![no_std]
#![warn(missing_docs, clippy::undocumented_unsafe_blocks)]

#[cfg(feature = "alloc")]
extern crate alloc;

mod image;
pub mod raw;
mod refusal;
mod state;
mod text;

pub use image::{Image, Row, LONGEST_IMAGE};
pub use refusal::Refusal;
pub use state::{State, BEGINNING};
#[cfg(feature = "alloc")]
pub use text::compile;
pub use text::{check, compile_into, direct, direct_fresh, token_at, LONGEST_TEXT};

/// The examples of README.md, run with those of the documentation.
#[cfg(doctest)]
#[doc = include_str!("../README.md")]
struct Readme;
