//! A second interpreter of the Pantagruel bench engine, written from document 01 and orders 1 to 7 of document 02, and the means to
//! compare it with the engine. The calls and the layout of memory (`image`) are the engine's own, by its header and a description of its bytes.
//!
//! What needs the engine's archive exists only with it: the interpreter is never compared with itself.

#[cfg(feature = "archive")]
pub mod archive;
pub mod calls;
#[cfg(feature = "archive")]
pub mod compare;
pub mod counts;
pub mod cycles;
pub mod generate;
pub mod image;
pub mod interpreter;
pub mod memory;
pub mod names;
pub mod options;
pub mod places;
pub mod ranks;
pub mod replay;
pub mod resent;
pub mod rests;
pub mod runner;
pub mod senders;
pub mod sheets;
pub mod show;
#[cfg(feature = "archive")]
pub mod shrink;
pub mod thin;
#[cfg(feature = "archive")]
pub mod two_runs;
