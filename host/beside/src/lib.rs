//! The reference reassembler (document 02, request 7) beside the library. `crates/beside`
//! exports it; here are safe calls of it, and [`Sides`], which gives both the same packets
//! and ticks and compares what they answer, keep and write.

#![deny(unsafe_op_in_unsafe_fn)]
#![deny(clippy::undocumented_unsafe_blocks)]

pub mod aimed;
pub mod counts;
mod ffi;
pub mod reassembler;
pub mod runs;
pub mod scene;
pub mod sides;

pub use counts::Counts;
pub use reassembler::Reassembler;
pub use sides::Sides;
