//! Tests of the reference against documents 01 and 02. Expected bytes and
//! numbers are the papers' own, or were worked out by hand; packets are built
//! here with a word-by-word checksum that shares nothing with the code under
//! test.

mod build;
mod detector;
mod faults;
mod hints;
mod image;
mod listing;
mod memory;
mod offsets;
mod order;
mod outer;
mod segments;
mod trace;
mod tunnels;
mod view;
mod worked_cases;
mod wrapping;
