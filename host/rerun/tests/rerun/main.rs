//! The program `rerun` against the reference: what it writes is compared byte by byte.
//! Each test counts what it has met, so that it does not pass by meeting nothing.

mod arguments;
mod broken;
mod good;
mod outputs;
mod pieces;
mod settings;
mod tally;
mod tester;
mod traces;
