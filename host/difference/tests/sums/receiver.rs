//! Packets lent at given offsets to both sides of every set-up.

use crate::aligned::{Aligned, BORDER};
use crate::contents::Contents;
use crate::sides::{Sides, SET_UPS};
use crate::slow::Expected;
use std::fmt::{Debug, Display};

/// The longest IPv4 packet.
pub const LONGEST: usize = 65_535;

/// What is tried, for the message of a failure.
pub struct Trial<'a> {
    /// The number of the set-up.
    pub set_up: usize,
    /// What is summed.
    pub what: &'a dyn Display,
    /// Bytes of it.
    pub length: usize,
    pub contents: Contents,
    pub change: &'a dyn Debug,
}

impl<'a> Trial<'a> {
    /// The same after a change.
    pub fn with<'b>(&self, change: &'b dyn Debug) -> Trial<'b>
    where
        'a: 'b,
    {
        Trial { change, ..*self }
    }
}

/// What the slow sum says of all the bytes that are lent.
pub trait Judge: Fn(&[u8]) -> Expected {}

impl<F: Fn(&[u8]) -> Expected> Judge for F {}

/// Both sides of every set-up, the room for the packet, and how often each code came.
pub struct Receiver {
    sides: [Sides; SET_UPS.len()],
    lent: Aligned,
    turn: usize,
    pub codes: [usize; 30],
}

/// So many bytes are given behind the total length.
const TRAILING: [usize; 4] = [0, 1, 7, 64];

impl Receiver {
    pub fn new() -> Receiver {
        Receiver {
            sides: SET_UPS.map(|set_up| Sides::new(&set_up, 1500).with_memory()),
            lent: Aligned::new(LONGEST + BORDER),
            turn: 0,
            codes: [0; 30],
        }
    }

    /// Lends a packet at an offset and takes what both sides answer.
    fn answer_at(&mut self, offset: usize, packet: &[u8], judge: impl Judge, trial: &Trial) {
        let trailing = TRAILING[offset / 16 % TRAILING.len()];
        let lent = self.lent.lend(offset, packet, trailing);
        let expected = judge(lent);
        let answered = match self.sides[trial.set_up].receive(lent) {
            Ok(code) if expected.allows(code) => {
                self.codes[usize::from(code)] += 1;
                return;
            }
            Ok(code) => format!("library and reference answer {code}"),
            Err(difference) => difference,
        };
        panic!(
            "{} of {} bytes, {:x?}, {:?}, {}, at {offset} of {BORDER}, {trailing} bytes given \
             behind it: {answered}; by the slow sum {expected:?}",
            trial.what, trial.length, trial.contents, trial.change, SET_UPS[trial.set_up],
        );
    }

    /// Lends a packet at the offset whose turn it is: 64 turns have them all. Both sides
    /// must answer the same, and what the sum allows.
    pub fn receive(&mut self, packet: &[u8], judge: impl Judge, trial: &Trial) {
        self.turn += 1;
        self.answer_at(self.turn % BORDER, packet, judge, trial);
    }

    /// The same at every offset.
    pub fn receive_everywhere(&mut self, packet: &[u8], expected: Expected, trial: &Trial) {
        for offset in 0..BORDER {
            self.answer_at(offset, packet, |_| expected, trial);
        }
    }

    /// What STT segments have left in the memories is the same too.
    pub fn check_memories(&self, length: usize) {
        let same = self.sides.iter().all(Sides::memories_are_the_same);
        assert!(same, "the memories differ after segments of {length} bytes");
    }
}
