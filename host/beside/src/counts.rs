//! What was compared, so that a test that compares nothing fails.

use std::collections::BTreeMap;

/// How often each of these came.
#[derive(Clone, Copy, Debug, PartialEq, Eq, PartialOrd, Ord)]
pub enum Event {
    Receive,
    Tick,
    /// An answer of the reference reassembler.
    Answer(u8),
    /// A frame that both delivered from their memories.
    Reassembled,
    /// The same, of as many segments as are kept.
    ReassembledOf64,
    /// A frame that was given up.
    GivenUp,
    /// The same, of as many segments as are kept.
    GivenUpOf64,
    /// 14, 15 or 16 to a segment of a frame that has as many as are kept.
    RefusedOf64(u8),
    /// What the library answered where the reference reassembler answered 32.
    InsteadOf32(u8),
}

#[derive(Clone, Debug, Default, PartialEq, Eq)]
pub struct Counts {
    events: BTreeMap<Event, u64>,
}

impl Counts {
    pub fn of(&self, event: Event) -> u64 {
        self.events.get(&event).copied().unwrap_or(0)
    }

    pub fn note(&mut self, event: Event) {
        self.note_times(event, 1);
    }

    pub fn note_times(&mut self, event: Event, times: u64) {
        *self.events.entry(event).or_default() += times;
    }

    pub fn add(&mut self, other: &Counts) {
        for (event, times) in &other.events {
            self.note_times(*event, *times);
        }
    }

    /// Fails where one of these came less often than it must.
    pub fn at_least(&self, least: &[(Event, u64)]) {
        for (event, least) in least {
            let count = self.of(*event);
            assert!(count >= *least, "{event:?} came {count} times: {self:?}");
        }
    }
}
