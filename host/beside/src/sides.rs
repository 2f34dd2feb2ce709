//! A library endpoint and a reference reassembler that get the same packets and ticks.

use crate::counts::{Counts, Event};
use crate::reassembler::{Reassembler, BLOCK_BYTES, MEMORY_NEEDED, REBUILT, SEGMENTS, TOO_MANY};
use difference::lent::Lent;
use niulassenc::limits::{PEERS, SLOTS, TICKS};
use niulassenc::{numbers, Place};
use std::collections::BTreeMap;
use std::fmt::Debug;
use std::ops::Range;
use vectors::driver::memory_contents;
use vectors::packet::TCP;

/// The library's bytes of memory, and the reference reassembler's; and a seed for the
/// first contents of both, which are not the same.
#[derive(Clone, Copy, Debug)]
pub struct Memories {
    pub library: usize,
    pub reference: usize,
    pub seed: u32,
}

impl Memories {
    /// The least that each must be lent.
    pub fn least(seed: u32) -> Memories {
        Memories {
            library: niulassenc::MEMORY_NEEDED,
            reference: MEMORY_NEEDED,
            seed,
        }
    }
}

/// The two, the memory lent to each, and what the packets so far came to by this test's
/// own count. Where the reference reassembler must answer 32, the library is asked on a
/// copy: 32 changes nothing, so from there on the two agree as if that packet had not come.
pub struct Sides {
    library: numbers::Endpoint,
    library_memory: Vec<u8>,
    reference: Reassembler,
    reference_memory: Lent,
    /// The endpoint that both began with.
    first: numbers::Raw,
    pending: BTreeMap<Key, Taken>,
    last: numbers::Receipt,
    pub counts: Counts,
}

/// A pending frame by its sender's address and its identifier.
type Key = (u32, u32);

/// The segments that were taken of a frame, the ticks since the first, and when it came:
/// how many receives there were before.
#[derive(Clone, Copy)]
struct Taken {
    segments: usize,
    age: usize,
    opened: u64,
}

/// What the two answered.
#[derive(Clone, Copy, Debug, PartialEq, Eq)]
pub struct Codes {
    pub library: u8,
    pub reference: u8,
}

/// The receipt of 32.
const NOTHING: numbers::Receipt = numbers::Receipt {
    place: Place {
        in_memory: false,
        start: 0,
        length: 0,
    },
    tenant: numbers::NONE,
    binding: numbers::NONE,
    code: TOO_MANY,
    offset: 0,
};

fn same<T: PartialEq + Debug>(name: &str, library: T, reference: T) -> Result<(), String> {
    if library == reference {
        return Ok(());
    }
    Err(format!(
        "{name}: library {library:?}, reference reassembler {reference:?}"
    ))
}

/// Sender and identifier of what has the form of an STT segment.
fn key(packet: &[u8]) -> Option<Key> {
    let word = |at: usize| {
        let bytes = packet.get(at..at + 4)?;
        Some(u32::from_be_bytes(bytes.try_into().ok()?))
    };
    let header = usize::from(packet.first()? & 0x0F) * 4;
    (*packet.get(9)? == TCP).then_some((word(12)?, word(header + 8)?))
}

/// Whether an answer to a segment says that it was taken: 1, or what is answered once
/// its frame is complete.
fn takes(code: u8) -> bool {
    matches!(code, 0 | 1 | 12 | 13 | 28 | 29)
}

impl Sides {
    /// Both with this endpoint's configuration.
    pub fn new(endpoint: &numbers::Endpoint, memories: Memories) -> Sides {
        let contents = memory_contents(memories.reference, !memories.seed);
        Sides {
            library: endpoint.clone(),
            library_memory: memory_contents(memories.library, memories.seed),
            reference: Reassembler::start(endpoint),
            reference_memory: Lent::new(&contents),
            first: *endpoint.raw(),
            pending: BTreeMap::new(),
            last: NOTHING,
            counts: Counts::default(),
        }
    }

    pub fn reference(&self) -> &Reassembler {
        &self.reference
    }

    /// What the reference reassembler answered last.
    pub fn last(&self) -> &numbers::Receipt {
        &self.last
    }

    /// The bytes that it delivered, of this packet or of its memory.
    pub fn delivered<'a>(&'a self, packet: &'a [u8]) -> &'a [u8] {
        let memory = self.reference_memory.contents();
        self.last.place.view(packet, memory)
    }

    /// How many segments were taken of a pending frame; 0 where it is not pending.
    pub fn taken(&self, sender: u32, identifier: u32) -> usize {
        let taken = self.pending.get(&(sender, identifier));
        taken.map_or(0, |taken| taken.segments)
    }

    /// Gives both a packet, or says what differs.
    pub fn receive(&mut self, packet: &[u8]) -> Result<Codes, String> {
        let key = key(packet);
        let taken = key.and_then(|key| self.pending.get(&key)).copied();
        let is_full = taken.is_some_and(|taken| taken.segments == SEGMENTS);
        let before = self.reference.clone();
        let memory_before = self.reference_memory.contents().to_vec();
        let memory = self.reference_memory.slice();
        let answer = self.reference.receive(packet, memory);
        let code = if is_full {
            self.asked_on_a_copy(packet)
        } else {
            None
        };
        if let Some(library) = code {
            self.is_32(&answer)?;
            self.nothing_changed(&before, &memory_before)?;
            self.counts.note(Event::InsteadOf32(library));
        } else {
            let expected = self.library.receive(packet, &mut self.library_memory);
            self.same_answers(packet, &expected, &answer)?;
            let taking = key.filter(|_| takes(answer.code));
            match taking {
                Some(key) => {
                    self.only_the_sender_changed(key.0, answer.code, &before, &memory_before)?;
                    self.note(key, answer.code);
                }
                None => self.nothing_changed(&before, &memory_before)?,
            }
            if is_full && (14..=16).contains(&answer.code) {
                self.counts.note(Event::RefusedOf64(answer.code));
            }
        }
        self.last = answer;
        self.counts.note(Event::Receive);
        self.counts.note(Event::Answer(answer.code));
        self.same_frames()?;
        Ok(Codes {
            library: code.unwrap_or(answer.code),
            reference: answer.code,
        })
    }

    /// What the library answers to a segment of a frame that has as many as are kept,
    /// if it takes it.
    fn asked_on_a_copy(&self, packet: &[u8]) -> Option<u8> {
        let (mut endpoint, mut memory) = (self.library.clone(), self.library_memory.clone());
        Some(endpoint.receive(packet, &mut memory).code).filter(|&code| takes(code))
    }

    fn is_32(&self, answer: &numbers::Receipt) -> Result<(), String> {
        if *answer == NOTHING {
            return Ok(());
        }
        Err(format!("the 65th segment of its frame: {answer:?}"))
    }

    /// Number, offset, tenant, binding, length and delivered bytes. An STT frame is
    /// delivered from each one's own memory, any other from the packet.
    fn same_answers(
        &self,
        packet: &[u8],
        expected: &numbers::Receipt,
        answer: &numbers::Receipt,
    ) -> Result<(), String> {
        same("code", expected.code, answer.code)?;
        same("offset", expected.offset, answer.offset)?;
        same("tenant", expected.tenant, answer.tenant)?;
        same("binding", expected.binding, answer.binding)?;
        let (theirs, ours) = (expected.place, answer.place);
        same("in memory", theirs.in_memory, ours.in_memory)?;
        same("length", theirs.length, ours.length)?;
        if theirs.in_memory {
            same("place in its memory", REBUILT + 18, ours.start)?;
        } else {
            same("place in the packet", theirs.start, ours.start)?;
        }
        let expected = theirs.view(packet, &self.library_memory);
        let bytes = ours.view(packet, self.reference_memory.contents());
        same("delivered bytes", expected, bytes)
    }

    fn nothing_changed(&self, before: &Reassembler, memory: &[u8]) -> Result<(), String> {
        if !self.reference.reads_as(before) {
            return Err("a frame changed that is none of the packet's".to_string());
        }
        self.memory_stays(memory, &[])
    }

    /// A segment that was taken changes the frames and the blocks of its sender; a frame
    /// that it made complete is rebuilt behind the blocks.
    fn only_the_sender_changed(
        &self,
        sender: u32,
        code: u8,
        before: &Reassembler,
        memory: &[u8],
    ) -> Result<(), String> {
        let listed = self.first.addresses.iter();
        let mut listed = listed.take(usize::from(self.first.peer_count));
        let Some(peer) = listed.position(|&address| address == sender) else {
            return Err("a segment was taken that no peer sent".to_string());
        };
        for other in (0..PEERS).filter(|&other| other != peer) {
            if self.reference.frames(other) != before.frames(other) {
                return Err(format!(
                    "peer {peer} sent, and frames of peer {other} changed"
                ));
            }
        }
        let own = SLOTS * BLOCK_BYTES;
        let blocks = peer * own..(peer + 1) * own;
        let rebuilt = REBUILT..if code == 1 { REBUILT } else { MEMORY_NEEDED };
        self.memory_stays(memory, &[blocks, rebuilt])
    }

    /// All but these parts is as it was, and so are the margins of what was lent.
    fn memory_stays(&self, before: &[u8], but: &[Range<usize>]) -> Result<(), String> {
        let now = self.reference_memory.contents();
        let mut from = 0;
        for part in but.iter().chain([&(now.len()..now.len())]) {
            if now[from..part.start] != before[from..part.start] {
                let at = (from..part.start).find(|&at| now[at] != before[at]);
                return Err(format!("byte {at:?} of the memory changed"));
            }
            from = part.end;
        }
        self.reference_memory.check("memory", now)
    }

    /// Counts a segment that was taken.
    fn note(&mut self, key: Key, code: u8) {
        let taken = self.pending.entry(key).or_insert(Taken {
            segments: 0,
            age: 0,
            opened: self.counts.of(Event::Receive),
        });
        taken.segments += 1;
        if code == 1 {
            return;
        }
        if code == 0 {
            self.counts.note(Event::Reassembled);
            if taken.segments == SEGMENTS {
                self.counts.note(Event::ReassembledOf64);
            }
        }
        self.pending.remove(&key);
    }

    /// The frames that are pending are the library's, each with its length and age; and are
    /// those that were counted here, with their segments, in the order in which they were
    /// opened. The endpoint stays as it was.
    fn same_frames(&self) -> Result<(), String> {
        if *self.reference.endpoint() != self.first {
            return Err("the reference reassembler's endpoint changed".to_string());
        }
        for (peer, &address) in self.first.addresses.iter().enumerate() {
            let slots = self.library.raw().peers[peer].slots;
            let slots = slots.iter().filter(|slot| slot.pending);
            let mut expected: Vec<_> = slots
                .map(|slot| (slot.identifier, slot.frame_length, slot.age))
                .collect();
            let frames = self.reference.frames(peer).iter();
            let mut kept: Vec<_> = frames
                .clone()
                .map(|frame| (frame.identifier, frame.frame_length, frame.age))
                .collect();
            expected.sort_unstable();
            kept.sort_unstable();
            same("pending frames (identifier, length, age)", expected, kept)?;
            let of_peer = (address, u32::MIN)..=(address, u32::MAX);
            let mut counted: Vec<_> = self.pending.range(of_peer).collect();
            counted.sort_unstable_by_key(|(_, taken)| taken.opened);
            let counted = counted.iter().map(|(key, taken)| (key.1, taken.segments));
            let kept = frames.map(|frame| (frame.identifier, usize::from(frame.count)));
            if !counted.clone().eq(kept.clone()) {
                let (counted, kept): (Vec<_>, Vec<_>) = (counted.collect(), kept.collect());
                return Err(format!(
                    "pending frames (identifier, segments): {counted:?} were taken, \
                     reference reassembler {kept:?}"
                ));
            }
        }
        Ok(())
    }

    /// A tick of both.
    pub fn tick(&mut self) -> Result<(), String> {
        let memory = self.reference_memory.contents().to_vec();
        self.library.tick();
        self.reference.tick();
        self.counts.note(Event::Tick);
        let counts = &mut self.counts;
        self.pending.retain(|_, taken| {
            taken.age += 1;
            if taken.age == TICKS {
                counts.note(Event::GivenUp);
                if taken.segments == SEGMENTS {
                    counts.note(Event::GivenUpOf64);
                }
            }
            taken.age < TICKS
        });
        self.memory_stays(&memory, &[])?;
        self.same_frames()
    }
}
