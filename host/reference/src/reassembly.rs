//! Reassembly of STT frames in the lent memory (document 01, "Reassembly
//! memory"). The endpoint keeps only identifier, length and age of a pending
//! frame; which bytes were received is told by the received map in the memory alone.

use crate::answer::Refusal;
use crate::headers::{Segment, MAX_INNER, MIN_INNER, STT_HEADER};
use crate::listing::MAX_PEERS;
use crate::received_map::{self, Map, MAP_ROOM};

/// Slots each peer has.
pub const SLOTS_PER_PEER: usize = 4;

const FRAME_ROOM: usize = 1536;

/// Bytes of one slot: room for the frame, then its received map.
pub const SLOT_SIZE: usize = FRAME_ROOM + MAP_ROOM;

/// Least length of the reassembly memory: 55,296 bytes.
pub const MEMORY_NEEDED: usize = MAX_PEERS * SLOTS_PER_PEER * SLOT_SIZE;

const MIN_FRAME: usize = STT_HEADER + MIN_INNER;
const MAX_FRAME: usize = STT_HEADER + MAX_INNER;

/// A frame is given up with the tick that brings it to this age.
const AGE_LIMIT: u8 = 4;

/// A frame that still lacks bytes.
#[derive(Clone, Copy, Debug, PartialEq, Eq)]
pub struct Pending {
    /// The identifier of its segments.
    pub identifier: u32,
    /// The STT frame's length.
    pub length: u16,
    /// Ticks since its first segment.
    pub age: u8,
}

/// The slots of one peer; `None` is free.
pub type Row = [Option<Pending>; SLOTS_PER_PEER];

/// What taking a segment led to.
pub enum Taken {
    /// The frame still lacks bytes.
    Pending,
    /// The frame is complete; its slot is free already.
    Complete {
        /// Where the STT frame starts in the memory.
        start: usize,
        /// Bytes of the STT frame.
        length: usize,
    },
}

/// The pending frames of all peers.
#[derive(Clone, Debug, PartialEq, Eq)]
pub struct Reassembly {
    rows: [Row; MAX_PEERS],
}

impl Reassembly {
    pub fn empty() -> Reassembly {
        Reassembly {
            rows: [[None; SLOTS_PER_PEER]; MAX_PEERS],
        }
    }

    /// The slots of each peer.
    pub fn rows(&self) -> &[Row; MAX_PEERS] {
        &self.rows
    }

    /// Checks 14, then 15 and 16 or 17; then takes the segment. The memory is
    /// at least [`MEMORY_NEEDED`] long: the endpoint has asked (check 2).
    pub fn take(
        &mut self,
        peer: u16,
        segment: &Segment,
        memory: &mut [u8],
    ) -> Result<Taken, Refusal> {
        let (start, end) = bounds(segment)?;
        let length = usize::from(segment.frame_length);
        let row = &mut self.rows[usize::from(peer)];
        let slot_start = |slot: usize| (SLOTS_PER_PEER * usize::from(peer) + slot) * SLOT_SIZE;

        let slot = match pending_slot(row, segment.identifier) {
            Some((slot, pending)) => {
                let (_, map) = slot_parts(memory, slot_start(slot));
                check_pending(pending, segment, map, start, end)?;
                slot
            }
            None => {
                let slot = open_slot(row, segment)?;
                slot_parts(memory, slot_start(slot)).1.fill(0);
                slot
            }
        };

        let (frame, map) = slot_parts(memory, slot_start(slot));
        frame[start..end].copy_from_slice(segment.bytes);
        received_map::mark_received(map, start, end);
        if !received_map::is_complete(map, length) {
            return Ok(Taken::Pending);
        }
        row[slot] = None;
        Ok(Taken::Complete {
            start: slot_start(slot),
            length,
        })
    }

    /// Adds 1 to every age and gives up the frames that reach the limit. The
    /// memory is not touched: a slot's map is cleared when it is taken again.
    pub fn tick(&mut self) {
        for slot in self.rows.as_flattened_mut() {
            if let Some(pending) = slot {
                pending.age += 1;
                if pending.age >= AGE_LIMIT {
                    *slot = None;
                }
            }
        }
    }
}

/// Check 14. Both fields are 16 bits wide and so might wrap; they are added as
/// machine words.
fn bounds(segment: &Segment) -> Result<(usize, usize), Refusal> {
    let length = usize::from(segment.frame_length);
    let start = usize::from(segment.offset);
    let end = start + segment.bytes.len();
    if segment.bytes.is_empty() || !(MIN_FRAME..=MAX_FRAME).contains(&length) || end > length {
        return Err(Refusal::BadSegment);
    }
    Ok((start, end))
}

/// A frame's key is its peer (the row) and its identifier.
fn pending_slot(row: &Row, identifier: u32) -> Option<(usize, &Pending)> {
    row.iter()
        .enumerate()
        .filter_map(|(slot, pending)| Some((slot, pending.as_ref()?)))
        .find(|(_, pending)| pending.identifier == identifier)
}

/// Checks 15 and 16.
fn check_pending(
    pending: &Pending,
    segment: &Segment,
    map: &Map,
    start: usize,
    end: usize,
) -> Result<(), Refusal> {
    if pending.length != segment.frame_length {
        return Err(Refusal::LengthDiffers);
    }
    if received_map::any_received(map, start, end) {
        return Err(Refusal::AlreadyReceived);
    }
    Ok(())
}

/// Check 17; else the lowest free slot is taken by the new frame.
fn open_slot(row: &mut Row, segment: &Segment) -> Result<usize, Refusal> {
    let slot = row
        .iter()
        .position(Option::is_none)
        .ok_or(Refusal::NoSlot)?;
    row[slot] = Some(Pending {
        identifier: segment.identifier,
        length: segment.frame_length,
        age: 0,
    });
    Ok(slot)
}

/// Frame room and received map of the slot that starts at `start`.
fn slot_parts(memory: &mut [u8], start: usize) -> (&mut [u8], &mut Map) {
    let slot = &mut memory[start..start + SLOT_SIZE];
    slot.split_last_chunk_mut()
        .expect("a slot ends with its map")
}
