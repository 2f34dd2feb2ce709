//! Traces and their rerun: document 02, request 6. Numbers are big-endian.
//!
//! | bytes | what |
//! |---|---|
//! | 3 | the letters TRP |
//! | 2 | version, 1 |
//! | | records, up to the trace's end |
//!
//! A record is one byte 1, a tick; or byte 2, a length (2) and that many bytes, a
//! packet of at most 1,600 bytes. Anything else is broken, and so is one that the
//! trace's end cuts off.

use std::io::{self, Read, Write};

use crate::endpoint::Endpoint;
use crate::image::MAX_IMAGE;
use crate::reassembly::MEMORY_NEEDED;

const HEADER: [u8; 5] = *b"TRP\x00\x01";
const TICK: u8 = 1;
const PACKET: u8 = 2;

/// The longest packet of a trace.
pub const MAX_PACKET: usize = 1600;

/// One record of a trace.
#[derive(Clone, Copy, Debug, PartialEq, Eq)]
pub enum Record<'a> {
    /// A tick of the clock.
    Tick,
    /// An outer packet, first byte of the IP header.
    Packet(&'a [u8]),
}

/// What a trace has next.
#[derive(Clone, Copy, Debug, PartialEq, Eq)]
pub enum Next<'a> {
    /// A record.
    Record(Record<'a>),
    /// A record that breaks the form, or is cut off.
    Broken,
    /// Nothing: the trace has ended behind a record or its header.
    End,
}

/// A trace that is read record by record, in the memory of one packet.
pub struct Trace<R> {
    input: R,
    packet: [u8; MAX_PACKET],
}

impl<R: Read> Trace<R> {
    /// Reads the header; nothing where it is wrong.
    pub fn open(mut input: R) -> Option<Trace<R>> {
        let mut header = [0; HEADER.len()];
        let packet = [0; MAX_PACKET];
        let right = fill(&mut input, &mut header) && header == HEADER;
        right.then_some(Trace { input, packet })
    }

    /// The next record. Behind a broken one nothing is to be read.
    pub fn read(&mut self) -> Next<'_> {
        let mut tag = [0];
        if !fill(&mut self.input, &mut tag) {
            return Next::End;
        }
        match tag[0] {
            TICK => Next::Record(Record::Tick),
            PACKET => self.packet(),
            _ => Next::Broken,
        }
    }

    fn packet(&mut self) -> Next<'_> {
        let mut length = [0; 2];
        if !fill(&mut self.input, &mut length) {
            return Next::Broken;
        }
        let length = usize::from(u16::from_be_bytes(length));
        let Some(bytes) = self.packet.get_mut(..length) else {
            return Next::Broken;
        };
        if fill(&mut self.input, bytes) {
            Next::Record(Record::Packet(bytes))
        } else {
            Next::Broken
        }
    }
}

/// Whether there were so many bytes. What cannot be read counts as the end, as a
/// file that is missing counts as empty.
fn fill(input: &mut impl Read, bytes: &mut [u8]) -> bool {
    input.read_exact(bytes).is_ok()
}

impl Record<'_> {
    /// Puts the record behind what a trace has already.
    ///
    /// # Panics
    ///
    /// For a packet that no trace has: of more than 1,600 bytes.
    pub fn put(&self, trace: &mut Vec<u8>) {
        match self {
            Record::Tick => trace.push(TICK),
            Record::Packet(bytes) => {
                assert!(bytes.len() <= MAX_PACKET, "a packet is too long");
                trace.push(PACKET);
                trace.extend((bytes.len() as u16).to_be_bytes());
                trace.extend_from_slice(bytes);
            }
        }
    }
}

/// A trace without records; [`Record::put`] puts them behind it.
pub fn empty() -> Vec<u8> {
    HEADER.to_vec()
}

/// Writes the lines of a rerun: one for each record of the trace, on an endpoint that
/// is loaded from a settings image, up to the first broken one.
///
/// # Errors
///
/// Where the output takes no more.
pub fn rerun(settings: impl Read, trace: impl Read, output: &mut impl Write) -> io::Result<()> {
    let Some(endpoint) = load(settings) else {
        return output.write_all(b"bad settings\n");
    };
    let goes_well = match Trace::open(trace) {
        Some(trace) => records(endpoint, trace, output)?,
        None => false,
    };
    if goes_well {
        Ok(())
    } else {
        output.write_all(b"bad trace\n")
    }
}

/// A byte more than the longest image has is enough to tell that this is none.
fn load(settings: impl Read) -> Option<Endpoint> {
    let mut image = Vec::new();
    let mut front = settings.take(MAX_IMAGE as u64 + 1);
    // What was read before an error counts, as in a trace.
    let _ = front.read_to_end(&mut image);
    Endpoint::load(&image).ok()
}

/// The lines of the records before a broken one; whether there was none.
fn records(
    mut endpoint: Endpoint,
    mut trace: Trace<impl Read>,
    output: &mut impl Write,
) -> io::Result<bool> {
    let mut memory = vec![0; MEMORY_NEEDED];
    let mut number: u64 = 0;
    loop {
        number += 1;
        let packet = match trace.read() {
            Next::Record(Record::Packet(packet)) => packet,
            Next::Record(Record::Tick) => {
                endpoint.tick();
                writeln!(output, "{number} tick")?;
                continue;
            }
            Next::Broken => return Ok(false),
            Next::End => return Ok(true),
        };
        let answer = endpoint.receive(packet, &mut memory);
        match answer.tenant {
            Some(tenant) => writeln!(output, "{number} {} {tenant}", answer.code)?,
            None => writeln!(output, "{number} {} -", answer.code)?,
        }
    }
}
