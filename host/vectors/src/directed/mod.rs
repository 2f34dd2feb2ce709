//! Directed cases. Each starts its own endpoint and says which code it expects;
//! the expectations are read off documents 01 and 02, never off the reference.

mod hints;
mod image;
mod listing;
mod outer;
mod segments;
mod tunnels;
mod wrapping;

use crate::packet::{self, Label, Path};
use crate::prng::Prng;
use crate::recorder::Recorder;

pub const OWN: u32 = 0x0A00_0001;
pub const PEER_A: u32 = 0x0A00_0002;
pub const PEER_B: u32 = 0x0A00_0003;
pub const PORT: u16 = 7471;
pub const CONTEXT: u64 = 0x0123_4567_89AB_CDEF;
pub const FROM_A: Path = Path {
    from: PEER_A,
    to: OWN,
};
pub const FROM_B: Path = Path {
    from: PEER_B,
    to: OWN,
};
pub const ENOUGH: usize = 55_296;

/// Kinds of the listing.
pub const VXLAN: u8 = 1;
pub const NVGRE: u8 = 2;
pub const STT: u8 = 3;

type Case = fn(&mut Recorder, &mut Prng);

/// Runs every directed case.
pub fn all(recorder: &mut Recorder, prng: &mut Prng) {
    let groups = [
        listing::CASES,
        outer::CASES,
        tunnels::CASES,
        segments::CASES,
        wrapping::CASES,
        hints::CASES,
        image::CASES,
    ];
    for (name, case) in groups.into_iter().flatten() {
        recorder.case = name;
        case(recorder, prng);
    }
}

/// The set-up most cases use: two peers, each with one network of each kind,
/// numbered 0, 1, 2 and 3, 4, 5, and just enough memory of given contents.
pub fn set_up(recorder: &mut Recorder, seed: u32) {
    recorder.start(0, OWN, PORT, 1500);
    recorder.peer(0, PEER_A);
    recorder.peer(0, PEER_B);
    for peer in 0..2 {
        let tenant = 100 * (peer + 1);
        recorder.binding(0, peer, VXLAN, 22, tenant + 1);
        recorder.binding(0, peer, NVGRE, 4096, tenant + 2);
        recorder.binding(0, peer, STT, CONTEXT, tenant + 3);
    }
    recorder.lend(ENOUGH, seed);
}

/// An inner frame of `length` bytes with a type that is neither tag nor IP.
pub fn inner(prng: &mut Prng, length: usize) -> Vec<u8> {
    let mut frame = prng.bytes(length);
    if length >= 14 {
        frame[12] = 0x09;
    }
    frame
}

/// The same, of at least 34 bytes, with TCP behind an IPv4 header of five words.
pub fn with_tcp(prng: &mut Prng, length: usize) -> Vec<u8> {
    let mut frame = inner(prng, length);
    packet::put_ipv4(&mut frame, 5, packet::TCP);
    frame
}

/// A good STT frame of `length` bytes, header included.
pub fn good_frame(prng: &mut Prng, length: usize) -> Vec<u8> {
    packet::stt_frame(CONTEXT, &inner(prng, length - 18))
}

/// One segment of `frame` from peer A.
pub fn part(identifier: u32, frame: &[u8], from: usize, to: usize) -> Vec<u8> {
    let label = Label::new(PORT, identifier, frame.len(), from);
    packet::segment(FROM_A, label, &frame[from..to])
}

/// A segment of peer A that says what it likes about its frame.
pub fn loose(identifier: u32, length: usize, offset: usize, bytes: &[u8]) -> Vec<u8> {
    packet::segment(FROM_A, Label::new(PORT, identifier, length, offset), bytes)
}
