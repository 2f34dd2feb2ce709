//! Traces to test with: the generator's, and some by hand.

use niulassenc_reference::trace::{self, Record};
use vectors::packet::{cut, nvgre, stt_frame, vxlan, T};
use vectors::prng::Prng;
use vectors::recorder::Recorder;
use vectors::traces::{self, Pair};

/// The image that the traces below are for: tenants 101 to 103 and 201 to 203.
pub use vectors::traces::settings;
use vectors::{directed, random};

/// The pairs of the generator's directed cases.
pub fn of_directed_cases(seed: u64) -> Vec<Pair> {
    let mut recorder = Recorder::keeping();
    directed::all(&mut recorder, &mut Prng::new(seed));
    traces::pairs(&recorder.into_records())
}

/// The pairs of the generator's random part.
pub fn of_random_steps(seed: u64, steps: usize) -> Vec<Pair> {
    let mut recorder = Recorder::keeping();
    random::steps(&mut recorder, &mut Prng::new(seed), steps);
    traces::pairs(&recorder.into_records())
}

/// Copies of the bytes, each with one byte changed: each takes values near its own,
/// and these.
pub fn each_changed<'a>(bytes: &'a [u8], to: &'a [u8]) -> impl Iterator<Item = Vec<u8>> + 'a {
    let near = |own: u8| {
        [
            own ^ 1,
            own ^ 0x80,
            own.wrapping_add(1),
            own.wrapping_sub(1),
        ]
    };
    (0..bytes.len()).flat_map(move |at| {
        let values = to.iter().copied().chain(near(bytes[at]));
        values.map(move |value| {
            let mut copy = bytes.to_vec();
            copy[at] = value;
            copy
        })
    })
}

/// A trace of these records.
pub fn trace<'a>(records: impl IntoIterator<Item = Record<'a>>) -> Vec<u8> {
    let mut bytes = trace::empty();
    for record in records {
        record.put(&mut bytes);
    }
    bytes
}

/// So many ticks.
pub fn ticks(count: usize) -> Vec<u8> {
    trace(vec![Record::Tick; count])
}

/// A few records of each kind, a frame in two segments among them.
pub fn small() -> Vec<u8> {
    let frame = stt_frame(directed::CONTEXT, &T);
    let segments = cut(directed::FROM_A, directed::PORT, 5, &frame, &[9]);
    trace([
        Record::Tick,
        Record::Packet(&vxlan(directed::FROM_A, 22, &T)),
        Record::Packet(&segments[1]),
        Record::Packet(&[]),
        Record::Tick,
        Record::Packet(&nvgre(directed::FROM_B, 4096, &T)),
        Record::Packet(&segments[0]),
        Record::Packet(&[0x45]),
    ])
}

/// The records of many of the generator's traces, all for [`settings`], with numbers
/// of up to six digits.
pub fn large(least: usize) -> Vec<u8> {
    let mut bytes = trace::empty();
    let header = bytes.len();
    let pair = traces::for_the_program();
    let broken = 3 + trace::MAX_PACKET + 1 + 1;
    let records = &pair.trace[header..pair.trace.len() - broken];
    while bytes.len() < least {
        bytes.extend_from_slice(records);
        // Another length each time, so that records lie otherwise in a buffer.
        Record::Tick.put(&mut bytes);
    }
    bytes
}
