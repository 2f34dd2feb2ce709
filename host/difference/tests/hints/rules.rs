//! What is written and what is answered by the papers' text.

use crate::look::{look, Hints};

/// The Context ID of the binding. No two of its bytes are the same.
pub const ID: u64 = 0x0123_4567_89AB_CDEF;

/// The STT frame that is to be written around this one, byte by byte.
pub fn stt_frame(inner: &[u8]) -> Vec<u8> {
    let Hints { flags, l4_offset } = look(inner).unwrap_or_default();
    let version_to_vlan = [0, flags, l4_offset, 0, 0, 0, 0, 0];
    let context = [0x01, 0x23, 0x45, 0x67, 0x89, 0xAB, 0xCD, 0xEF];
    [&version_to_vlan[..], &context, &[0, 0], inner].concat()
}

/// The code and the offset of an answer.
pub type Verdict = (u8, usize);

/// The answer to the segment that completes an STT frame, in the order of the checks.
pub fn answer(stt: &[u8]) -> Verdict {
    let inner = &stt[18..];
    let both_flags = stt[1] & 0x01 != 0 && stt[1] & 0x02 != 0;
    if stt[0] != 0 {
        (28, 0)
    } else if both_flags && look(inner).is_some() {
        (29, 1)
    } else if stt[8..16] != ID.to_be_bytes() {
        (12, 0)
    } else if is_tagged(inner) {
        (13, 0)
    } else {
        (0, 0)
    }
}

pub fn is_tagged(inner: &[u8]) -> bool {
    inner[12..14] == [0x81, 0x00] || inner[12..14] == [0x88, 0xA8]
}
