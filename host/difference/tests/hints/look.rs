//! The look for a transport header, told as what single bytes are (document 02, section
//! 5): one line for each header that there may be.

/// What the header of an STT frame says of the frame in it.
#[derive(Clone, Copy, Debug, Default, PartialEq, Eq)]
pub struct Hints {
    pub flags: u8,
    pub l4_offset: u8,
}

/// A byte of the frame: its place, which of its bits count, and what these are.
type Byte = (usize, u8, u8);

/// The type, and a fragment offset of 0.
const IPV4: [Byte; 4] = [
    (12, 0xFF, 0x08),
    (13, 0xFF, 0x00),
    (20, 0x1F, 0x00),
    (21, 0xFF, 0x00),
];

/// Version and length of the header, and the length of the shortest frame that has all
/// of it.
const IPV4_LENGTHS: [(Byte, u8); 11] = [
    ((14, 0xFF, 0x45), 34),
    ((14, 0xFF, 0x46), 38),
    ((14, 0xFF, 0x47), 42),
    ((14, 0xFF, 0x48), 46),
    ((14, 0xFF, 0x49), 50),
    ((14, 0xFF, 0x4A), 54),
    ((14, 0xFF, 0x4B), 58),
    ((14, 0xFF, 0x4C), 62),
    ((14, 0xFF, 0x4D), 66),
    ((14, 0xFF, 0x4E), 70),
    ((14, 0xFF, 0x4F), 74),
];

/// What follows, and the flags: 0x04 says IPv4, 0x08 says TCP.
const BEHIND_IPV4: [(Byte, u8); 2] = [((23, 0xFF, 6), 0x0C), ((23, 0xFF, 17), 0x04)];

const IPV6: [Byte; 2] = [(12, 0xFF, 0x86), (13, 0xFF, 0xDD)];

const IPV6_LENGTHS: [(Byte, u8); 1] = [((14, 0xF0, 0x60), 54)];

const BEHIND_IPV6: [(Byte, u8); 2] = [((20, 0xFF, 6), 0x08), ((20, 0xFF, 17), 0x00)];

fn has(frame: &[u8], (at, counts, value): Byte) -> bool {
    frame.get(at).is_some_and(|byte| byte & counts == value)
}

fn all(frame: &[u8], bytes: &[Byte]) -> bool {
    bytes.iter().all(|&byte| has(frame, byte))
}

/// The first line whose byte the frame has.
fn line(frame: &[u8], lines: &[(Byte, u8)]) -> Option<u8> {
    let found = lines.iter().find(|(byte, _)| has(frame, *byte));
    found.map(|&(_, number)| number)
}

/// What is said of the frame, or nothing where it has no transport header. UDP over IPv6
/// has one, though no flag says so.
pub fn look(frame: &[u8]) -> Option<Hints> {
    let (lengths, behind) = if all(frame, &IPV4) {
        (&IPV4_LENGTHS[..], &BEHIND_IPV4)
    } else if all(frame, &IPV6) {
        (&IPV6_LENGTHS[..], &BEHIND_IPV6)
    } else {
        return None;
    };
    let l4_offset = line(frame, lengths)?;
    let flags = line(frame, behind)?;
    let whole = frame.len() >= usize::from(l4_offset);
    whole.then_some(Hints { flags, l4_offset })
}
