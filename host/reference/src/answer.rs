//! The numbered answers of documents 01 and 02 and what they carry.

/// The number of an answer, 0 to 29; 11 is no longer given.
pub type Code = u8;

/// Delivered, written or done.
pub const DONE: Code = 0;

/// Segment received, its frame not yet complete.
pub const PENDING: Code = 1;

/// Why a call was refused; the discriminant is the papers' number.
#[derive(Clone, Copy, Debug, PartialEq, Eq)]
#[repr(u8)]
pub enum Refusal {
    /// Reassembly memory under 55,296 bytes.
    MemoryTooSmall = 2,
    /// Too short, not version 4, or lengths that contradict each other.
    NotIpv4 = 3,
    /// IPv4 header checksum wrong.
    BadIpv4Checksum = 4,
    /// More-fragments bit set or fragment offset not 0.
    Fragment = 5,
    /// Destination is not our address.
    NotForUs = 6,
    /// Source is not a listed peer.
    UnknownPeer = 7,
    /// Protocol or destination port of no tunnel.
    UnknownProtocol = 8,
    /// UDP, GRE or TCP-shaped header broken.
    BadTransportHeader = 9,
    /// UDP checksum non-zero and wrong, or TCP checksum wrong.
    BadTransportChecksum = 10,
    /// No binding for this peer, kind and network id.
    NoBinding = 12,
    /// Inner frame breaks its rule.
    BadFrame = 13,
    /// Segment empty, frame length out of range, or segment past its frame.
    BadSegment = 14,
    /// The identifier is pending with another length.
    LengthDiffers = 15,
    /// Some byte of the segment was received already.
    AlreadyReceived = 16,
    /// A new identifier, and the peer's four slots are taken.
    NoSlot = 17,
    /// A setting or binding outside its range, or naming a peer not listed.
    OutOfRange = 18,
    /// Peer or binding already listed.
    AlreadyListed = 19,
    /// Peers or bindings full.
    Full = 20,
    /// Output shorter than the packet, or than the settings image.
    OutputTooShort = 21,
    /// VXLAN or NVGRE packet would exceed the MTU.
    ExceedsMtu = 22,
    /// No such binding, or no such segment number.
    NoSuch = 23,
    /// No settings image: not what a save gives, or not that alone.
    BadImage = 24,
    /// VXLAN flag I not set.
    BadVxlanFlag = 25,
    /// First two bytes of the GRE header wrong: its flags or its version.
    BadGreFlags = 26,
    /// GRE protocol type wrong.
    BadGreType = 27,
    /// Version of the STT frame wrong.
    BadSttVersion = 28,
    /// Flags 0x01 and 0x02 of an STT frame with TCP or UDP over IP both set.
    BadSttFlags = 29,
}

impl Refusal {
    /// The papers' number of this refusal.
    pub const fn code(self) -> Code {
        self as Code
    }
}

/// A refused packet: why, and at which byte. The offset is that of the first byte
/// that breaks the rule of a tunnel header (25 to 29), and 0 in every other refusal.
#[derive(Clone, Copy)]
pub(crate) struct Fault {
    pub refusal: Refusal,
    pub offset: usize,
}

impl Fault {
    pub const fn new(refusal: Refusal, offset: usize) -> Fault {
        Fault { refusal, offset }
    }

    /// The same fault, counted from `bytes` bytes further to the front.
    pub const fn behind(self, bytes: usize) -> Fault {
        Fault::new(self.refusal, bytes + self.offset)
    }
}

impl From<Refusal> for Fault {
    fn from(refusal: Refusal) -> Fault {
        Fault::new(refusal, 0)
    }
}

/// Where a delivered frame lies: in the packet or in the reassembly memory.
#[derive(Clone, Copy, Debug, Default, PartialEq, Eq)]
pub struct Place {
    /// True for the reassembly memory, false for the packet.
    pub in_memory: bool,
    /// First byte within that slice.
    pub start: usize,
    /// Number of bytes.
    pub length: usize,
}

impl Place {
    /// The place of every refusal: start 0, length 0, in the packet.
    pub const EMPTY: Place = Place {
        in_memory: false,
        start: 0,
        length: 0,
    };

    /// Whether this place fits a slice of the given length. The sum may exceed
    /// the machine's word, so it is taken with its overflow.
    pub fn fits(&self, slice_length: usize) -> bool {
        self.start
            .checked_add(self.length)
            .is_some_and(|end| end <= slice_length)
    }
}

/// What receiving a packet gave.
#[derive(Clone, Copy, Debug, PartialEq, Eq)]
pub struct Answer {
    /// The number of the answer.
    pub code: Code,
    /// With codes 25 to 29, the first byte that breaks its rule: its offset in the
    /// packet (VXLAN, NVGRE) or in the STT frame. 0 with every other code.
    pub offset: usize,
    /// The tenant (bench) the frame goes to, with code 0 only.
    pub tenant: Option<u16>,
    /// The number of the matching binding, with code 0 only.
    pub binding: Option<u16>,
    /// Where the inner frame lies; [`Place::EMPTY`] unless the code is 0.
    pub place: Place,
}

impl Answer {
    pub(crate) const fn without_frame(code: Code) -> Answer {
        Answer {
            code,
            offset: 0,
            tenant: None,
            binding: None,
            place: Place::EMPTY,
        }
    }
}

impl From<Fault> for Answer {
    fn from(fault: Fault) -> Answer {
        Answer {
            offset: fault.offset,
            ..Answer::without_frame(fault.refusal.code())
        }
    }
}

/// What adding a peer or a binding gave.
#[derive(Clone, Copy, Debug, PartialEq, Eq)]
pub struct Added {
    /// The number of the answer.
    pub code: Code,
    /// The number of the new entry, with code 0 only.
    pub number: Option<u16>,
}

impl From<Result<u16, Refusal>> for Added {
    fn from(result: Result<u16, Refusal>) -> Added {
        match result {
            Ok(number) => Added {
                code: DONE,
                number: Some(number),
            },
            Err(refusal) => Added {
                code: refusal.code(),
                number: None,
            },
        }
    }
}

/// What wrapping a frame gave.
#[derive(Clone, Copy, Debug, PartialEq, Eq)]
pub struct Wrapped {
    /// The number of the answer.
    pub code: Code,
    /// Bytes of the packet written; 0 in a refusal.
    pub length: usize,
    /// Number of segments the frame has; 0 in a refusal.
    pub segments: u32,
}

/// Hands back the frame at `place` as a part of the packet or of the memory. A
/// place that does not fit its slice gives the empty part at the packet's start.
pub fn view<'a>(packet: &'a [u8], memory: &'a [u8], place: Place) -> &'a [u8] {
    let slice = if place.in_memory { memory } else { packet };
    if place.fits(slice.len()) {
        &slice[place.start..place.start + place.length]
    } else {
        &packet[..0]
    }
}

/// The place that [`view`] hands back, of a packet and a memory of which only
/// the lengths are known.
pub fn cut(packet_length: usize, memory_length: usize, place: Place) -> Place {
    let room = if place.in_memory {
        memory_length
    } else {
        packet_length
    };
    if place.fits(room) {
        place
    } else {
        Place::EMPTY
    }
}
