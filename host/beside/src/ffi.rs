//! The structs and functions of the archive, as `crates/beside` and `crates/reference`
//! declare them. A slice crosses as a pointer and a length.

use core::mem::{align_of, offset_of, size_of};

use niulassenc::limits::{PEERS, SLOTS};
use niulassenc::numbers::{Raw, RawReceipt};

/// Segments of a frame that are kept.
pub const SEGMENTS: usize = 64;

/// Which bytes of its frame a segment is.
#[repr(C)]
#[derive(Clone, Copy, Debug, PartialEq, Eq)]
pub struct Extent {
    /// Where in the frame it begins.
    pub offset: u16,
    /// How many bytes it has.
    pub length: u16,
}

/// A pending frame.
#[repr(C)]
#[derive(Clone, Copy, Debug, PartialEq, Eq)]
pub struct Buffer {
    /// Its segments, in the order in which they came; behind the count, anything.
    pub extents: [Extent; SEGMENTS],
    /// The identifier of its segments.
    pub identifier: u32,
    /// The STT frame's length, its 18-byte header included.
    pub frame_length: u16,
    /// How many segments are kept.
    pub count: u16,
    /// Ticks since its first segment.
    pub age: u8,
    /// Which of its peer's blocks in the memory has the segments' bytes.
    pub block: u8,
}

/// The pending frames of one peer.
#[repr(C)]
#[derive(Clone, Copy, Debug)]
pub struct Buffers {
    /// In the order in which they were opened; behind the count, anything.
    pub buffers: [Buffer; SLOTS],
    /// How many frames are pending.
    pub count: usize,
}

/// The state of the reference reassembler.
#[repr(C)]
#[derive(Clone, Copy, Debug)]
pub struct Reassembler {
    /// The endpoint whose configuration is used.
    pub endpoint: Raw,
    /// The pending frames of each peer.
    pub peers: [Buffers; PEERS],
}

#[repr(C)]
pub struct Hearing {
    pub reassembler: Reassembler,
    pub receipt: RawReceipt,
}

extern "C" {
    pub fn reference_start(endpoint: Raw) -> Reassembler;

    pub fn reference_receive(
        reassembler: Reassembler,
        packet: *const u8,
        packet_length: usize,
        memory: *mut u8,
        memory_length: usize,
    ) -> Hearing;

    pub fn reference_tick(reassembler: Reassembler) -> Reassembler;
}

/// Stops the build where a size or an offset is not the archive's.
macro_rules! layout {
    ($name:ident: $size:literal, $align:literal; $($field:ident $at:literal),*) => {
        const _: () = {
            assert!(size_of::<$name>() == $size);
            assert!(align_of::<$name>() == $align);
            $(assert!(offset_of!($name, $field) == $at);)*
        };
    };
}

layout!(Extent: 4, 2; offset 0, length 2);
layout!(Buffer: 268, 4; extents 0, identifier 256, frame_length 260, count 262, age 264, block 265);
layout!(Buffers: 1080, 8; buffers 0, count 1072);
layout!(Reassembler: 9712, 8; endpoint 0, peers 1072);
layout!(Hearing: 9736, 8; reassembler 0, receipt 9712);
