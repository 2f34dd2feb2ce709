//! The limits of an endpoint and of a detector, as `include/niulassenc.h` has them.

/// Peers of an endpoint.
pub const PEERS: usize = 8;

/// Bindings of an endpoint.
pub const BINDINGS: usize = 64;

/// STT frames that may be pending from one peer.
pub const SLOTS: usize = 4;

/// The smallest MTU.
pub const MTU_MIN: usize = 576;

/// The largest MTU.
pub const MTU_MAX: usize = 1600;

/// Bytes of the shortest inner frame.
pub const FRAME_MIN: usize = 14;

/// Bytes of the longest inner frame.
pub const FRAME_MAX: usize = 1514;

/// Most STT segments of one frame, at the smallest MTU.
pub const SEGMENTS_MAX: usize = 3;

/// A pending frame is given up at this tick after its first segment.
pub const TICKS: usize = 4;

/// Reassembly memory of one slot.
pub const SLOT_BYTES: usize = 1728;

/// Least length of the reassembly memory: 8 peers of 4 slots.
pub const MEMORY_NEEDED: usize = PEERS * SLOTS * SLOT_BYTES;

/// Entries of a detector.
pub const ENTRIES: usize = 128;

/// Bytes of the longest settings image: 8 peers of 4 bytes, 64 bindings of 12.
pub const IMAGE_BYTES: usize = 15 + 4 * PEERS + 12 * BINDINGS;
