//! The archive's structs and functions, as `include/niulassenc.h` declares them.
//! A slice crosses as a pointer and a length, a lent endpoint or detector as a
//! pointer.

use core::mem::{align_of, offset_of, size_of};

use crate::limits::{BINDINGS, ENTRIES, PEERS, SLOTS};

/// A slot of the reassembly memory: a pending frame, or free, every number 0.
#[repr(C)]
#[derive(Clone, Copy, Debug, PartialEq, Eq)]
pub struct Slot {
    /// The identifier of the frame's segments.
    pub identifier: u32,
    /// The STT frame's length, its 18-byte header included.
    pub frame_length: u16,
    /// Ticks since its first segment.
    pub age: u8,
    /// Whether a frame is pending.
    pub pending: bool,
}

/// The slots of one peer.
#[repr(C)]
#[derive(Clone, Copy, Debug, PartialEq, Eq)]
pub struct Peer {
    /// By number.
    pub slots: [Slot; SLOTS],
}

/// An endpoint's struct. Arrays are by the number of the peer or of the binding;
/// what stands behind their count is 0.
#[repr(C)]
#[derive(Clone, Copy, Debug, PartialEq, Eq)]
pub struct Endpoint {
    /// The network id of each binding.
    pub networks: [u64; BINDINGS],
    /// The slots of each peer.
    pub peers: [Peer; PEERS],
    /// The address of each peer.
    pub addresses: [u32; PEERS],
    /// Our own address.
    pub own: u32,
    /// The tenant of each binding.
    pub tenants: [u16; BINDINGS],
    /// The TCP port on which STT is expected.
    pub port: u16,
    /// The largest outer packet that is written.
    pub mtu: u16,
    /// How many peers are listed.
    pub peer_count: u16,
    /// How many bindings are listed.
    pub binding_count: u16,
    /// The kind of each binding.
    pub kinds: [u8; BINDINGS],
    /// The number of each binding's peer.
    pub owners: [u8; BINDINGS],
}

#[repr(C)]
pub struct Started {
    pub endpoint: Endpoint,
    pub code: u8,
}

#[repr(C)]
pub struct Addition {
    pub number: u16,
    pub code: u8,
}

/// The answer of a receive, as it crosses.
#[repr(C)]
#[derive(Clone, Copy, Debug, PartialEq, Eq)]
pub struct Receipt {
    /// Where the frame begins, in the packet or in the memory.
    pub start: usize,
    /// Its length.
    pub length: usize,
    /// The tenant; 0xFFFF unless the code is 0.
    pub tenant: u16,
    /// The binding; 0xFFFF unless the code is 0.
    pub binding: u16,
    /// The documents' number.
    pub code: u8,
    /// Whether the frame lies in the memory.
    pub in_memory: bool,
    /// The first offending byte, where the code names one.
    pub offset: u8,
}

#[repr(C)]
pub struct Writing {
    pub length: usize,
    pub segments: u32,
    pub code: u8,
}

#[repr(C)]
pub struct Saving {
    pub length: usize,
    pub code: u8,
}

#[repr(C)]
pub struct PartAt {
    pub start: usize,
    pub length: usize,
    pub in_memory: bool,
}

/// A detector's struct. Arrays are by the number of the entry; what stands behind
/// the count is 0.
#[repr(C)]
#[derive(Clone, Copy, Debug, PartialEq, Eq)]
pub struct Detector {
    /// The address of each entry.
    pub addresses: [u64; ENTRIES],
    /// The tenant of each entry.
    pub tenants: [u16; ENTRIES],
    /// The peer of each entry.
    pub peers: [u16; ENTRIES],
    /// How many entries are kept.
    pub count: u16,
}

#[repr(C)]
pub struct Observation {
    pub answer: u8,
    pub peer: u16,
}

extern "C" {
    pub fn niulassenc_version() -> u32;

    pub fn niulassenc_endpoint_bytes() -> u32;

    pub fn niulassenc_detector_bytes() -> u32;

    pub fn niulassenc_start(own: u32, port: u32, mtu: u32) -> Started;

    pub fn niulassenc_add_peer(endpoint: *mut Endpoint, address: u32) -> Addition;

    pub fn niulassenc_add_binding(
        endpoint: *mut Endpoint,
        peer: u32,
        kind: u32,
        network: u64,
        tenant: u32,
    ) -> Addition;

    pub fn niulassenc_receive(
        endpoint: *mut Endpoint,
        packet: *const u8,
        packet_length: usize,
        memory: *mut u8,
        memory_length: usize,
    ) -> Receipt;

    pub fn niulassenc_tick(endpoint: *mut Endpoint) -> u8;

    pub fn niulassenc_wrap(
        endpoint: *const Endpoint,
        binding: u32,
        frame: *const u8,
        frame_length: usize,
        segment: u32,
        identifier: u32,
        output: *mut u8,
        output_length: usize,
    ) -> Writing;

    pub fn niulassenc_save(
        endpoint: *const Endpoint,
        output: *mut u8,
        output_length: usize,
    ) -> Saving;

    pub fn niulassenc_load(image: *const u8, image_length: usize) -> Started;

    pub fn niulassenc_cut(
        packet_length: usize,
        memory_length: usize,
        start: usize,
        length: usize,
        in_memory: bool,
    ) -> PartAt;

    pub fn niulassenc_owner(endpoint: *const Endpoint, binding: u32) -> u16;

    pub fn niulassenc_source(frame: *const u8, frame_length: usize) -> u64;

    pub fn niulassenc_detector_start() -> Detector;

    pub fn niulassenc_observe(
        detector: *mut Detector,
        tenant: u16,
        peer: u16,
        address: u64,
    ) -> Observation;
}

/// Stops the build where a size or an offset is not the archive's.
macro_rules! layout {
    ($name:ident: $size:literal, $align:literal; $($field:ident $at:literal),*) => {
        const _: () = {
            assert!(size_of::<$name>() == $size);
            assert!(align_of::<$name>() == $align);
            $(assert!(offset_of!($name, $field) == $at);)*
        };
    };
}

layout!(Slot: 8, 4; identifier 0, frame_length 4, age 6, pending 7);
layout!(Peer: 32, 4; slots 0);
layout!(Endpoint: 1072, 8; networks 0, peers 512, addresses 768, own 800, tenants 804, port 932,
    mtu 934, peer_count 936, binding_count 938, kinds 940, owners 1004);
layout!(Started: 1080, 8; endpoint 0, code 1072);
layout!(Addition: 4, 2; number 0, code 2);
layout!(Receipt: 24, 8; start 0, length 8, tenant 16, binding 18, code 20, in_memory 21, offset 22);
layout!(Writing: 16, 8; length 0, segments 8, code 12);
layout!(Saving: 16, 8; length 0, code 8);
layout!(PartAt: 24, 8; start 0, length 8, in_memory 16);
layout!(Detector: 1544, 8; addresses 0, tenants 1024, peers 1280, count 1536);
layout!(Observation: 4, 2; answer 0, peer 2);
