//! The library and the reference, set up alike.

use difference::answer::Answer;
use niulassenc::numbers;
use niulassenc_reference as reference;
use std::fmt;
use vectors::directed::{ENOUGH, NVGRE, STT, VXLAN};
use vectors::driver::memory_contents;

/// Settings and the one peer, whose networks are bound by the numbers 0 to 2.
#[derive(Clone, Copy)]
pub struct SetUp {
    pub own: u32,
    pub peer: u32,
    pub port: u16,
    pub vni: u32,
    pub vsid: u32,
    pub context: u64,
}

impl fmt::Display for SetUp {
    fn fmt(&self, f: &mut fmt::Formatter<'_>) -> fmt::Result {
        let SetUp {
            own, peer, port, ..
        } = self;
        write!(f, "own {own:#010x}, peer {peer:#010x}, port {port}")
    }
}

/// The numbers that sums begin with: of no kind, near the largest, near 0.
pub const SET_UPS: [SetUp; 3] = [
    SetUp {
        own: 0x0A00_0001,
        peer: 0x0A00_0002,
        port: 7471,
        vni: 0xC0_FFEE,
        vsid: 0xC0_FFEE,
        context: 0x0123_4567_89AB_CDEF,
    },
    SetUp {
        own: 0xDFFF_FFFF,
        peer: 0xDFFF_FFFE,
        port: 0xFFFF,
        vni: 0xFF_FFFF,
        vsid: 0xFF_FFFE,
        context: u64::MAX,
    },
    SetUp {
        own: 0x0100_0000,
        peer: 0x0100_0001,
        port: 1,
        vni: 0,
        vsid: 0x1000,
        context: 0,
    },
];

/// An endpoint of each side, and the memory lent to it; none at first.
pub struct Sides {
    library: numbers::Endpoint,
    reference: reference::Endpoint,
    library_memory: Vec<u8>,
    reference_memory: Vec<u8>,
}

impl Sides {
    pub fn new(set_up: &SetUp, mtu: u32) -> Sides {
        let port = set_up.port.into();
        let (mut library, code) = numbers::Endpoint::start(set_up.own, port, mtu);
        let (mut reference, expected) = reference::Endpoint::start(set_up.own, port, mtu);
        assert_eq!((code, expected), (0, 0), "{set_up}");
        let code = library.add_peer(set_up.peer).code;
        let expected = reference.add_peer(set_up.peer).code;
        assert_eq!((code, expected), (0, 0), "{set_up}");
        let ids = [set_up.vni.into(), set_up.vsid.into(), set_up.context];
        for (kind, id) in [VXLAN, NVGRE, STT].map(u32::from).into_iter().zip(ids) {
            let code = library.add_binding(0, kind, id, 100 + kind).code;
            let expected = reference.add_binding(0, kind, id, 100 + kind).code;
            assert_eq!((code, expected), (0, 0), "{set_up}, kind {kind}");
        }
        Sides {
            library,
            reference,
            library_memory: Vec::new(),
            reference_memory: Vec::new(),
        }
    }

    /// With the memory that a receive needs.
    pub fn with_memory(mut self) -> Sides {
        self.library_memory = memory_contents(ENOUGH, 1);
        self.reference_memory = self.library_memory.clone();
        self
    }

    /// The code that both answer to a packet, each time of a fresh endpoint, or what
    /// they answer differently.
    pub fn receive(&mut self, packet: &[u8]) -> Result<u8, String> {
        let (mut library, mut reference) = (self.library.clone(), self.reference.clone());
        let ours = library.receive(packet, &mut self.library_memory);
        let theirs = reference.receive(packet, &mut self.reference_memory);
        let (ours, theirs) = (Answer::from(&ours), Answer::from(&theirs));
        if ours != theirs {
            return Err(format!("library {ours:?}, reference {theirs:?}"));
        }
        let delivered = ours.place.view(packet, &self.library_memory);
        if delivered != theirs.place.view(packet, &self.reference_memory) {
            return Err(format!("both {ours:?}, and the frames differ"));
        }
        Ok(ours.code)
    }

    /// All that the receives have left in the memories.
    pub fn memories_are_the_same(&self) -> bool {
        self.library_memory == self.reference_memory
    }

    /// Writes a packet into both outputs: its length, or what differs.
    pub fn wrap(
        &self,
        frame: &[u8],
        part: Part,
        output: &mut [u8],
        expected: &mut [u8],
    ) -> Result<usize, String> {
        let Part {
            binding,
            segment,
            identifier,
        } = part;
        let ours = self
            .library
            .wrap(binding, frame, segment, identifier, output);
        let theirs = self
            .reference
            .wrap(binding, frame, segment, identifier, expected);
        let as_ours = numbers::Wrapped {
            length: theirs.length,
            segments: theirs.segments,
            code: theirs.code,
        };
        if ours != as_ours || ours.code != 0 {
            return Err(format!("library {ours:?}, reference {theirs:?}"));
        }
        Ok(ours.length)
    }
}

/// What is to be written of a frame.
#[derive(Clone, Copy, Debug)]
pub struct Part {
    pub binding: u32,
    pub segment: u32,
    pub identifier: u32,
}

impl Part {
    pub fn new(binding: u32, segment: u32, identifier: u32) -> Part {
        Part {
            binding,
            segment,
            identifier,
        }
    }
}
