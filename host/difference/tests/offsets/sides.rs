//! An endpoint of each side that get the same packets.

use crate::rules::Verdict;
use difference::answer::Answer;
use difference::endpoints::Endpoints;
use vectors::directed::{ENOUGH, FROM_A, NVGRE, OWN, PORT, STT, VXLAN};

/// The network that the peer has of every kind.
pub const ID: u32 = 0x00C0_FFEE;

/// The papers' inner frame with TCP over IPv4, so that both flags in front of it are 29.
pub const WITH_TCP: [u8; 34] = [
    2, 0, 0, 0, 0, 2, 2, 0, 0, 0, 0, 1, 0x08, 0x00, // Ethernet
    0x45, 0, 0, 20, 0, 0, 0x40, 0, 64, 6, 0, 0, 10, 0, 0, 1, 10, 0, 0, 2, // IPv4
];

/// Words of options that an IPv4 header may have.
pub const OPTIONS: std::ops::RangeInclusive<u8> = 0..=10;

pub struct Sides {
    endpoints: Endpoints,
    /// How often each code came.
    pub codes: [usize; 30],
}

impl Sides {
    pub fn new() -> Sides {
        let mut endpoints = Endpoints::start(OWN, PORT.into(), 1500);
        endpoints.add_peer(FROM_A.from);
        for kind in [VXLAN, NVGRE, STT].map(u32::from) {
            endpoints.add_binding(0, kind, ID.into(), 100 + kind);
        }
        Sides {
            endpoints,
            codes: [0; 30],
        }
    }

    /// Both must answer the same, and what the rules say.
    pub fn receive(&mut self, packet: &[u8], expected: Verdict) {
        self.receive_in(ENOUGH, packet, expected);
    }

    /// The same with so many bytes of the memory.
    pub fn receive_in(&mut self, length: usize, packet: &[u8], expected: Verdict) {
        let [ours, theirs] = self.endpoints.receive_in(length, packet);
        let Answer { code, offset, .. } = ours;
        assert!(
            ours == theirs && Verdict { code, offset } == expected,
            "library {ours:?}\nreference {theirs:?}\nby the rules {expected:?}\n{packet:02x?}"
        );
        self.codes[usize::from(expected.code)] += 1;
    }

    /// What the library has stored from this place on.
    pub fn stored(&self, start: usize, length: usize) -> &[u8] {
        self.endpoints.stored(start, length)
    }

    /// The endpoints and the memories are still the same.
    pub fn check(&self) {
        self.endpoints.check();
    }
}
