//! An endpoint of each side, with memory, for tests that hold answers to rules of their own.

use crate::answer::Answer;
use crate::raw::{of_reference, same_numbers};
use niulassenc::numbers;
use niulassenc_reference as reference;
use vectors::directed::ENOUGH;
use vectors::driver::memory_contents;

/// The two are compared when a test asks for it, not after each call as in a
/// [`Pair`](crate::pair::Pair): these tests make too many calls for that.
pub struct Endpoints {
    pub library: numbers::Endpoint,
    pub reference: reference::Endpoint,
    library_memory: Vec<u8>,
    reference_memory: Vec<u8>,
}

impl Endpoints {
    pub fn start(own: u32, port: u32, mtu: u32) -> Endpoints {
        let memory = memory_contents(ENOUGH, 1);
        Endpoints {
            library: numbers::Endpoint::start(own, port, mtu).0,
            reference: reference::Endpoint::start(own, port, mtu).0,
            library_memory: memory.clone(),
            reference_memory: memory,
        }
    }

    pub fn add_peer(&mut self, address: u32) {
        self.library.add_peer(address);
        self.reference.add_peer(address);
    }

    pub fn add_binding(&mut self, peer: u32, kind: u32, id: u64, tenant: u32) {
        self.library.add_binding(peer, kind, id, tenant);
        self.reference.add_binding(peer, kind, id, tenant);
    }

    /// What the library and the reference answer to a packet, with so many bytes of their
    /// memories.
    pub fn receive_in(&mut self, length: usize, packet: &[u8]) -> [Answer; 2] {
        let memory = &mut self.library_memory[..length];
        let ours = Answer::from(&self.library.receive(packet, memory));
        let memory = &mut self.reference_memory[..length];
        let theirs = Answer::from(&self.reference.receive(packet, memory));
        [ours, theirs]
    }

    /// What the library has stored from this place on.
    pub fn stored(&self, start: usize, length: usize) -> &[u8] {
        &self.library_memory[start..start + length]
    }

    /// The endpoints and the memories are still the same; a test stops where they are not.
    pub fn check(&self) {
        let expected = of_reference(&self.reference);
        same_numbers(self.library.raw(), &expected).unwrap_or_else(|why| panic!("{why}"));
        let same = self.library_memory == self.reference_memory;
        assert!(same, "the memories differ");
    }
}
