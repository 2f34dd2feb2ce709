//! Where a delivered frame lies.

use crate::ffi;

/// A part of the packet or of the reassembly memory.
#[derive(Clone, Copy, Debug, Default, PartialEq, Eq)]
pub struct Place {
    /// True for the reassembly memory, false for the packet.
    pub in_memory: bool,
    /// First byte within that slice.
    pub start: usize,
    /// Number of bytes.
    pub length: usize,
}

impl Place {
    /// The part that is cut for this place from a packet and a memory of these
    /// lengths: the place itself where it fits its slice, else the empty place
    /// at the packet's start. The library decides; what it gives always fits.
    #[inline]
    pub fn cut(self, packet_length: usize, memory_length: usize) -> Place {
        // SAFETY: five numbers go in and a struct comes back by value, whose
        // layout `ffi` asserts. The contract is proved for every input.
        let part = unsafe {
            ffi::niulassenc_cut(
                packet_length,
                memory_length,
                self.start,
                self.length,
                self.in_memory,
            )
        };
        Place {
            in_memory: part.in_memory,
            start: part.start,
            length: part.length,
        }
    }

    /// The bytes at this place. A place that does not fit its slice gives the
    /// empty part at the packet's start.
    #[inline]
    pub fn view<'a>(self, packet: &'a [u8], memory: &'a [u8]) -> &'a [u8] {
        let part = self.cut(packet.len(), memory.len());
        let slice = if part.in_memory { memory } else { packet };
        &slice[part.start..][..part.length]
    }
}
