//! The calls with plain numbers in and out, as C has them: an answer is the
//! documents' number; a setting, a kind or the number of a peer, a tenant or a binding
//! is 32 bits wide and may be out of its range. What a detector is told is not
//! checked: its tenant and peer are 16 bits wide. The crate's own types stand on
//! these; they serve who has numbers anyway.

use crate::ffi;
pub use crate::ffi::{Detector as RawDetector, Endpoint as Raw, Peer, Receipt as RawReceipt, Slot};
use crate::place::Place;

/// What stands for a tenant, a binding, a peer or a new number where there is
/// none.
pub const NONE: u16 = 0xFFFF;

/// An endpoint. It refers to nothing: it may be moved and copied.
#[derive(Clone, Debug, PartialEq, Eq)]
pub struct Endpoint {
    pub(crate) raw: ffi::Endpoint,
}

/// The answer of an adding call.
#[derive(Clone, Copy, Debug, PartialEq, Eq)]
pub struct Addition {
    /// The new peer's or binding's number; [`NONE`] in a refusal.
    pub number: u16,
    /// 0, 18, 19 or 20.
    pub code: u8,
}

/// The answer of a receive.
#[derive(Clone, Copy, Debug, PartialEq, Eq)]
pub struct Receipt {
    /// Where the frame lies; the empty place unless the code is 0.
    pub place: Place,
    /// The tenant whose frame it is; [`NONE`] unless the code is 0.
    pub tenant: u16,
    /// The number of the binding; [`NONE`] unless the code is 0.
    pub binding: u16,
    /// 0, 1, or 2 to 10, 12 to 17, 25 to 29.
    pub code: u8,
    /// The first offending byte: of the packet where the code is 25 to 27, of the
    /// STT frame where it is 28 or 29; 0 in every other answer.
    pub offset: u8,
}

impl From<RawReceipt> for Receipt {
    #[inline]
    fn from(receipt: RawReceipt) -> Receipt {
        Receipt {
            place: Place {
                in_memory: receipt.in_memory,
                start: receipt.start,
                length: receipt.length,
            },
            tenant: receipt.tenant,
            binding: receipt.binding,
            code: receipt.code,
            offset: receipt.offset,
        }
    }
}

/// The answer of a wrap.
#[derive(Clone, Copy, Debug, PartialEq, Eq)]
pub struct Wrapped {
    /// Bytes of the packet; 0 in a refusal.
    pub length: usize,
    /// How many segments the frame has; 0 in a refusal.
    pub segments: u32,
    /// 0, 13, 21, 22 or 23.
    pub code: u8,
}

/// The answer of a save.
#[derive(Clone, Copy, Debug, PartialEq, Eq)]
pub struct Saved {
    /// Bytes of the settings image; 0 in a refusal.
    pub length: usize,
    /// 0, 18 or 21.
    pub code: u8,
}

/// A duplicate address detector. It refers to nothing, no endpoint either: it may
/// be moved and copied.
#[derive(Clone, Debug, PartialEq, Eq)]
pub struct Detector {
    raw: ffi::Detector,
}

/// The answer of a detector.
#[derive(Clone, Copy, Debug, PartialEq, Eq)]
pub struct Observation {
    /// 0 new, 1 known, 2 duplicate, 3 full.
    pub answer: u8,
    /// Of a duplicate, the peer that showed the address first; [`NONE`] in every
    /// other answer.
    pub peer: u16,
}

impl Endpoint {
    /// A fresh endpoint and 0; or 18 and an endpoint with every number 0, to
    /// which nothing can be added.
    ///
    /// # Panics
    ///
    /// Where the archive is of another version than this crate
    /// ([`matches`](crate::matches)): its calls could write past an endpoint.
    pub fn start(own: u32, stt_port: u32, mtu: u32) -> (Endpoint, u8) {
        assert!(crate::matches(), "the archive is of another version");
        // SAFETY: three numbers go in and a struct comes back by value, whose
        // layout `ffi` asserts. Every contract of the archive is proved for
        // every input, so it has no precondition beyond its types.
        let started = unsafe { ffi::niulassenc_start(own, stt_port, mtu) };
        let endpoint = Endpoint {
            raw: started.endpoint,
        };
        (endpoint, started.code)
    }

    /// The endpoint whose configuration a settings image has, with no frame
    /// pending, and 0; or 24 and an endpoint with every number 0, as of a refused
    /// start.
    ///
    /// # Panics
    ///
    /// Where the archive is of another version than this crate
    /// ([`matches`](crate::matches)): its calls could write past an endpoint.
    pub fn load(image: &[u8]) -> (Endpoint, u8) {
        assert!(crate::matches(), "the archive is of another version");
        // SAFETY: the pointer comes with the length of a slice that is borrowed
        // for the whole call, which only reads it. The struct comes back by value.
        let started = unsafe { ffi::niulassenc_load(image.as_ptr(), image.len()) };
        let endpoint = Endpoint {
            raw: started.endpoint,
        };
        (endpoint, started.code)
    }

    /// Lists a peer.
    #[inline]
    pub fn add_peer(&mut self, address: u32) -> Addition {
        // SAFETY: the pointer is that of an endpoint borrowed alone for the
        // whole call; the archive keeps no pointer beyond it.
        let added = unsafe { ffi::niulassenc_add_peer(&mut self.raw, address) };
        Addition {
            number: added.number,
            code: added.code,
        }
    }

    /// Binds a network of a listed peer to a tenant. Kinds are 1 (VXLAN), 2
    /// (NVGRE) and 3 (STT).
    #[inline]
    pub fn add_binding(&mut self, peer: u32, kind: u32, network: u64, tenant: u32) -> Addition {
        // SAFETY: as in `add_peer`.
        let added =
            unsafe { ffi::niulassenc_add_binding(&mut self.raw, peer, kind, network, tenant) };
        Addition {
            number: added.number,
            code: added.code,
        }
    }

    /// Takes one outer packet, first byte of the IP header.
    #[inline]
    pub fn receive(&mut self, packet: &[u8], memory: &mut [u8]) -> Receipt {
        // SAFETY: both pointers come with the lengths of slices that are
        // borrowed for the whole call, the memory and the endpoint alone, so
        // the three do not overlap. The archive writes within the memory only
        // and keeps no pointer.
        let receipt = unsafe {
            ffi::niulassenc_receive(
                &mut self.raw,
                packet.as_ptr(),
                packet.len(),
                memory.as_mut_ptr(),
                memory.len(),
            )
        };
        receipt.into()
    }

    /// One tick of the clock. The answer is always 0.
    #[inline]
    pub fn tick(&mut self) -> u8 {
        // SAFETY: as in `add_peer`.
        unsafe { ffi::niulassenc_tick(&mut self.raw) }
    }

    /// Writes segment number `segment` of a frame to the start of `output`.
    #[inline]
    pub fn wrap(
        &self,
        binding: u32,
        frame: &[u8],
        segment: u32,
        identifier: u32,
        output: &mut [u8],
    ) -> Wrapped {
        // SAFETY: as in `receive`: two slices with their lengths and the
        // endpoint, borrowed for the whole call, the output alone. The archive
        // writes within the output only.
        let wrapped = unsafe {
            ffi::niulassenc_wrap(
                &self.raw,
                binding,
                frame.as_ptr(),
                frame.len(),
                segment,
                identifier,
                output.as_mut_ptr(),
                output.len(),
            )
        };
        Wrapped {
            length: wrapped.length,
            segments: wrapped.segments,
            code: wrapped.code,
        }
    }

    /// Writes the settings image of the configuration to the start of `output`.
    #[inline]
    pub fn save(&self, output: &mut [u8]) -> Saved {
        // SAFETY: a slice with its length, borrowed alone, and the endpoint, both
        // for the whole call. The archive writes within the output only.
        let saved = unsafe { ffi::niulassenc_save(&self.raw, output.as_mut_ptr(), output.len()) };
        Saved {
            length: saved.length,
            code: saved.code,
        }
    }

    /// The number of the peer whose network a binding is; [`NONE`] where no
    /// binding has this number.
    #[inline]
    pub fn owner(&self, binding: u32) -> u16 {
        // SAFETY: the pointer is that of an endpoint borrowed for the whole call,
        // which only reads it.
        unsafe { ffi::niulassenc_owner(&self.raw, binding) }
    }

    /// The struct as C has it, to read.
    pub fn raw(&self) -> &Raw {
        &self.raw
    }
}

/// The source address of an inner frame, bytes 6 to 11, as a number:
/// 02:00:00:00:00:01 is `0x0200_0000_0001`. 0 for a frame under 12 bytes, which no
/// receive delivers.
#[inline]
pub fn source(frame: &[u8]) -> u64 {
    // SAFETY: the pointer comes with the length of a slice that is borrowed for
    // the whole call, which only reads it.
    unsafe { ffi::niulassenc_source(frame.as_ptr(), frame.len()) }
}

impl Detector {
    /// A detector with no entry.
    ///
    /// # Panics
    ///
    /// Where the archive is of another version than this crate
    /// ([`matches`](crate::matches)): its calls could write past a detector.
    pub fn start() -> Detector {
        assert!(crate::matches(), "the archive is of another version");
        // SAFETY: nothing goes in and a struct comes back by value, whose layout
        // `ffi` asserts.
        let raw = unsafe { ffi::niulassenc_detector_start() };
        Detector { raw }
    }

    /// Tells the detector of a delivered frame. Any three numbers will do.
    #[inline]
    pub fn observe(&mut self, tenant: u16, peer: u16, address: u64) -> Observation {
        // SAFETY: the pointer is that of a detector borrowed alone for the whole
        // call; the archive keeps no pointer beyond it.
        let observed = unsafe { ffi::niulassenc_observe(&mut self.raw, tenant, peer, address) };
        Observation {
            answer: observed.answer,
            peer: observed.peer,
        }
    }

    /// The struct as C has it, to read.
    pub fn raw(&self) -> &RawDetector {
        &self.raw
    }
}
