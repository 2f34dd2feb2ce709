//! The duplicate address detector: document 02, request 1 (its twin finder). It
//! has its own state and knows nothing of an endpoint.

/// Most entries a detector keeps.
pub const MAX_ENTRIES: usize = 128;

/// An address of a tenant, and the peer that showed it first.
#[derive(Clone, Copy, Debug, Default, PartialEq, Eq)]
pub struct Entry {
    /// The source address of an inner frame, as a number.
    pub address: u64,
    /// The tenant (bench) that the frame was for.
    pub tenant: u16,
    /// The number of the peer that it came from.
    pub peer: u16,
}

/// What a detector answers.
#[derive(Clone, Copy, Debug, PartialEq, Eq)]
pub enum Observed {
    /// Tenant and address were not listed; now they are, with this peer.
    New,
    /// Listed, with this peer.
    Known,
    /// Listed, with another peer.
    Duplicate {
        /// The peer of the entry, whoever else showed the address since.
        first: u16,
    },
    /// Not listed, and there is no room.
    Full,
}

/// The addresses seen so far, in the order in which they came.
#[derive(Clone, Debug, PartialEq, Eq)]
pub struct Detector {
    entries: [Entry; MAX_ENTRIES],
    count: usize,
}

impl Default for Detector {
    fn default() -> Detector {
        Detector::start()
    }
}

impl Detector {
    /// An empty detector.
    pub fn start() -> Detector {
        Detector {
            entries: [Entry::default(); MAX_ENTRIES],
            count: 0,
        }
    }

    /// The entries, in the order in which they came.
    pub fn entries(&self) -> &[Entry] {
        &self.entries[..self.count]
    }

    /// One delivered frame: its tenant, the peer that it came from and its source
    /// address. Nothing is asked of the three numbers. Only an address that is
    /// new, and for which there is room, changes the detector.
    pub fn observe(&mut self, tenant: u16, peer: u16, address: u64) -> Observed {
        let mut kept = self.entries().iter();
        if let Some(entry) = kept.find(|kept| kept.address == address && kept.tenant == tenant) {
            let first = entry.peer;
            return if first == peer {
                Observed::Known
            } else {
                Observed::Duplicate { first }
            };
        }
        let Some(free) = self.entries.get_mut(self.count) else {
            return Observed::Full;
        };
        *free = Entry {
            address,
            tenant,
            peer,
        };
        self.count += 1;
        Observed::New
    }
}

/// The source address of an inner frame, bytes 6 to 11, as a number; 0 where the
/// frame ends before them.
pub fn source(frame: &[u8]) -> u64 {
    let bytes = frame.get(6..12).unwrap_or_default();
    bytes
        .iter()
        .fold(0, |number, &byte| number << 8 | u64::from(byte))
}
