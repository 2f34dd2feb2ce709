//! The duplicate address detector in the crate's own types.

use crate::numbers;

/// Finds addresses that several peers show to one tenant, such as those of cloned
/// boards. It is told of each delivered frame, keeps the first 128 pairs of
/// tenant and address with the peer that showed each first, and never forgets
/// one: to forget, start another. It is a plain value of 1,544 bytes that refers
/// to nothing, and no call on an [`Endpoint`](crate::Endpoint) reads or writes it.
///
/// ```
/// use niulassenc::{Detector, Observed};
///
/// let mut detector = Detector::start();
/// let address = [2, 0, 0, 0, 0, 1];
/// assert_eq!(detector.observe(7, 0, address), Observed::New);
/// assert_eq!(detector.observe(7, 0, address), Observed::Known);
/// assert_eq!(detector.observe(8, 1, address), Observed::New); // another tenant's
/// // Whoever comes later is told of the first.
/// assert_eq!(detector.observe(7, 1, address), Observed::Duplicate { first: 0 });
/// assert_eq!(detector.observe(7, 2, address), Observed::Duplicate { first: 0 });
/// assert_eq!(detector.entries().len(), 2);
/// ```
///
/// Of a delivered frame, [`Frame::tenant`](crate::Frame::tenant) is the tenant,
/// [`Endpoint::owner`](crate::Endpoint::owner) tells the peer and
/// [`Frame::source`](crate::Frame::source) the address; the example `duplicate`
/// goes from packets to the addresses of both peers.
#[derive(Clone, Debug, PartialEq, Eq)]
pub struct Detector {
    numbers: numbers::Detector,
}

/// What a detector answers.
#[derive(Clone, Copy, Debug, PartialEq, Eq, Hash)]
pub enum Observed {
    /// 0: tenant and address were not listed; now they are, with this peer.
    New,
    /// 1: listed with this peer.
    Known,
    /// 2: listed with another peer.
    Duplicate {
        /// The peer that showed this address to this tenant first.
        first: u16,
    },
    /// 3: not listed, and 128 entries are kept: this address is not watched.
    Full,
}

/// An address of a tenant, and the peer that showed it first.
#[derive(Clone, Copy, Debug, PartialEq, Eq, Hash)]
pub struct Entry {
    /// The tenant (document 02: bench).
    pub tenant: u16,
    /// The peer's number.
    pub peer: u16,
    /// The source address of the frame that made the entry. Of a wider number,
    /// which only [`numbers`](crate::numbers) takes, these are the low 48 bits.
    pub address: [u8; 6],
}

impl Detector {
    /// A detector with no entry.
    ///
    /// # Panics
    ///
    /// Where the archive is of another version than this crate
    /// ([`matches`](crate::matches)): its calls could write past a detector.
    pub fn start() -> Detector {
        Detector {
            numbers: numbers::Detector::start(),
        }
    }

    /// Tells the detector of a delivered frame: whose it is, the number of the
    /// peer that it came from, and its source address. Only an address that is
    /// new makes an entry.
    pub fn observe(&mut self, tenant: u16, peer: u16, address: [u8; 6]) -> Observed {
        let observed = self.numbers.observe(tenant, peer, number_of(address));
        match observed.answer {
            0 => Observed::New,
            1 => Observed::Known,
            2 => Observed::Duplicate {
                first: observed.peer,
            },
            // The archive of this version gives no other number than 3.
            _ => Observed::Full,
        }
    }

    /// The entries, in the order in which they came.
    pub fn entries(&self) -> impl ExactSizeIterator<Item = Entry> + '_ {
        let raw = self.numbers.raw();
        let peers = raw.tenants.iter().zip(&raw.peers);
        let kept = raw.addresses.iter().zip(peers);
        kept.take(raw.count.into())
            .map(|(&address, (&tenant, &peer))| Entry {
                tenant,
                peer,
                address: address_of(address),
            })
    }

    /// The detector for the calls with plain numbers.
    pub fn as_numbers(&mut self) -> &mut numbers::Detector {
        &mut self.numbers
    }
}

/// A detector that was told of plain numbers.
impl From<numbers::Detector> for Detector {
    fn from(numbers: numbers::Detector) -> Detector {
        Detector { numbers }
    }
}

impl Observed {
    /// The number that C has for it.
    pub const fn number(self) -> u8 {
        match self {
            Observed::New => 0,
            Observed::Known => 1,
            Observed::Duplicate { .. } => 2,
            Observed::Full => 3,
        }
    }

    /// A short text, for a log.
    pub const fn text(self) -> &'static str {
        observed_text(self.number())
    }
}

/// A short text for what a detector answers, as C's `niulassenc_observed_text` has
/// it.
pub const fn observed_text(answer: u8) -> &'static str {
    match answer {
        0 => "new",
        1 => "known",
        2 => "duplicate",
        3 => "detector full",
        _ => "unknown answer",
    }
}

/// An address as a number, its first byte the highest.
fn number_of(address: [u8; 6]) -> u64 {
    let [a, b, c, d, e, f] = address;
    u64::from_be_bytes([0, 0, a, b, c, d, e, f])
}

/// The address that a number is; only its low 48 bits count.
pub(crate) fn address_of(number: u64) -> [u8; 6] {
    let [_, _, address @ ..] = number.to_be_bytes();
    address
}
