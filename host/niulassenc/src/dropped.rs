//! What a refused receive tells: why, and the byte that is to blame.

use crate::refusal::Refusal;
use core::fmt;

/// Why a packet was dropped, the error of [`Endpoint::receive`]. Where calls of
/// other kinds are made too, `?` turns it into its [`Refusal`].
///
/// [`Endpoint::receive`]: crate::Endpoint::receive
#[derive(Clone, Copy, Debug, PartialEq, Eq, Hash)]
pub struct Dropped {
    /// The reason.
    pub refusal: Refusal,
    /// The first offending byte of a header: told for refusals 25 to 29, none for
    /// the others.
    pub offset: Option<Offset>,
}

/// The number of a byte, counted from 0, and what it is counted in.
#[derive(Clone, Copy, Debug, PartialEq, Eq, Hash)]
pub enum Offset {
    /// In the packet, its IPv4 header and options included: refusals 25 to 27.
    Packet(u8),
    /// In the STT frame, whichever of its segments brought that byte: refusals 28
    /// and 29.
    SttFrame(u8),
}

impl Dropped {
    /// A refusal with the offset that C has for it. It is 0 where there is none,
    /// but 0 is also the first byte of an STT frame: the refusal decides.
    pub(crate) const fn of(refusal: Refusal, offset: u8) -> Dropped {
        let offset = match refusal {
            Refusal::BadVxlanFlag | Refusal::BadGreFlags | Refusal::BadGreType => {
                Some(Offset::Packet(offset))
            }
            Refusal::BadSttVersion | Refusal::BadSttFlags => Some(Offset::SttFrame(offset)),
            _ => None,
        };
        Dropped { refusal, offset }
    }
}

impl From<Dropped> for Refusal {
    fn from(dropped: Dropped) -> Refusal {
        dropped.refusal
    }
}

impl fmt::Display for Dropped {
    fn fmt(&self, f: &mut fmt::Formatter<'_>) -> fmt::Result {
        self.refusal.fmt(f)?;
        match self.offset {
            Some(offset) => write!(f, ", at {offset}"),
            None => Ok(()),
        }
    }
}

impl fmt::Display for Offset {
    fn fmt(&self, f: &mut fmt::Formatter<'_>) -> fmt::Result {
        match self {
            Offset::Packet(byte) => write!(f, "byte {byte} of the packet"),
            Offset::SttFrame(byte) => write!(f, "byte {byte} of the STT frame"),
        }
    }
}

impl core::error::Error for Dropped {}
