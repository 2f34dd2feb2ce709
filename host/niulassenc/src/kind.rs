//! How a network is carried.

use crate::refusal::Refusal;

/// The three tunnels; the discriminant is the number in the configuration.
#[derive(Clone, Copy, Debug, PartialEq, Eq, Hash)]
#[repr(u8)]
pub enum Kind {
    /// VXLAN (RFC 7348): network ids 0 to 16,777,215.
    Vxlan = 1,
    /// NVGRE (RFC 7637): network ids 4,096 to 16,777,214.
    Nvgre = 2,
    /// STT (draft-davie-stt-06): any 64-bit Context ID.
    Stt = 3,
}

impl From<Kind> for u8 {
    fn from(kind: Kind) -> u8 {
        kind as u8
    }
}

impl From<Kind> for u32 {
    fn from(kind: Kind) -> u32 {
        u32::from(u8::from(kind))
    }
}

/// Any other number than 1, 2 and 3 is refused with 18, as an adding call does.
impl TryFrom<u8> for Kind {
    type Error = Refusal;

    fn try_from(number: u8) -> Result<Kind, Refusal> {
        match number {
            1 => Ok(Kind::Vxlan),
            2 => Ok(Kind::Nvgre),
            3 => Ok(Kind::Stt),
            _ => Err(Refusal::OutOfRange),
        }
    }
}
