//! The numbered refusals of documents 01 and 02.

use core::fmt;

/// The text of a code that this version does not have.
const UNKNOWN: &str = "unknown code";

macro_rules! refusals {
    ($($number:literal $name:ident $text:literal $meaning:literal;)*) => {
        /// Why a call was refused. 11 is no longer given: since version 0.5.0 a
        /// receive gives one of 25 to 29 instead.
        #[derive(Clone, Copy, Debug, PartialEq, Eq, Hash)]
        #[non_exhaustive]
        pub enum Refusal {
            $(#[doc = concat!(stringify!($number), ": ", $meaning, ".")] $name,)*
            /// A number that this version does not know. The archive that this
            /// version is made for gives none.
            Unknown(u8),
        }

        impl Refusal {
            /// Every refusal that this version knows, in the order of the
            /// numbers.
            pub const ALL: &'static [Refusal] = &[$(Refusal::$name),*];

            /// The refusal that a number stands for in an answer that is none of
            /// the good ones.
            const fn of(number: u8) -> Refusal {
                match number {
                    $($number => Refusal::$name,)*
                    _ => Refusal::Unknown(number),
                }
            }

            /// The number that the documents have for it.
            pub const fn number(self) -> u8 {
                match self {
                    $(Refusal::$name => $number,)*
                    Refusal::Unknown(number) => number,
                }
            }

            /// A short text, for a log.
            pub const fn text(self) -> &'static str {
                match self {
                    $(Refusal::$name => $text,)*
                    Refusal::Unknown(_) => UNKNOWN,
                }
            }
        }
    };
}

refusals! {
    2 MemoryTooSmall "reassembly memory too small"
        "reassembly memory under 55,296 bytes";
    3 NotIpv4 "not an IPv4 packet, or cut short"
        "under 20 bytes; version not 4; header length under 5 words; total length below the header or above the bytes given";
    4 BadIpv4Checksum "IPv4 header checksum wrong"
        "IPv4 header checksum wrong";
    5 Fragment "IPv4 fragment"
        "more-fragments bit set or fragment offset not 0";
    6 NotForUs "not for our address"
        "destination is not our address";
    7 UnknownPeer "sender is not a listed peer"
        "source is not a listed peer";
    8 UnknownProtocol "not VXLAN, NVGRE or STT"
        "protocol not 17, 6 or 47; or destination port not 4789 (17) or not the STT port (6)";
    9 BadTransportHeader "UDP, GRE or TCP header broken"
        "UDP, GRE or TCP-shaped header broken";
    10 BadTransportChecksum "UDP or TCP checksum wrong"
        "UDP checksum non-zero and wrong, or TCP checksum wrong";
    12 NoBinding "no binding for this network of the peer"
        "no binding for this peer, kind and network id";
    13 BadFrame "inner frame too short, too long or tagged"
        "inner frame not 14 to 1,514 bytes, or tagged (0x8100, 0x88A8)";
    14 BadSegment "segment empty or outside its frame"
        "segment empty; frame length outside 32 to 1,532; offset plus segment length above frame length";
    15 LengthDiffers "identifier pending with another frame length"
        "a frame pending from this peer has this identifier and another length";
    16 AlreadyReceived "segment received already"
        "some byte of the segment was received already";
    17 NoSlot "the peer's slots are all taken"
        "a new identifier, and the peer's four slots are taken";
    18 OutOfRange "setting or binding out of range"
        "a setting or binding outside its range, or naming a peer not listed; or the endpoint to save is one of a refused start or load";
    19 AlreadyListed "already listed"
        "peer or binding already listed";
    20 Full "no room for another peer or binding"
        "8 peers or 64 bindings are listed already";
    21 OutputTooShort "output too short"
        "output shorter than the packet or the settings image";
    22 ExceedsMtu "packet would exceed the MTU"
        "VXLAN or NVGRE packet would exceed the MTU";
    23 NoSuch "no such binding or segment"
        "no such binding, or no such segment number";
    24 BadImage "not a good settings image"
        "not what saving some endpoint gives, byte by byte with nothing after it";
    25 BadVxlanFlag "VXLAN flag missing"
        "VXLAN flag I (0x08 of the VXLAN header's first byte) not set";
    26 BadGreFlags "GRE flags or version wrong"
        "first byte of the GRE header not 0x20 to 0x23, or low three bits of the second not 0";
    27 BadGreType "GRE protocol type wrong"
        "GRE protocol type not 0x6558";
    28 BadSttVersion "STT version wrong"
        "STT frame's version not 0";
    29 BadSttFlags "STT checksum flags both set on a TCP or UDP frame"
        "STT frame's flags 0x01 and 0x02 both set, and TCP or UDP found in the inner frame ([`Endpoint::wrap`](crate::Endpoint::wrap) says where)";
}

impl Refusal {
    /// The refusal with this number; none for 0 and 1, which refuse nothing.
    pub const fn from_number(number: u8) -> Option<Refusal> {
        match number {
            0 | 1 => None,
            _ => Some(Refusal::of(number)),
        }
    }

    /// What an answer with this number is: nothing for 0, else a refusal. Only a
    /// receive answers 1, and it asks for that first.
    pub(crate) const fn check(number: u8) -> Result<(), Refusal> {
        match number {
            0 => Ok(()),
            _ => Err(Refusal::of(number)),
        }
    }
}

/// A short text for any code, 0 and 1 too, as C's `niulassenc_text` has it.
pub const fn text(code: u8) -> &'static str {
    match code {
        0 => "done",
        1 => "segment received, frame not yet complete",
        _ => Refusal::of(code).text(),
    }
}

impl fmt::Display for Refusal {
    fn fmt(&self, f: &mut fmt::Formatter<'_>) -> fmt::Result {
        write!(f, "{} ({})", self.text(), self.number())
    }
}

impl core::error::Error for Refusal {}
