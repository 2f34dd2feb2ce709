//! A tunnel endpoint for VXLAN, NVGRE and STT whose every call is proved.
//!
//! Outer IPv4 packets go in; inner Ethernet frames come out, each with the
//! tenant whose it is. STT is reassembled in memory that the caller lends. This
//! crate is a thin, safe cover over the archive that `scripts/archive` writes:
//! it allocates nothing, keeps no global state, and needs no `std`. An
//! endpoint's configuration can be saved as bytes and loaded again
//! ([`Endpoint::save`], [`Endpoint::load`]). A [`Detector`] beside it finds
//! addresses that several peers show to one tenant.
//!
//! ```
//! use niulassenc::{Endpoint, Kind, Received, Refusal, MEMORY_NEEDED};
//! use std::net::Ipv4Addr;
//!
//! # fn main() -> Result<(), Refusal> {
//! let mut endpoint = Endpoint::start(Ipv4Addr::new(10, 0, 0, 1), 7471, 1500)?;
//! let peer = endpoint.add_peer(Ipv4Addr::new(10, 0, 0, 2))?;
//! endpoint.add_binding(peer, Kind::Vxlan, 22, 7)?;
//! let mut memory = vec![0; MEMORY_NEEDED];
//!
//! let packet = [
//!     0x45, 0, 0, 0x32, 0, 0, 0x40, 0, 0x40, 0x11, 0x26, 0xb9, 10, 0, 0, 2, 10, 0, 0, 1, // IPv4
//!     0xcc, 0xb8, 0x12, 0xb5, 0, 0x1e, 0, 0, // UDP, port 4789
//!     0x08, 0, 0, 0, 0, 0, 22, 0, // VXLAN, network 22
//!     2, 0, 0, 0, 0, 2, 2, 0, 0, 0, 0, 1, 0x88, 0xb5, // the inner frame
//! ];
//! match endpoint.receive(&packet, &mut memory) {
//!     Ok(Received::Delivered(frame)) => {
//!         assert_eq!(frame.tenant, 7);
//!         assert_eq!(frame.bytes, &packet[36..]);
//!     }
//!     Ok(Received::Pending) => unreachable!("a VXLAN packet has a complete frame"),
//!     Err(dropped) => panic!("dropped: {dropped}"),
//! }
//!
//! // The same packet for somebody else is dropped, and the reason is told.
//! let mut stray = packet;
//! stray[19] = 9;
//! stray[11] = 0xb1;
//! let dropped = endpoint.receive(&stray, &mut memory).unwrap_err();
//! assert_eq!(dropped.refusal, Refusal::NotForUs);
//! assert_eq!(Refusal::NotForUs.number(), 6);
//!
//! // Where a tunnel header is wrong, the byte is told too.
//! let mut broken = packet;
//! broken[28] = 0;
//! let dropped = endpoint.receive(&broken, &mut memory).unwrap_err();
//! assert_eq!(dropped.to_string(), "VXLAN flag missing (25), at byte 28 of the packet");
//!
//! // Once in a while: frames that stay incomplete for four ticks are given up.
//! endpoint.tick();
//! # Ok(())
//! # }
//! ```

#![no_std]
#![deny(missing_docs, unsafe_op_in_unsafe_fn)]
#![deny(clippy::undocumented_unsafe_blocks)]

mod detector;
mod dropped;
mod endpoint;
mod ffi;
mod kind;
pub mod limits;
pub mod numbers;
mod place;
mod refusal;
mod version;

pub use detector::{observed_text, Detector, Entry, Observed};
pub use dropped::{Dropped, Offset};
pub use endpoint::{Binding, Endpoint, Frame, Pending, Received, Wrapped};
pub use kind::Kind;
pub use limits::{IMAGE_BYTES, MEMORY_NEEDED};
pub use place::Place;
pub use refusal::{text, Refusal};
pub use version::{matches, version, VERSION};

/// README's Rust program is run with this crate's tests.
#[cfg(doctest)]
#[doc = include_str!("../../../README.md")]
struct Readme;
