//! A second implementation of the tunnel endpoint that document 01 describes, and
//! of what document 02 adds to it, written from the papers alone so that it can
//! be compared with the first.
//!
//! An [`Endpoint`] is started with a [`Config`], gets peers and bindings, then
//! takes outer IPv4 packets ([`Endpoint::receive`]) and ticks, and wraps inner
//! frames ([`Endpoint::wrap`]). A delivered frame is named by a [`Place`];
//! [`view`] hands its bytes back. None of these calls allocates anything.
//!
//! [`Endpoint::save`] writes settings and listing to bytes, the settings image, and
//! [`Endpoint::load`] makes an endpoint of such bytes.
//!
//! A [`Detector`] tells the addresses that several peers show to one tenant. What
//! it asks of a delivered frame is given by [`Endpoint::owner`] and [`source`].
//!
//! [`trace`] reads and writes traces, lists of packets and ticks, and tells line by
//! line what an endpoint answers to one.
//!
//! The field's words are used here: a *tenant* is the paper's bench, the
//! *received map* its map of held bytes, a *pending* frame one under way, a
//! *duplicate* address its twin.

#![forbid(unsafe_code)]
#![warn(missing_docs)]

mod answer;
mod checksum;
mod detector;
mod endpoint;
mod headers;
mod image;
mod inner;
mod listing;
mod reassembly;
mod received_map;
pub mod trace;
mod wrap;

pub use answer::{cut, view, Added, Answer, Code, Place, Refusal, Wrapped, DONE, PENDING};
pub use detector::{source, Detector, Entry, Observed, MAX_ENTRIES};
pub use endpoint::Endpoint;
pub use image::MAX_IMAGE;
pub use listing::{Binding, Config, Kind, MAX_BINDINGS, MAX_PEERS};
pub use reassembly::{Pending, Row, MEMORY_NEEDED, SLOTS_PER_PEER, SLOT_SIZE};
