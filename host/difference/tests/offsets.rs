//! The five refusals of a tunnel header (document 02, section 4) and their offsets:
//! every value of the bytes that they look at, behind IPv4 headers of every length,
//! and STT frames cut in every way that parts their first two bytes. Each answer is
//! held to the reference's, and to rules that go byte by byte and are written here
//! from the section's text (`offsets/rules.rs`): a mistake that library and reference
//! share would show too. Which frames give 29 is `hints.rs`'s matter.

#[path = "offsets/gre.rs"]
mod gre;
#[path = "hints/look.rs"]
mod look;
#[path = "offsets/others.rs"]
mod others;
#[path = "offsets/rules.rs"]
mod rules;
#[path = "offsets/sides.rs"]
mod sides;
#[path = "offsets/stt.rs"]
mod stt;
#[path = "offsets/vxlan.rs"]
mod vxlan;
