//! The ones' complement sums of the library (RFC 1071), through its receives and
//! its wraps: every length, every alignment of the slice and every kind of contents
//! that can be had from outside. Each answer is held to the reference's, and to a
//! sum that goes word by word and is written here from the RFC's text
//! (`sums/slow.rs`): a mistake that library and reference share would show too.
//!
//! Lengths of what is summed go up to 2,000, and then in leaps to the longest.
//! What cannot be had from outside:
//!
//! - A sum over 0 to 15 bytes, and of the odd numbers none below 17. A UDP datagram
//!   under 16 bytes and a TCP segment under 20 are refused with 9 before they are
//!   summed (`no_sum_is_asked_of_short_payloads`), a packet under 20 bytes with 3. An
//!   IPv4 header has 20 to 60 bytes in steps of 4, so its sum has no odd last byte.
//! - A sum over more than 65,515 bytes: an IPv4 packet with its header has 65,535.
//! - A written sum over a TCP segment that is not of 21 to 1,552 bytes: 20 and a piece
//!   of a frame of 32 to 1,532 bytes. A written IPv4 header has 20. A UDP checksum is
//!   never written.
//! - A sum of 0, which only zeros have: an IPv4 header has its version, and every
//!   pseudo header its protocol. So no checksum is written as 0xFFFF; one that comes
//!   out 0 is written as 0, and a receiver takes 0xFFFF for it too.

#[path = "sums/aligned.rs"]
mod aligned;
#[path = "sums/contents.rs"]
mod contents;
#[path = "sums/headers.rs"]
mod headers;
#[path = "sums/outer.rs"]
mod outer;
#[path = "sums/received.rs"]
mod received;
#[path = "sums/receiver.rs"]
mod receiver;
#[path = "sums/sides.rs"]
mod sides;
#[path = "sums/slow.rs"]
mod slow;
#[path = "sums/wide.rs"]
mod wide;
#[path = "sums/written.rs"]
mod written;
