//! What an STT frame says of the transport header in its inner frame, and refusal 29,
//! which only a frame with such a header gives (document 02, section 5): every value of
//! each field that the look into the frame reads, at lengths around every bound, written
//! with one to three segments and received in them in every order. What is written and
//! what is answered is held to the reference's, and to a table of single bytes that is
//! written here from the section's text (`hints/look.rs`): a mistake that library and
//! reference share would show too.

#[path = "hints/frames.rs"]
mod frames;
#[path = "hints/look.rs"]
mod look;
#[path = "hints/received.rs"]
mod received;
#[path = "hints/rules.rs"]
mod rules;
#[path = "hints/sides.rs"]
mod sides;
#[path = "hints/worked.rs"]
mod worked;
#[path = "hints/written.rs"]
mod written;
