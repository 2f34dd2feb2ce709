//! Settings images: saves and loads of the library, held to the reference's. What a
//! load answers is also held to the library's own start and adding calls: an image
//! is good exactly when these, with its numbers, are all answered 0, and then it
//! gives the endpoint that they make. A mistake that both loads share would show.
//!
//! Images that are good go around: what a load gives is saved to the same bytes, and
//! what a save gives loads to the same endpoint, with no frame pending.

#[path = "images/drawn.rs"]
mod drawn;
#[path = "images/loads.rs"]
mod loads;
#[path = "images/saves.rs"]
mod saves;
#[path = "images/sides.rs"]
mod sides;
