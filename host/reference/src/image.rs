//! The settings image: document 02, request 3. Its numbers are big-endian.
//!
//! | bytes | what |
//! |---|---|
//! | 3 | the letters TWN |
//! | 2 | version, 1 |
//! | 4 | own address |
//! | 2 | STT port |
//! | 2 | MTU |
//! | 1 | peer count, then 4 bytes a peer: its address |
//! | 1 | binding count, then 12 bytes a binding: peer (1), kind (1), id (8), tenant (2) |

use crate::answer::Refusal;
use crate::listing::{Config, Listing, MAX_BINDINGS, MAX_PEERS};

const LETTERS: [u8; 3] = *b"TWN";
const VERSION: u16 = 1;

/// What an image has beside its peers and bindings, their counts included.
const FIXED: usize = 3 + 2 + 4 + 2 + 2 + 1 + 1;
const PEER: usize = 4;
const BINDING: usize = 1 + 1 + 8 + 2;

/// The longest image: 815 bytes.
pub const MAX_IMAGE: usize = length(MAX_PEERS, MAX_BINDINGS);

const fn length(peers: usize, bindings: usize) -> usize {
    FIXED + PEER * peers + BINDING * bindings
}

/// Checks 18 and 21, then writes the image to the start of the output and gives
/// its length.
pub fn save(config: &Config, listing: &Listing, output: &mut [u8]) -> Result<usize, Refusal> {
    if *config == Config::default() {
        return Err(Refusal::OutOfRange);
    }
    let (peers, bindings) = (listing.peers(), listing.bindings());
    let length = length(peers.len(), bindings.len());
    let rest = output.get_mut(..length).ok_or(Refusal::OutputTooShort)?;
    let mut image = Writer { rest };
    image.put(LETTERS);
    image.put(VERSION.to_be_bytes());
    image.put(config.own.to_be_bytes());
    image.put(config.stt_port.to_be_bytes());
    image.put(config.mtu.to_be_bytes());
    image.put([peers.len() as u8]);
    for address in peers {
        image.put(address.to_be_bytes());
    }
    image.put([bindings.len() as u8]);
    for binding in bindings {
        image.put([binding.peer as u8, binding.kind as u8]);
        image.put(binding.network_id.to_be_bytes());
        image.put(binding.tenant.to_be_bytes());
    }
    Ok(length)
}

/// The settings and the listing of an image; 24 where it is no image.
pub fn load(image: &[u8]) -> Result<(Config, Listing), Refusal> {
    read(image).ok_or(Refusal::BadImage)
}

/// What is listed came from a start and from adding calls. So an image is one
/// exactly when a start with its settings, and the adding of its peers and then
/// of its bindings in their order, are all answered 0.
fn read(image: &[u8]) -> Option<(Config, Listing)> {
    let mut image = Reader { rest: image };
    if image.take()? != LETTERS || image.take()? != VERSION.to_be_bytes() {
        return None;
    }
    let own = u32::from_be_bytes(image.take()?);
    let (stt_port, mtu) = (image.take_u16()?, image.take_u16()?);
    let config = Config::checked(own, stt_port.into(), mtu.into()).ok()?;
    let mut listing = Listing::empty();
    let [peers] = image.take()?;
    for _ in 0..peers {
        let address = u32::from_be_bytes(image.take()?);
        listing.add_peer(own, address).ok()?;
    }
    let [bindings] = image.take()?;
    for _ in 0..bindings {
        let [peer, kind] = image.take()?;
        let network_id = u64::from_be_bytes(image.take()?);
        let tenant = image.take_u16()?;
        listing
            .add_binding(peer.into(), kind.into(), network_id, tenant.into())
            .ok()?;
    }
    image.rest.is_empty().then_some((config, listing))
}

/// Writes fields one behind another, into bytes that have room for all of them.
struct Writer<'a> {
    rest: &'a mut [u8],
}

impl Writer<'_> {
    fn put<const WIDTH: usize>(&mut self, field: [u8; WIDTH]) {
        let (place, rest) = std::mem::take(&mut self.rest)
            .split_first_chunk_mut()
            .expect("the length counts every field");
        *place = field;
        self.rest = rest;
    }
}

/// Takes fields off the front of an image.
struct Reader<'a> {
    rest: &'a [u8],
}

impl Reader<'_> {
    fn take<const WIDTH: usize>(&mut self) -> Option<[u8; WIDTH]> {
        let (field, rest) = self.rest.split_first_chunk()?;
        self.rest = rest;
        Some(*field)
    }

    fn take_u16(&mut self) -> Option<u16> {
        self.take().map(u16::from_be_bytes)
    }
}
