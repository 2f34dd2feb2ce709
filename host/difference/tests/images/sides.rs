//! The two sides' saves and loads, and what the library's adding calls say.

use difference::lent::Lent;
use difference::pair::same;
use difference::raw::{of_reference, same_numbers, ZEROS};
use niulassenc::{numbers, IMAGE_BYTES};
use niulassenc_reference as reference;
use std::fmt::Debug;

/// An endpoint of each side, which are the same.
#[derive(Clone)]
pub struct Sides {
    pub library: numbers::Endpoint,
    pub reference: reference::Endpoint,
}

/// What two sides differ in stops the test, with the bytes that show it.
pub fn expect<T>(what: impl Debug, image: &[u8], result: Result<T, String>) -> T {
    result.unwrap_or_else(|why| panic!("{what:?}: {why}\nimage {image:02x?}"))
}

impl Sides {
    pub fn start(own: u32, port: u32, mtu: u32) -> Sides {
        Sides {
            library: numbers::Endpoint::start(own, port, mtu).0,
            reference: reference::Endpoint::start(own, port, mtu).0,
        }
    }

    /// The endpoints that both loads give; none where both refuse.
    pub fn load(image: &[u8]) -> Result<Option<Sides>, String> {
        let mut lent = Lent::new(image);
        let (library, code) = numbers::Endpoint::load(lent.slice());
        lent.check("image", image)?;
        let loaded = reference::Endpoint::load(image);
        let expected = loaded.as_ref().map_or_else(|why| why.code(), |_| 0);
        same("code", code, expected)?;
        let made = by_calls(image);
        same("whether it is good", code == 0, made.is_some())?;
        let (Ok(reference), Some(made)) = (loaded, made) else {
            same_numbers(library.raw(), &ZEROS)?;
            return Ok(None);
        };
        same_numbers(library.raw(), &of_reference(&reference))?;
        same_numbers(library.raw(), made.raw())?;
        Ok(Some(Sides { library, reference }))
    }

    /// Saves into outputs of this length: what is written, or the code. The
    /// endpoint is the same afterwards, and so is every byte behind the image.
    pub fn save(&self, output_length: usize) -> Result<Result<Vec<u8>, u8>, String> {
        let mut output = vec![0xAA; output_length];
        let mut lent = Lent::new(&output);
        let before = *self.library.raw();
        let saved = self.library.save(lent.slice());
        same_numbers(self.library.raw(), &before)?;
        let expected = self.reference.save(&mut output);
        let expected = expected.map_err(reference::Refusal::code);
        same("code", saved.code, expected.err().unwrap_or(0))?;
        same("length", saved.length, expected.unwrap_or(0))?;
        lent.check("output", &output)?;
        let length = match expected {
            Ok(length) => length,
            Err(code) => {
                untouched(&output)?;
                return Ok(Err(code));
            }
        };
        untouched(&output[length..])?;
        output.truncate(length);
        Ok(Ok(output))
    }
}

fn untouched(bytes: &[u8]) -> Result<(), String> {
    let changed = bytes.iter().any(|&byte| byte != 0xAA);
    same(
        "whether a byte behind the image was written",
        changed,
        false,
    )
}

/// Loads an image on both sides. A good one is saved to the same bytes. Says
/// whether it is good.
pub fn goes_around(image: &[u8]) -> Result<bool, String> {
    let Some(sides) = Sides::load(image)? else {
        return Ok(false);
    };
    let saved = sides.save(IMAGE_BYTES + 3)?;
    same("image", saved.as_deref(), Ok(image))?;
    Ok(true)
}

/// The endpoint that the library's own calls make of the numbers of an image: a
/// start, then the peers, then the bindings. None where the bytes are not those of
/// an image, or a call is refused.
fn by_calls(image: &[u8]) -> Option<numbers::Endpoint> {
    let mut fields = Fields {
        rest: image.strip_prefix(b"TWN\x00\x01")?,
    };
    let (own, port, mtu) = (fields.take(4)?, fields.take(2)?, fields.take(2)?);
    let (mut endpoint, code) = numbers::Endpoint::start(own as u32, port as u32, mtu as u32);
    if code != 0 {
        return None;
    }
    for _ in 0..fields.take(1)? {
        let address = fields.take(4)? as u32;
        done(endpoint.add_peer(address))?;
    }
    for _ in 0..fields.take(1)? {
        let (peer, kind) = (fields.take(1)? as u32, fields.take(1)? as u32);
        let (id, tenant) = (fields.take(8)?, fields.take(2)? as u32);
        done(endpoint.add_binding(peer, kind, id, tenant))?;
    }
    fields.rest.is_empty().then_some(endpoint)
}

fn done(added: numbers::Addition) -> Option<()> {
    (added.code == 0).then_some(())
}

struct Fields<'a> {
    rest: &'a [u8],
}

impl Fields<'_> {
    fn take(&mut self, width: usize) -> Option<u64> {
        let (field, rest) = self.rest.split_at_checked(width)?;
        self.rest = rest;
        let number = |high: u64, &byte: &u8| high * 256 + u64::from(byte);
        Some(field.iter().fold(0, number))
    }
}
