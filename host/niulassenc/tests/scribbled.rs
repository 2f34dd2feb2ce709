//! Saves of endpoints that no call makes: C's struct is plain data, which a caller
//! may have written over. A save then stays within the output, and writes the numbers
//! as they are; counts above the limits count as the limits.

use niulassenc::limits::{BINDINGS, PEERS, SLOTS};
use niulassenc::numbers::{Peer, Raw, Slot};

#[repr(C)]
struct Saving {
    length: usize,
    code: u8,
}

extern "C" {
    fn niulassenc_save(endpoint: *const Raw, output: *mut u8, output_length: usize) -> Saving;
}

/// What a save gives of any struct, and the output that it leaves.
fn save(raw: &Raw, output: &mut [u8]) -> (u8, usize) {
    // SAFETY: the endpoint is borrowed for the whole call, which only reads it, the
    // output alone, with its length. The archive takes an endpoint of any numbers.
    let saving = unsafe { niulassenc_save(raw, output.as_mut_ptr(), output.len()) };
    (saving.code, saving.length)
}

/// The image, or 18: only the port is asked.
fn expected(raw: &Raw) -> Result<Vec<u8>, u8> {
    if raw.port == 0 {
        return Err(18);
    }
    let peers = usize::from(raw.peer_count).min(8);
    let bindings = usize::from(raw.binding_count).min(64);
    let mut image = b"TWN\x00\x01".to_vec();
    image.extend(raw.own.to_be_bytes());
    image.extend(raw.port.to_be_bytes());
    image.extend(raw.mtu.to_be_bytes());
    image.push(peers as u8);
    for address in &raw.addresses[..peers] {
        image.extend(address.to_be_bytes());
    }
    image.push(bindings as u8);
    for number in 0..bindings {
        image.extend([raw.owners[number], raw.kinds[number]]);
        image.extend(raw.networks[number].to_be_bytes());
        image.extend(raw.tenants[number].to_be_bytes());
    }
    Ok(image)
}

/// Numbers from a seed (splitmix64).
struct Numbers(u64);

impl Numbers {
    fn next(&mut self) -> u64 {
        self.0 = self.0.wrapping_add(0x9E37_79B9_7F4A_7C15);
        let z = (self.0 ^ (self.0 >> 30)).wrapping_mul(0xBF58_476D_1CE4_E5B9);
        let z = (z ^ (z >> 27)).wrapping_mul(0x94D0_49BB_1331_11EB);
        z ^ (z >> 31)
    }

    fn pick(&mut self, choices: &[u16]) -> u16 {
        choices[(self.next() % choices.len() as u64) as usize]
    }

    fn slot(&mut self) -> Slot {
        Slot {
            identifier: self.next() as u32,
            frame_length: self.next() as u16,
            age: self.next() as u8,
            pending: self.next() & 1 == 1,
        }
    }

    /// A struct with any number in every field, and with these counts.
    fn raw(&mut self, peer_count: u16, binding_count: u16) -> Raw {
        Raw {
            networks: [(); BINDINGS].map(|()| self.next()),
            peers: [(); PEERS].map(|()| Peer {
                slots: [(); SLOTS].map(|()| self.slot()),
            }),
            addresses: [(); PEERS].map(|()| self.next() as u32),
            own: self.next() as u32,
            tenants: [(); BINDINGS].map(|()| self.next() as u16),
            port: self.next() as u16 | 1,
            mtu: self.next() as u16,
            peer_count,
            binding_count,
            kinds: [(); BINDINGS].map(|()| self.next() as u8),
            owners: [(); BINDINGS].map(|()| self.next() as u8),
        }
    }
}

/// Saves into outputs of these lengths. Nothing but the image's bytes changes.
fn saves(raw: &Raw, lengths: impl Iterator<Item = usize>) {
    let (image, before) = (expected(raw), *raw);
    for length in lengths {
        let mut bytes = vec![0xAA; length + 64];
        let (code, written) = save(raw, &mut bytes[..length]);
        let answer = match &image {
            Err(code) => (*code, &[][..]),
            Ok(image) if length < image.len() => (21, &[][..]),
            Ok(image) => (0, &image[..]),
        };
        let counts = (raw.peer_count, raw.binding_count);
        let told = (code, written);
        assert_eq!(told, (answer.0, answer.1.len()), "{counts:?} into {length}");
        assert!(bytes.starts_with(answer.1), "{counts:?} into {length}");
        let rest = &bytes[answer.1.len()..];
        assert!(
            rest.iter().all(|&byte| byte == 0xAA),
            "{counts:?} into {length}"
        );
        assert!(*raw == before, "{counts:?} into {length}");
    }
}

/// Counts within and above the limits, and those whose low byte is within.
const COUNTS: [u16; 16] = [
    0, 1, 7, 8, 9, 63, 64, 65, 128, 255, 256, 257, 0x0108, 0x4000, 0x8001, 65_535,
];

#[test]
fn counts_above_the_limits_count_as_the_limits() {
    let numbers = &mut Numbers(1);
    for peers in COUNTS {
        for bindings in COUNTS {
            let raw = numbers.raw(peers, bindings);
            let length = expected(&raw).map_or(0, |image| image.len());
            let near = length.saturating_sub(3)..length + 4;
            saves(&raw, near.chain([0, 1, 14, 15, 16, 814, 815, 816, 3000]));
        }
    }
}

#[test]
fn every_length_of_an_output() {
    let numbers = &mut Numbers(2);
    for (peers, bindings) in [(0, 0), (9, 0), (0, 65), (3, 7), (65_535, 65_535)] {
        saves(&numbers.raw(peers, bindings), 0..=830);
    }
}

/// No setting but the port is looked at, and a port of 0 is 18, whatever else there
/// is and however long the output.
#[test]
fn only_the_port_tells_a_refused_start() {
    let numbers = &mut Numbers(3);
    for _ in 0..500 {
        let (peers, bindings) = (numbers.pick(&COUNTS), numbers.pick(&COUNTS));
        let any = numbers.raw(peers, bindings);
        let port = numbers.pick(&[1, 0x00FF, 0x0100, 0x8000, 0xFFFF]);
        for own in [0, 1, 0xFFFF_FFFF, any.own] {
            for mtu in [0, 575, 1601, any.mtu] {
                let lengths = || [0, 14, 15, 815, 2000].into_iter();
                let raw = Raw { own, mtu, ..any };
                saves(&Raw { port: 0, ..raw }, lengths());
                saves(&Raw { port, ..raw }, lengths());
            }
        }
    }
}
