//! Settings images in the cover's types: lengths and endpoints out, refusals by
//! their numbers. What the library answers to other configurations and images is
//! for `difference`.

use niulassenc::{numbers, Endpoint, Kind, Received, Refusal, IMAGE_BYTES, MEMORY_NEEDED};
use std::net::Ipv4Addr;

const OWN: Ipv4Addr = Ipv4Addr::new(10, 0, 0, 1);
const PEER: Ipv4Addr = Ipv4Addr::new(10, 0, 0, 2);

/// The image of [`small`], by document 02 §3.
const SMALL: [u8; 55] = [
    b'T', b'W', b'N', 0, 1, // letters, version
    10, 0, 0, 1, 0x1d, 0x2f, 0x05, 0xdc, // own address, STT port, MTU
    1, 10, 0, 0, 2, // peers
    3, // bindings: peer, kind, network, tenant
    0, 1, 0, 0, 0, 0, 0, 0, 0, 22, 0, 7, //
    0, 2, 0, 0, 0, 0, 0, 0x12, 0x34, 0x56, 0xff, 0xff, //
    0, 3, 1, 2, 3, 4, 5, 6, 7, 8, 0, 9,
];

/// Where parts of it begin.
const PEER_COUNT: usize = 13;
const BINDING_COUNT: usize = 18;
const BINDINGS: usize = 19;

/// An STT segment from the peer, identifier 5: bytes 0 to 15 of 32.
const SEGMENT: [u8; 56] = [
    0x45, 0, 0, 56, 0, 0, 0x40, 0, 64, 6, 0x26, 0xbe, 10, 0, 0, 2, 10, 0, 0, 1, // IPv4
    0xcc, 0xb8, 0x1d, 0x2f, 0, 32, 0, 0, 0, 0, 0, 5, // ports, length, offset, identifier
    0x50, 0x10, 0, 0, 0xb1, 0x9f, 0, 0, // TCP's other fields
    0, 0, 0, 0, 0, 0, 0, 0, 0, 0, 0, 0, 0, 0, 0, 22, // the first half of the STT frame
];

/// A VXLAN packet from the peer on network 22.
const VXLAN: [u8; 50] = [
    0x45, 0, 0, 50, 0, 0, 0x40, 0, 64, 17, 0x26, 0xb9, 10, 0, 0, 2, 10, 0, 0, 1, // IPv4
    0xcc, 0xb8, 0x12, 0xb5, 0, 30, 0, 0, 0x08, 0, 0, 0, 0, 0, 22, 0, // UDP, VXLAN
    2, 0, 0, 0, 0, 2, 2, 0, 0, 0, 0, 1, 0x88, 0xb5, // the inner frame
];

fn start() -> Endpoint {
    Endpoint::start(OWN, 7471, 1500).expect("a good start")
}

/// One peer with a binding of each kind.
fn small() -> Endpoint {
    let mut endpoint = start();
    assert_eq!(endpoint.add_peer(PEER), Ok(0));
    let networks = [(22, 7), (0x12_3456, 0xFFFF), (0x0102_0304_0506_0708, 9)];
    for (kind, (network, tenant)) in [Kind::Vxlan, Kind::Nvgre, Kind::Stt].iter().zip(networks) {
        let added = endpoint.add_binding(0, *kind, network, tenant);
        assert!(added.is_ok());
    }
    endpoint
}

/// As many peers and bindings as there can be.
fn full() -> Endpoint {
    let mut endpoint = Endpoint::start([223, 255, 255, 255].into(), 65_535, 1600).expect("good");
    for last in 0..8 {
        assert!(endpoint.add_peer([1, 2, 3, last].into()).is_ok());
    }
    for number in 0..64 {
        let network = u64::MAX - u64::from(number);
        let added = endpoint.add_binding(number % 8, Kind::Stt, network, number);
        assert_eq!(added, Ok(number));
    }
    endpoint
}

fn image_of(endpoint: &Endpoint) -> Vec<u8> {
    let mut output = [0; IMAGE_BYTES];
    let length = endpoint.save(&mut output).expect("saved");
    output[..length].to_vec()
}

/// The small image with other bytes from `at` on.
fn changed(at: usize, bytes: &[u8]) -> Vec<u8> {
    let mut image = SMALL.to_vec();
    image[at..][..bytes.len()].copy_from_slice(bytes);
    image
}

#[test]
fn the_bytes_of_an_image() {
    let endpoint = small();
    let before = endpoint.clone();
    let mut output = [0xAA; 60];
    assert_eq!(endpoint.save(&mut output), Ok(55));
    assert_eq!(output[..55], SMALL);
    assert_eq!(output[55..], [0xAA; 5]);
    assert_eq!(endpoint, before);
}

#[test]
fn saving_then_loading_gives_the_endpoint_back() {
    for endpoint in [start(), small(), full()] {
        let image = image_of(&endpoint);
        assert_eq!(Endpoint::load(&image), Ok(endpoint.clone()));
        let (plain, code) = numbers::Endpoint::load(&image);
        assert_eq!((Endpoint::from(plain), code), (endpoint, 0));
    }
}

#[test]
fn lengths() {
    assert_eq!(IMAGE_BYTES, 815);
    for (endpoint, length) in [(start(), 15), (small(), 55), (full(), 815)] {
        let mut output = [0xAA; 900];
        let short = endpoint.save(&mut output[..length - 1]);
        assert_eq!(short, Err(Refusal::OutputTooShort));
        assert_eq!(output, [0xAA; 900]);
        assert_eq!(endpoint.save(&mut output[..length]), Ok(length));
        assert_eq!(endpoint.save(&mut output), Ok(length));
        assert!(output[length..].iter().all(|&byte| byte == 0xAA));
    }
}

/// 18 comes before 21, and nothing is written.
#[test]
fn a_refused_start_is_not_saved() {
    let (refused_start, code) = numbers::Endpoint::start(0, 0, 0);
    assert_eq!(code, 18);
    let (refused_load, code) = numbers::Endpoint::load(&[]);
    assert_eq!(code, 24);
    assert_eq!(refused_start, refused_load);
    let expected = numbers::Saved {
        length: 0,
        code: 18,
    };
    let mut output = [0xAA; 20];
    assert_eq!(refused_start.save(&mut output), expected);
    assert_eq!(refused_start.save(&mut []), expected);
    let endpoint = Endpoint::from(refused_start);
    assert_eq!(endpoint.save(&mut output), Err(Refusal::OutOfRange));
    assert_eq!(output, [0xAA; 20]);
}

/// Pending frames are not in an image, and a save leaves them pending.
#[test]
fn a_frame_pending() {
    let mut endpoint = small();
    let mut memory = vec![0; MEMORY_NEEDED];
    let received = endpoint.receive(&SEGMENT, &mut memory);
    assert_eq!(received, Ok(Received::Pending));
    assert_eq!(image_of(&endpoint), SMALL);
    assert_eq!(endpoint.pending_count(), 1);
    let loaded = Endpoint::load(&SMALL).expect("a good image");
    assert_eq!(loaded.pending_count(), 0);
    assert_eq!(loaded, small());
}

/// A loaded endpoint goes on as one that was started and listed, whatever the
/// memory has of an earlier run.
#[test]
fn a_loaded_endpoint_is_used() {
    let mut endpoint = Endpoint::load(&SMALL).expect("a good image");
    let mut memory = vec![0xFF; MEMORY_NEEDED];
    let received = endpoint.receive(&VXLAN, &mut memory);
    let Ok(Received::Delivered(frame)) = received else {
        panic!("{received:?}");
    };
    assert_eq!((frame.tenant, frame.binding), (7, 0));
    let received = endpoint.receive(&SEGMENT, &mut memory);
    assert_eq!(received, Ok(Received::Pending));
    assert_eq!(endpoint.add_peer(PEER), Err(Refusal::AlreadyListed));
    assert_eq!(endpoint.add_peer([10, 0, 0, 3].into()), Ok(1));
    assert_eq!(endpoint.add_binding(1, Kind::Vxlan, 22, 7), Ok(3));
    assert_eq!(image_of(&endpoint).len(), 55 + 4 + 12);
}

#[test]
fn cut_off_or_with_bytes_behind() {
    for image in [image_of(&start()), SMALL.to_vec(), image_of(&full())] {
        for length in 0..image.len() {
            let cut = Endpoint::load(&image[..length]);
            assert_eq!(cut, Err(Refusal::BadImage), "{length}");
        }
        for behind in [0, b'T', 0xFF] {
            let longer = [&image[..], &[behind]].concat();
            assert_eq!(Endpoint::load(&longer), Err(Refusal::BadImage));
        }
    }
}

#[test]
fn bad_images() {
    for (why, image) in [
        ("letters", changed(0, b"TWM")),
        ("version 2", changed(3, &[0, 2])),
        ("version 257", changed(3, &[1, 1])),
        ("own address 0.x", changed(5, &[0])),
        ("own address 224.x", changed(5, &[224])),
        ("port 0", changed(9, &[0, 0])),
        ("MTU 575", changed(11, &[0x02, 0x3F])),
        ("MTU 1,601", changed(11, &[0x06, 0x41])),
        (
            "a peer with our address",
            changed(PEER_COUNT + 1, &[10, 0, 0, 1]),
        ),
        ("a peer's address 0.x", changed(PEER_COUNT + 1, &[0])),
        ("a peer less than told", changed(PEER_COUNT, &[2])),
        ("a binding less than told", changed(BINDING_COUNT, &[4])),
        ("a binding more than told", changed(BINDING_COUNT, &[2])),
        ("a peer not listed", changed(BINDINGS, &[1])),
        ("kind 0", changed(BINDINGS + 1, &[0])),
        ("kind 4", changed(BINDINGS + 1, &[4])),
        ("VNI 2^24", changed(BINDINGS + 6, &[1])),
        ("VSID 4,095", changed(BINDINGS + 19, &[0, 0x0F, 0xFF])),
        ("VSID 2^24 - 1", changed(BINDINGS + 19, &[0xFF, 0xFF, 0xFF])),
        (
            "a binding twice",
            changed(BINDINGS + 12, &SMALL[BINDINGS..][..12]),
        ),
    ] {
        assert_eq!(Endpoint::load(&image), Err(Refusal::BadImage), "{why}");
        let refused = (numbers::Endpoint::start(0, 0, 0).0, 24); // every number 0
        assert_eq!(numbers::Endpoint::load(&image), refused, "{why}");
    }
    let text = Refusal::BadImage.to_string();
    assert_eq!(text, "not a good settings image (24)");
}

#[test]
fn a_peer_twice() {
    let two = |last| [&SMALL[..PEER_COUNT], &[2, 10, 0, 0, 2, 10, 0, 0, last, 0]].concat();
    assert!(Endpoint::load(&two(3)).is_ok());
    assert_eq!(Endpoint::load(&two(2)), Err(Refusal::BadImage));
}

/// Counts beyond the limits, with all the bytes that they ask for.
#[test]
fn too_many_peers_or_bindings() {
    let nine: Vec<u8> = (2..11).flat_map(|last| [10, 0, 0, last]).collect();
    let image = [&SMALL[..PEER_COUNT], &[9], &nine, &[0]].concat();
    assert_eq!(Endpoint::load(&image), Err(Refusal::BadImage));
    let image = [&SMALL[..PEER_COUNT], &[8], &nine[4..], &[0]].concat();
    assert!(Endpoint::load(&image).is_ok());
    let many = |count: u8| {
        let bindings = (0..count).flat_map(|network| [0, 3, 0, 0, 0, 0, 0, 0, 0, network, 0, 7]);
        let bindings: Vec<u8> = bindings.collect();
        [&SMALL[..BINDING_COUNT], &[count], &bindings].concat()
    };
    assert!(Endpoint::load(&many(64)).is_ok());
    assert_eq!(Endpoint::load(&many(65)), Err(Refusal::BadImage));
}

/// Every value of every byte: what is accepted is saved as the same bytes.
#[test]
fn loading_then_saving_gives_the_bytes_back() {
    let mut accepted = 0;
    for at in 0..SMALL.len() {
        for value in 0..=255 {
            let image = changed(at, &[value]);
            if let Ok(endpoint) = Endpoint::load(&image) {
                assert_eq!(image_of(&endpoint), image, "byte {at}, value {value}");
                accepted += 1;
            }
        }
    }
    assert!(accepted > 5000, "{accepted}");
}
