//! The detector in the cover's types: addresses in and out, answers by their
//! numbers, and what it is told of a delivered frame. What the library answers is
//! for `difference`.

use niulassenc::{limits, numbers, Detector, Endpoint, Entry, Frame, Kind, Observed, Place};

const ADDRESS: [u8; 6] = [2, 0, 0, 0, 0, 1];

/// An address that no other number below 65,536 gives.
fn address(number: u16) -> [u8; 6] {
    let [high, low] = number.to_be_bytes();
    [high, 0, low, 0xFF, 0, 1]
}

/// A detector that keeps as many entries as it can, each from a peer of its own.
fn full() -> Detector {
    let mut detector = Detector::start();
    for number in 0..128 {
        let observed = detector.observe(7, number, address(number));
        assert_eq!(observed, Observed::New);
    }
    detector
}

#[test]
fn a_detector_starts_empty() {
    let mut detector = Detector::start();
    assert_eq!(detector.entries().len(), 0);
    let raw = detector.as_numbers().raw();
    assert_eq!(raw.count, 0);
    assert_eq!(raw.addresses, [0; limits::ENTRIES]);
    assert_eq!(raw.tenants, [0; limits::ENTRIES]);
    assert_eq!(raw.peers, [0; limits::ENTRIES]);
    // An entry of zeros is none.
    assert_eq!(detector.observe(0, 0, [0; 6]), Observed::New);
    assert_eq!(detector.observe(0, 0, [0; 6]), Observed::Known);
}

#[test]
fn the_four_answers() {
    let mut detector = full();
    let before = detector.clone();
    for number in 0..128 {
        let known = detector.observe(7, number, address(number));
        assert_eq!(known, Observed::Known);
        let duplicate = detector.observe(7, 0xFFFF, address(number));
        assert_eq!(duplicate, Observed::Duplicate { first: number });
    }
    assert_eq!(detector.observe(7, 0, address(128)), Observed::Full);
    assert_eq!(detector.observe(8, 0, address(0)), Observed::Full);
    assert_eq!(detector, before);
}

#[test]
fn a_third_peer_is_told_of_the_first() {
    let mut detector = Detector::start();
    assert_eq!(detector.observe(7, 0xFFFF, ADDRESS), Observed::New);
    for peer in [2, 3, 2] {
        let told = detector.observe(7, peer, ADDRESS);
        assert_eq!(told, Observed::Duplicate { first: 0xFFFF });
    }
}

#[test]
fn entries_in_the_order_in_which_they_came() {
    let entries: Vec<Entry> = full().entries().collect();
    assert_eq!(entries.len(), limits::ENTRIES);
    for (number, entry) in (0..).zip(entries) {
        let expected = Entry {
            tenant: 7,
            peer: number,
            address: address(number),
        };
        assert_eq!(entry, expected);
    }
}

/// An address is a number whose first byte is the highest.
#[test]
fn plain_numbers() {
    let mut detector = Detector::start();
    assert_eq!(detector.observe(7, 1, [1, 2, 3, 4, 5, 6]), Observed::New);
    let plain = detector.as_numbers();
    assert_eq!(plain.raw().addresses[0], 0x0102_0304_0506);
    let expect = |answer, peer| numbers::Observation { peer, answer };
    let none = numbers::NONE;
    assert_eq!(plain.observe(7, 1, 0x0102_0304_0506), expect(1, none));
    assert_eq!(plain.observe(7, 2, 0x0102_0304_0506), expect(2, 1));
    // Compared as it is given: another number, although the address has 48 bits.
    let beyond = 0x0001_0102_0304_0506;
    assert_eq!(plain.observe(7, 2, beyond), expect(0, none));
    assert_eq!(plain.observe(7, 2, beyond), expect(1, none));
    let entries: Vec<_> = detector.entries().map(|entry| entry.address).collect();
    assert_eq!(entries, [[1, 2, 3, 4, 5, 6]; 2]);
    let mut full = full();
    assert_eq!(full.as_numbers().observe(0, 0, 0), expect(3, none));
    let mut started = numbers::Detector::start();
    assert_eq!(started.observe(7, 1, 5), expect(0, none));
    let mut typed = Detector::from(started);
    let first = Observed::Duplicate { first: 1 };
    assert_eq!(typed.observe(7, 2, [0, 0, 0, 0, 0, 5]), first);
}

#[test]
fn the_source_of_a_frame() {
    let bytes: Vec<u8> = (1..=14).collect();
    let frame = Frame {
        tenant: 7,
        binding: 0,
        place: Place::default(),
        bytes: &bytes,
    };
    assert_eq!(frame.source(), [7, 8, 9, 10, 11, 12]);
    assert_eq!(numbers::source(&bytes), 0x0708_090A_0B0C);
    assert_eq!(numbers::source(&bytes[..12]), 0x0708_090A_0B0C);
    assert_eq!(numbers::source(&bytes[..11]), 0);
    assert_eq!(numbers::source(&[]), 0);
    assert_eq!(numbers::source(&[0xFF; 12]), 0xFFFF_FFFF_FFFF);
}

#[test]
fn the_owner_of_a_binding() {
    let mut endpoint = Endpoint::start([10, 0, 0, 1].into(), 7471, 1500).expect("good");
    assert_eq!((endpoint.owner(0), endpoint.peer_address(0)), (None, None));
    for last in 2..4 {
        let peer = endpoint.add_peer([10, 0, 0, last].into()).expect("listed");
        endpoint
            .add_binding(peer, Kind::Vxlan, 22, 7)
            .expect("bound");
    }
    let owners: Vec<_> = (0..4).map(|binding| endpoint.owner(binding)).collect();
    assert_eq!(owners, [Some(0), Some(1), None, None]);
    assert_eq!(endpoint.owner(0xFFFF), None);
    assert_eq!(endpoint.peer_address(1), Some([10, 0, 0, 3].into()));
    assert_eq!(endpoint.peer_address(2), None);
    assert_eq!(endpoint.peer_address(8), None);
    assert_eq!(endpoint.peer_address(0xFFFF), None);
    let plain = endpoint.as_numbers();
    assert_eq!(plain.owner(1), 1);
    for binding in [2, 64, 65_535, 65_536, 65_537, u32::MAX] {
        assert_eq!(plain.owner(binding), numbers::NONE, "{binding}");
    }
}
