//! The duplicate address detector: document 02, request 1.

use crate::build::*;
use niulassenc_reference::{source, view, Detector, Entry, Observed, MAX_ENTRIES};
use Observed::{Duplicate, Full, Known, New};

/// Makes the call and says that only a new address changed the detector, by one
/// entry at the end.
fn observe(detector: &mut Detector, tenant: u16, peer: u16, address: u64) -> Observed {
    let before = detector.clone();
    let answer = detector.observe(tenant, peer, address);
    if answer != New {
        assert_eq!(*detector, before);
        return answer;
    }
    let entry = Entry {
        address,
        tenant,
        peer,
    };
    let (last, kept) = detector.entries().split_last().expect("an entry");
    assert_eq!((*last, kept), (entry, before.entries()));
    answer
}

/// A detector that keeps as many entries as it can: addresses 0 to 127 of tenant
/// 7, from peer 2.
fn full() -> Detector {
    let mut detector = Detector::start();
    for address in 0..128 {
        assert_eq!(observe(&mut detector, 7, 2, address), New);
    }
    detector
}

#[test]
fn it_starts_empty() {
    assert_eq!(Detector::start().entries(), []);
    assert_eq!(Detector::default(), Detector::start());
    assert_eq!(MAX_ENTRIES, 128);
}

/// Zeros are numbers like others: an empty detector has not seen them.
#[test]
fn zeros_are_new_once() {
    let mut detector = Detector::start();
    assert_eq!(observe(&mut detector, 0, 0, 0), New);
    assert_eq!(observe(&mut detector, 0, 0, 0), Known);
    assert_eq!(observe(&mut detector, 0, 1, 0), Duplicate { first: 0 });
    assert_eq!(observe(&mut detector, 1, 0, 0), New);
    for kept in [1, 2, 127] {
        let mut detector = Detector::start();
        for address in 1..=kept {
            assert_eq!(observe(&mut detector, 0, 0, address), New);
        }
        assert_eq!(observe(&mut detector, 0, 1, 0), New);
        assert_eq!(observe(&mut detector, 0, 1, 0), Known);
    }
}

#[test]
fn new_then_known_then_duplicate() {
    let mut detector = Detector::start();
    assert_eq!(observe(&mut detector, 7, 2, 0x0200_0000_0001), New);
    assert_eq!(observe(&mut detector, 7, 2, 0x0200_0000_0001), Known);
    let duplicate = observe(&mut detector, 7, 3, 0x0200_0000_0001);
    assert_eq!(duplicate, Duplicate { first: 2 });
    // The peer that was first is still known.
    assert_eq!(observe(&mut detector, 7, 2, 0x0200_0000_0001), Known);
}

/// A duplicate makes no entry, so a third peer is told of the first one and not
/// of the second, and the second is a duplicate again.
#[test]
fn a_third_peer_is_told_of_the_first() {
    let mut detector = Detector::start();
    assert_eq!(observe(&mut detector, 7, 5, 9), New);
    for peer in [6, 4, 6, 4, 0, 0xFFFF] {
        assert_eq!(observe(&mut detector, 7, peer, 9), Duplicate { first: 5 });
    }
    assert_eq!(detector.entries().len(), 1);
}

#[test]
fn another_tenant_has_addresses_of_its_own() {
    let mut detector = Detector::start();
    assert_eq!(observe(&mut detector, 7, 2, 9), New);
    assert_eq!(observe(&mut detector, 8, 3, 9), New);
    assert_eq!(observe(&mut detector, 7, 2, 9), Known);
    assert_eq!(observe(&mut detector, 8, 3, 9), Known);
    assert_eq!(observe(&mut detector, 7, 3, 9), Duplicate { first: 2 });
    assert_eq!(observe(&mut detector, 8, 2, 9), Duplicate { first: 3 });
}

/// 0xFFFF is a tenant and a peer like others, and no bit of an address is
/// dropped.
#[test]
fn the_largest_numbers() {
    let mut detector = Detector::start();
    assert_eq!(observe(&mut detector, 0xFFFF, 0xFFFF, u64::MAX), New);
    assert_eq!(observe(&mut detector, 0xFFFF, 0xFFFF, u64::MAX), Known);
    let duplicate = observe(&mut detector, 0xFFFF, 0, u64::MAX);
    assert_eq!(duplicate, Duplicate { first: 0xFFFF });
    for bit in 0..64 {
        assert_eq!(observe(&mut detector, 0xFFFF, 0, !(1 << bit)), New, "{bit}");
    }
    assert_eq!(observe(&mut detector, 0x00FF, 0, u64::MAX), New);
}

#[test]
fn the_129th_is_full() {
    let mut detector = full();
    assert_eq!(observe(&mut detector, 7, 2, 128), Full);
    assert_eq!(observe(&mut detector, 7, 2, 128), Full);
    assert_eq!(observe(&mut detector, 8, 2, 127), Full);
    assert_eq!(observe(&mut detector, 0, 0, 0), Full);
    assert_eq!(detector.entries().len(), 128);
}

#[test]
fn known_and_duplicate_when_full() {
    let mut detector = full();
    for address in 0..128 {
        assert_eq!(observe(&mut detector, 7, 2, address), Known);
        let duplicate = observe(&mut detector, 7, 3, address);
        assert_eq!(duplicate, Duplicate { first: 2 });
    }
    assert_eq!(detector, full());
}

/// The answer as the request has it, told from the earlier calls alone.
fn told(earlier: &[(u16, u16, u64)], tenant: u16, peer: u16, address: u64) -> Observed {
    let mut shown: Vec<(u16, u64, u16)> = Vec::new();
    for &(tenant, peer, address) in earlier {
        let listed = shown.iter().any(|&(t, a, _)| (t, a) == (tenant, address));
        if !listed && shown.len() < 128 {
            shown.push((tenant, address, peer));
        }
    }
    match shown.iter().find(|&&(t, a, _)| (t, a) == (tenant, address)) {
        Some(&(_, _, first)) if first == peer => Known,
        Some(&(_, _, first)) => Duplicate { first },
        None if shown.len() == 128 => Full,
        None => New,
    }
}

#[test]
fn answers_are_told_from_the_earlier_calls() {
    let mut detector = Detector::start();
    let mut earlier = Vec::new();
    let mut counts = [0; 4];
    for step in 0..1000u64 {
        let drawn = step.wrapping_mul(0x9E37_79B9_7F4A_7C15) >> 32;
        let (tenant, peer) = ((drawn % 3) as u16, (drawn / 3 % 4) as u16);
        let address = drawn / 12 % 60;
        let answer = observe(&mut detector, tenant, peer, address);
        assert_eq!(answer, told(&earlier, tenant, peer, address), "{step}");
        earlier.push((tenant, peer, address));
        counts[match answer {
            New => 0,
            Known => 1,
            Duplicate { .. } => 2,
            Full => 3,
        }] += 1;
    }
    assert_eq!(counts[0], 128);
    assert!(counts.iter().all(|&count| count >= 100), "{counts:?}");
}

#[test]
fn the_source_is_bytes_6_to_11() {
    assert_eq!(source(&T), 0x0200_0000_0001);
    let counting: Vec<u8> = (0..40).collect();
    for length in 0..40 {
        let expected = if length < 12 { 0 } else { 0x0607_0809_0A0B };
        assert_eq!(source(&counting[..length]), expected, "{length}");
    }
    assert_eq!(source(&[0xFF; 12]), 0xFFFF_FFFF_FFFF);
}

#[test]
fn the_owner_is_the_bindings_peer() {
    let bed = Bed::new();
    let owners: Vec<_> = (0..6).map(|number| bed.endpoint.owner(number)).collect();
    assert_eq!(owners, [0, 0, 0, 1, 1, 1].map(Some));
    for number in [6, 63, 64, 65_535, 65_536, u32::MAX] {
        assert_eq!(bed.endpoint.owner(number), None, "{number}");
    }
}

/// From packets to the two peers: T from both on a network of one tenant.
#[test]
fn two_peers_show_one_address() {
    let mut bed = Bed::new();
    let mut detector = Detector::start();
    for (network, tenant) in [(23, 77), (24, 78)] {
        for peer in 0..2 {
            assert_eq!(bed.endpoint.add_binding(peer, 1, network, tenant).code, 0);
        }
    }
    for (from, network, expected) in [
        (PEER, 23, New),
        (PEER_2, 23, Duplicate { first: 0 }),
        (PEER_2, 24, New),
        (PEER, 24, Duplicate { first: 1 }),
        (PEER, 23, Known),
    ] {
        let packet = vxlan(from, network, &T);
        let answer = bed.endpoint.receive(&packet, &mut bed.memory);
        let (Some(tenant), Some(binding)) = (answer.tenant, answer.binding) else {
            panic!("{answer:?}");
        };
        let peer = bed.endpoint.owner(binding.into()).expect("listed");
        let address = source(view(&packet, &bed.memory, answer.place));
        assert_eq!(observe(&mut detector, tenant, peer, address), expected);
    }
}
