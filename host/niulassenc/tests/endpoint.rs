//! The wrapper's own part: types in and out, frames cut from the right slice,
//! refusals by their numbers. What the library answers is for `difference`.

use niulassenc::{numbers, Binding, Endpoint, Kind, Pending, Place, Received, Refusal};
use niulassenc::{Dropped, Frame, MEMORY_NEEDED};
use std::net::Ipv4Addr;

const OWN: Ipv4Addr = Ipv4Addr::new(10, 0, 0, 1);
const PEER: Ipv4Addr = Ipv4Addr::new(10, 0, 0, 2);

/// The paper's inner frame T.
const T: [u8; 14] = [2, 0, 0, 0, 0, 2, 2, 0, 0, 0, 0, 1, 0x88, 0xb5];

fn bytes(hex: &str) -> Vec<u8> {
    hex.split_whitespace()
        .map(|pair| u8::from_str_radix(pair, 16).expect("two hex digits"))
        .collect()
}

/// T from the peer on VNI 22.
fn vxlan() -> Vec<u8> {
    bytes(
        "45 00 00 32 00 00 40 00 40 11 26 b9 0a 00 00 02 0a 00 00 01
         cc b8 12 b5 00 1e 00 00 08 00 00 00 00 00 16 00
         02 00 00 00 00 02 02 00 00 00 00 01 88 b5",
    )
}

/// T from the peer on Context ID 22, identifier 5: bytes 0 to 15 of 32.
fn first_segment() -> Vec<u8> {
    bytes(
        "45 00 00 38 00 00 40 00 40 06 26 be 0a 00 00 02 0a 00 00 01
         cc b8 1d 2f 00 20 00 00 00 00 00 05 50 10 00 00 b1 9f 00 00
         00 00 00 00 00 00 00 00 00 00 00 00 00 00 00 16",
    )
}

/// The same: bytes 16 to 31.
fn last_segment() -> Vec<u8> {
    bytes(
        "45 00 00 38 00 00 40 00 40 06 26 be 0a 00 00 02 0a 00 00 01
         cc b8 1d 2f 00 20 00 10 00 00 00 05 50 18 00 00 24 e5 00 00
         00 00 02 00 00 00 00 02 02 00 00 00 00 01 88 b5",
    )
}

fn endpoint() -> Endpoint {
    let mut endpoint = Endpoint::start(OWN, 7471, 1500).expect("a good start");
    assert_eq!(endpoint.add_peer(PEER), Ok(0));
    assert_eq!(endpoint.add_binding(0, Kind::Vxlan, 22, 101), Ok(0));
    assert_eq!(endpoint.add_binding(0, Kind::Stt, 22, 0xFFFF), Ok(1));
    endpoint
}

#[test]
fn a_frame_in_the_packet() {
    let packet = vxlan();
    let mut memory = vec![0xAA; MEMORY_NEEDED];
    let received = endpoint().receive(&packet, &mut memory);
    let Ok(Received::Delivered(frame)) = received else {
        panic!("{received:?}");
    };
    let place = Place {
        in_memory: false,
        start: 36,
        length: 14,
    };
    let expected = Frame {
        tenant: 101,
        binding: 0,
        place,
        bytes: &T,
    };
    assert_eq!(frame, expected);
    assert_eq!(frame.bytes.as_ptr(), packet[36..].as_ptr());
}

#[test]
fn a_frame_in_the_memory() {
    let mut endpoint = endpoint();
    let mut memory = vec![0xAA; MEMORY_NEEDED];
    let at_18 = memory[18..].as_ptr();
    let last = last_segment();
    let received = endpoint.receive(&last, &mut memory);
    assert_eq!(received, Ok(Received::Pending));
    assert_eq!(endpoint.pending_count(), 1);
    endpoint.tick();
    let pending = Pending {
        identifier: 5,
        length: 32,
        age: 1,
    };
    assert_eq!(endpoint.pending(0), [Some(pending), None, None, None]);
    let packet = first_segment();
    let received = endpoint.receive(&packet, &mut memory);
    let Ok(Received::Delivered(frame)) = received else {
        panic!("{received:?}");
    };
    assert_eq!((frame.tenant, frame.binding), (0xFFFF, 1));
    assert_eq!(frame.bytes, T);
    assert_eq!(frame.bytes.as_ptr(), at_18);
    assert_eq!(endpoint.pending(0), [None; 4]);
    assert_eq!(endpoint.pending(8), [None; 4]);
}

#[test]
fn a_frame_given_up_after_four_ticks() {
    let mut endpoint = endpoint();
    let mut memory = vec![0; MEMORY_NEEDED];
    let last = last_segment();
    for (ticks, left) in [(3, true), (4, false)] {
        let pending = endpoint.receive(&last, &mut memory);
        assert_eq!(pending, Ok(Received::Pending));
        for _ in 0..ticks {
            endpoint.tick();
        }
        let packet = first_segment();
        let received = endpoint.receive(&packet, &mut memory);
        assert_eq!(matches!(received, Ok(Received::Delivered(_))), left);
    }
}

#[test]
fn refusals_leave_everything() {
    let mut endpoint = endpoint();
    let before = endpoint.clone();
    let mut memory = vec![7; MEMORY_NEEDED];
    let wrong_sum = {
        let mut packet = vxlan();
        packet[10] ^= 1;
        packet
    };
    let dropped = |refusal| {
        let offset = None;
        Err(Dropped { refusal, offset })
    };
    let refused = endpoint.receive(&[], &mut memory[1..]);
    assert_eq!(refused, dropped(Refusal::MemoryTooSmall));
    let refused = endpoint.receive(&[], &mut memory);
    assert_eq!(refused, dropped(Refusal::NotIpv4));
    let refused = endpoint.receive(&wrong_sum, &mut memory);
    assert_eq!(refused, dropped(Refusal::BadIpv4Checksum));
    assert_eq!(endpoint, before);
    assert!(memory.iter().all(|&byte| byte == 7));
}

#[test]
fn the_configuration() {
    let mut endpoint = endpoint();
    assert_eq!(endpoint.own_address(), OWN);
    assert_eq!((endpoint.stt_port(), endpoint.mtu()), (7471, 1500));
    assert_eq!(endpoint.peers().collect::<Vec<_>>(), [PEER]);
    let bindings: Vec<_> = endpoint.bindings().collect();
    let listed = |kind, tenant| Binding {
        peer: 0,
        kind,
        network: 22,
        tenant,
    };
    let expected = [listed(Kind::Vxlan, 101), listed(Kind::Stt, 0xFFFF)];
    assert_eq!(bindings, expected);

    assert_eq!(endpoint.add_peer(OWN), Err(Refusal::OutOfRange));
    assert_eq!(endpoint.add_peer(PEER), Err(Refusal::AlreadyListed));
    for last in 3..10 {
        let added = endpoint.add_peer(Ipv4Addr::new(10, 0, 0, last));
        assert_eq!(added, Ok(u16::from(last) - 2));
    }
    let full = endpoint.add_peer(Ipv4Addr::new(10, 0, 0, 10));
    assert_eq!(full, Err(Refusal::Full));
    let reserved = endpoint.add_binding(0, Kind::Nvgre, 4095, 1);
    assert_eq!(reserved, Err(Refusal::OutOfRange));
    let again = endpoint.add_binding(0, Kind::Vxlan, 22, 9);
    assert_eq!(again, Err(Refusal::AlreadyListed));
}

#[test]
fn refused_starts() {
    for (own, port, mtu) in [
        (Ipv4Addr::new(0, 0, 0, 1), 7471, 1500),
        (Ipv4Addr::new(224, 0, 0, 1), 7471, 1500),
        (OWN, 0, 1500),
        (OWN, 7471, 575),
        (OWN, 7471, 1601),
    ] {
        assert_eq!(Endpoint::start(own, port, mtu), Err(Refusal::OutOfRange));
    }
    let (numbers, code) = numbers::Endpoint::start(0, 0, 0);
    assert_eq!(code, 18);
    let mut endpoint = Endpoint::from(numbers);
    assert_eq!(endpoint.add_peer(PEER), Err(Refusal::OutOfRange));
    assert_eq!(endpoint.peers().len(), 0);
}

#[test]
fn numbers_of_refusals_and_kinds() {
    let numbers: Vec<u8> = Refusal::ALL
        .iter()
        .map(|refusal| refusal.number())
        .collect();
    assert_eq!(numbers, (2..=10).chain(12..=29).collect::<Vec<u8>>());
    for &refusal in Refusal::ALL {
        assert_eq!(Refusal::from_number(refusal.number()), Some(refusal));
    }
    assert_eq!(Refusal::from_number(0), None);
    assert_eq!(Refusal::from_number(1), None);
    let text = Refusal::NotForUs.to_string();
    assert_eq!(text, "not for our address (6)");
    for number in 0..=255 {
        match Kind::try_from(number) {
            Ok(kind) => assert_eq!(u8::from(kind), number),
            Err(refusal) => {
                assert!(!(1..=3).contains(&number));
                assert_eq!(refusal, Refusal::OutOfRange);
            }
        }
    }
}

/// A later version of the library may answer more than this one knows. 11 is given
/// no more.
#[test]
fn an_unknown_code_is_a_refusal() {
    for number in (30..=255).chain([11]) {
        let refusal = Refusal::Unknown(number);
        assert_eq!(Refusal::from_number(number), Some(refusal));
        assert_eq!(refusal.number(), number);
        assert_eq!(refusal.to_string(), format!("unknown code ({number})"));
        let receipt = numbers::Receipt {
            place: Place::default(),
            tenant: numbers::NONE,
            binding: numbers::NONE,
            code: number,
            offset: 28,
        };
        // What it is counted in, if anything, this version cannot know.
        let offset = None;
        assert_eq!(receipt.read(&[], &[]), Err(Dropped { refusal, offset }));
    }
}

#[test]
fn numbers_beyond_16_bits_are_refused() {
    let own = u32::from(OWN);
    for (port, mtu) in [(65_537, 1500), (7471, 66_000), (7471, 65_536 + 1500)] {
        let (refused, code) = numbers::Endpoint::start(own, port, mtu);
        assert_eq!(code, 18);
        assert_eq!((refused.raw().own, refused.raw().port), (0, 0));
    }
    let mut endpoint = endpoint();
    let endpoint = endpoint.as_numbers();
    for (peer, kind, tenant) in [(65_536, 1, 7), (0, 257, 7), (0, 1, 65_536)] {
        let added = endpoint.add_binding(peer, kind, 23, tenant);
        assert_eq!((added.code, added.number), (18, numbers::NONE));
    }
    let mut output = [0; 100];
    let wrapped = endpoint.wrap(65_536, &T, 0, 0, &mut output);
    assert_eq!((wrapped.code, wrapped.length, wrapped.segments), (23, 0, 0));
    assert_eq!(endpoint.tick(), 0);
}

#[test]
fn a_place_that_does_not_fit_is_empty() {
    let (packet, memory) = ([1, 2, 3], [4, 5]);
    let view = |in_memory, start, length| {
        let place = Place {
            in_memory,
            start,
            length,
        };
        place.view(&packet, &memory).to_vec()
    };
    assert_eq!(view(false, 1, 2), [2, 3]);
    assert_eq!(view(true, 0, 2), [4, 5]);
    assert_eq!(view(false, 3, 0), []);
    assert_eq!(view(true, 1, 2), []);
    assert_eq!(view(false, usize::MAX, 2), []);
    let place = Place {
        in_memory: true,
        start: 3,
        length: 0,
    };
    assert_eq!(place.view(&packet, &memory).as_ptr(), packet.as_ptr());
}

#[test]
fn a_frame_wrapped() {
    let endpoint = endpoint();
    let mut output = [0xAA; 60];
    let wrapped = endpoint.wrap(0, &T, 0, 0, &mut output).expect("written");
    assert_eq!((wrapped.length, wrapped.segments), (50, 1));
    let mut expected = vxlan();
    expected[12..20].rotate_left(4);
    assert_eq!(output[..50], expected);
    assert!(output[50..].iter().all(|&byte| byte == 0xAA));
    let short = endpoint.wrap(0, &T, 0, 0, &mut output[..49]);
    assert_eq!(short, Err(Refusal::OutputTooShort));
}
