//! Settings, peers, bindings: 18, 19, 20; refused starts.

use crate::build::*;
use niulassenc_reference::{Added, Config, Endpoint, Wrapped, MAX_BINDINGS, MAX_PEERS};

fn added(number: u16) -> Added {
    Added {
        code: 0,
        number: Some(number),
    }
}

fn refused(code: u8) -> Added {
    Added { code, number: None }
}

fn start(own: u32, port: u32, mtu: u32) -> u8 {
    let (endpoint, code) = Endpoint::start(own, port, mtu);
    let config = Config {
        own,
        stt_port: port as u16,
        mtu: mtu as u16,
    };
    let expected = if code == 0 { config } else { Config::default() };
    assert_eq!(endpoint.config(), expected);
    assert!(endpoint.peers().is_empty() && endpoint.bindings().is_empty());
    code
}

#[test]
fn settings_have_ranges() {
    let settings = [
        (18, 0x00FF_FFFF, 1, 576),
        (0, 0x0100_0000, 1, 576),
        (0, 0xDFFF_FFFF, 65_535, 1600),
        (18, 0xE000_0000, 1, 576),
        (18, 0xFFFF_FFFF, 1, 576),
        (0, 0x7F00_0001, 1, 576),
        (18, OWN, 0, 576),
        (18, OWN, 1, 575),
        (18, OWN, 1, 1601),
        (18, OWN, 1, 0),
        (18, OWN, 1, 65_535),
        // Numbers whose low 16 bits are in range.
        (18, OWN, 65_536, 576),
        (18, OWN, 65_537, 576),
        (18, OWN, 1, 65_536 + 576),
        (18, OWN, 1, 66_000),
        (18, OWN, u32::MAX, 576),
        (18, OWN, 1, u32::MAX),
    ];
    for (code, own, port, mtu) in settings {
        assert_eq!(start(own, port, mtu), code, "{own:x} {port} {mtu}");
    }
}

#[test]
fn peers_are_numbered_and_refused() {
    let (mut endpoint, _) = Endpoint::start(OWN, PORT.into(), 1500);
    for address in [OWN, 0, 0x00FF_FFFF, 0xE000_0000, 0xFFFF_FFFF] {
        assert_eq!(endpoint.add_peer(address), refused(18));
    }
    assert_eq!(endpoint.add_peer(0x0100_0000), added(0));
    assert_eq!(endpoint.add_peer(0x0100_0000), refused(19));
    assert_eq!(endpoint.add_peer(0xDFFF_FFFF), added(1));
    for number in 2..8 {
        assert_eq!(endpoint.add_peer(PEER + number), added(number as u16));
    }
    let full = endpoint.clone();
    assert_eq!(endpoint.add_peer(PEER + 8), refused(20));
    assert_eq!(endpoint.add_peer(PEER + 7), refused(19));
    assert_eq!(endpoint.add_peer(OWN), refused(18));
    assert_eq!(endpoint.add_peer(0), refused(18));
    assert!(endpoint == full);
    assert_eq!(endpoint.peers().len(), MAX_PEERS);
}

#[test]
fn bindings_have_ranges() {
    let (mut endpoint, _) = Endpoint::start(OWN, PORT.into(), 1500);
    assert_eq!(endpoint.add_binding(0, 1, 22, 1), refused(18));
    endpoint.add_peer(PEER);
    let tries = [
        (18, 1, 1, 22),
        (18, 65_535, 1, 22),
        (18, 256, 1, 22),
        (18, 65_536, 1, 22),
        (18, u32::MAX, 1, 22),
        (18, 0, 257, 22),
        (18, 0, 65_537, 22),
        (18, 0, u32::MAX, 22),
        (18, 0, 0, 4096),
        (18, 0, 4, 4096),
        (18, 0, 129, 4096),
        (0, 0, 1, 0),
        (0, 0, 1, 16_777_215),
        (18, 0, 1, 16_777_216),
        (18, 0, 1, (1 << 32) + 1),
        (18, 0, 2, 0),
        (18, 0, 2, 4095),
        (0, 0, 2, 4096),
        (0, 0, 2, 16_777_214),
        (18, 0, 2, 16_777_215),
        (18, 0, 2, (1 << 32) + 4096),
        (0, 0, 3, 0),
        (0, 0, 3, 1 << 32),
        (0, 0, 3, u64::MAX),
    ];
    for (code, peer, kind, id) in tries {
        let before = endpoint.clone();
        let got = endpoint.add_binding(peer, kind, id, 7);
        assert_eq!(got.code, code, "{peer} {kind} {id}");
        assert_eq!(got.number.is_some(), code == 0);
        assert_eq!(endpoint == before, code != 0);
    }
}

#[test]
fn tenants_have_16_bits() {
    let mut bed = Bed::new();
    let endpoint = &mut bed.endpoint;
    for tenant in [65_536, 65_537, 1 << 31, u32::MAX] {
        assert_eq!(endpoint.add_binding(0, 1, 23, tenant), refused(18));
        // Before 19.
        assert_eq!(endpoint.add_binding(0, 1, 22, tenant), refused(18));
    }
    assert_eq!(endpoint.add_binding(0, 1, 23, 65_535), added(6));
}

#[test]
fn bindings_agree_in_peer_kind_and_id() {
    let mut bed = Bed::new();
    let endpoint = &mut bed.endpoint;
    assert_eq!(endpoint.add_binding(0, 1, 22, 999), refused(19));
    assert_eq!(endpoint.add_binding(1, 3, CONTEXT, 0), refused(19));
    assert_eq!(endpoint.add_binding(0, 3, 22, 101), added(6));
    assert_eq!(endpoint.add_binding(1, 1, 23, 101), added(7));
    assert_eq!(endpoint.add_binding(0, 2, 4097, 0), added(8));
}

#[test]
fn bindings_fill_up() {
    let (mut endpoint, _) = Endpoint::start(OWN, PORT.into(), 1500);
    endpoint.add_peer(PEER);
    for number in 0..64 {
        assert_eq!(endpoint.add_binding(0, 3, number, 1), added(number as u16));
    }
    let full = endpoint.clone();
    assert_eq!(endpoint.add_binding(0, 3, 64, 1), refused(20));
    assert_eq!(endpoint.add_binding(0, 3, 63, 1), refused(19));
    assert_eq!(endpoint.add_binding(1, 3, 63, 1), refused(18));
    assert_eq!(endpoint.add_binding(0, 2, 63, 1), refused(18));
    assert!(endpoint == full);
    assert_eq!(endpoint.bindings().len(), MAX_BINDINGS);
}

#[test]
fn a_refused_start_knows_nobody() {
    for (own, port, mtu) in [(OWN, 7471, 575), (OWN, 0, 1500), (0, 7471, 1500)] {
        let (endpoint, code) = Endpoint::start(own, port, mtu);
        assert_eq!(code, 18);
        let mut bed = Bed {
            endpoint,
            memory: vec![0x5A; ENOUGH],
        };
        assert_eq!(bed.endpoint.add_peer(PEER), refused(18));
        assert_eq!(bed.endpoint.add_binding(0, 1, 22, 1), refused(18));
        bed.refuses(3, &[]);
        bed.refuses(6, &vxlan(PEER, 22, &T));
        let to_zero = changed(&vxlan(PEER, 22, &T), |p| p[16..20].fill(0));
        bed.refuses(7, &to_zero);
        bed.refuses(7, &changed(&to_zero, |p| p[12..16].fill(0)));
        bed.ticks(5);
        let mut output = [0xAA; 100];
        let refused = Wrapped {
            code: 23,
            length: 0,
            segments: 0,
        };
        assert_eq!(bed.endpoint.wrap(0, &T, 0, 0, &mut output), refused);
        assert_eq!(output, [0xAA; 100]);
        bed.memory.clear();
        bed.refuses(2, &[]);
    }
}
