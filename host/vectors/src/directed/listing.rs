//! Settings, peers, bindings, refused starts: 18, 19, 20.

use super::*;
use crate::packet::{vxlan, T};

pub const CASES: &[(&str, Case)] = &[
    ("settings at their bounds", settings),
    ("peers", peers),
    ("peers full", peers_full),
    ("bindings", bindings),
    ("bindings full", bindings_full),
    ("refused start", refused_start),
    ("refused calls change nothing", refused_calls),
];

fn settings(r: &mut Recorder, _: &mut Prng) {
    for own in [0x0000_0000, 0x00FF_FFFF, 0xE000_0000, 0xFFFF_FFFF] {
        r.start(18, own, PORT, 1500);
    }
    for own in [0x0100_0000, 0x7F00_0001, 0xDFFF_FFFF] {
        r.start(0, own, PORT, 1500);
    }
    for (code, port) in [(18, 0), (0, 1), (0, 65_535)] {
        r.start(code, OWN, port, 1500);
    }
    let mtus = [
        (18, 0),
        (18, 575),
        (0, 576),
        (0, 577),
        (0, 1600),
        (18, 1601),
    ];
    for (code, mtu) in mtus {
        r.start(code, OWN, PORT, mtu);
    }
    r.start(18, OWN, PORT, 65_535);
    r.start(18, 0, 0, 0);
}

fn peers(r: &mut Recorder, _: &mut Prng) {
    r.start(0, OWN, PORT, 1500);
    r.peer(18, OWN);
    for address in [0, 0x00FF_FFFF, 0xE000_0000, 0xEFFF_FFFF, 0xFFFF_FFFF] {
        r.peer(18, address);
    }
    r.peer(0, 0x0100_0000);
    r.peer(19, 0x0100_0000);
    r.peer(0, 0xDFFF_FFFF);
    r.peer(0, 0x7F00_0001);
    r.peer(19, 0xDFFF_FFFF);
    r.peer(0, PEER_A);
    r.peer(18, OWN);
    // The bindings show that the refused ones took no number.
    r.binding(0, 3, VXLAN, 1, 1);
    r.binding(18, 4, VXLAN, 1, 1);
}

fn peers_full(r: &mut Recorder, _: &mut Prng) {
    r.start(0, OWN, PORT, 1500);
    for number in 0..8 {
        r.peer(0, PEER_A + number);
    }
    r.peer(20, PEER_A + 8);
    r.peer(19, PEER_A);
    r.peer(19, PEER_A + 7);
    r.peer(18, OWN);
    r.peer(18, 0xE000_0001);
    r.peer(20, PEER_A + 9);
    r.binding(0, 7, STT, 0, 65_535);
    r.binding(18, 8, STT, 0, 65_535);
}

fn bindings(r: &mut Recorder, _: &mut Prng) {
    r.start(0, OWN, PORT, 1500);
    r.binding(18, 0, VXLAN, 22, 1);
    r.peer(0, PEER_A);
    r.peer(0, PEER_B);
    for kind in [0, 4, 5, 128, 129, 255] {
        r.binding(18, 0, kind, 4096, 1);
    }
    for peer in [2, 8, 256, 65_535] {
        r.binding(18, peer, VXLAN, 22, 1);
    }
    binding_ids(r);
    // Tenants do not count; peer and kind do.
    r.binding(0, 0, VXLAN, 5000, 1);
    r.binding(19, 0, VXLAN, 5000, 2);
    r.binding(0, 1, VXLAN, 5000, 1);
    r.binding(0, 0, NVGRE, 5000, 1);
    r.binding(0, 0, STT, 5000, 0);
    r.binding(19, 1, VXLAN, 5000, 1);
    r.binding(0, 1, STT, 5000, 65_535);
}

fn binding_ids(r: &mut Recorder) {
    let vxlan = [
        (0, 0),
        (0, 0xFF_FFFF),
        (18, 0x100_0000),
        (18, 1 << 32),
        (18, u64::MAX),
    ];
    for (code, id) in vxlan {
        r.binding(code, 0, VXLAN, id, 7);
    }
    let nvgre = [
        (18, 0),
        (18, 4095),
        (0, 4096),
        (0, 16_777_214),
        (18, 16_777_215),
        (18, 16_777_216),
        (18, (1 << 32) + 4096),
    ];
    for (code, id) in nvgre {
        r.binding(code, 0, NVGRE, id, 7);
    }
    for id in [0, 1, 1 << 32, u64::MAX] {
        r.binding(0, 0, STT, id, 7);
        r.binding(19, 0, STT, id, 8);
    }
}

fn bindings_full(r: &mut Recorder, prng: &mut Prng) {
    r.start(0, OWN, PORT, 1500);
    r.peer(0, PEER_A);
    for number in 0..64 {
        r.binding(0, 0, VXLAN, number, 1000 + number as u16);
    }
    r.binding(20, 0, VXLAN, 64, 1);
    r.binding(19, 0, VXLAN, 63, 1);
    r.binding(19, 0, VXLAN, 0, 1);
    r.binding(18, 1, VXLAN, 0, 1);
    r.binding(18, 0, VXLAN, 1 << 24, 1);
    r.binding(20, 0, STT, 0, 1);
    r.lend(ENOUGH, prng.draw() as u32);
    r.receive(0, &vxlan(FROM_A, 63, &T));
    r.receive(0, &vxlan(FROM_A, 0, &T));
    r.receive(12, &vxlan(FROM_A, 64, &T));
    r.wrap(0, 63, 0, 100, &T);
    r.wrap(23, 64, 0, 100, &T);
}

fn refused_start(r: &mut Recorder, prng: &mut Prng) {
    set_up(r, prng.draw() as u32);
    r.receive(1, &part(1, &[0; 40], 0, 20));
    for (own, port, mtu) in [(OWN, 0, 1500), (0, PORT, 1500), (OWN, PORT, 575)] {
        r.start(18, own, port, mtu);
        r.peer(18, PEER_A);
        r.binding(18, 0, VXLAN, 22, 1);
        r.tick();
        r.receive(3, &[]);
        r.receive(6, &vxlan(FROM_A, 22, &T));
        let to_nobody = Path {
            from: PEER_A,
            to: 0,
        };
        r.receive(7, &vxlan(to_nobody, 22, &T));
        r.receive(7, &vxlan(Path { from: 0, to: 0 }, 22, &T));
        r.wrap(23, 0, 0, 100, &T);
        r.wrap(23, 0, 0, 0, &[]);
        r.view(false, 0, 20);
    }
    r.lend(ENOUGH - 1, 1);
    r.receive(2, &vxlan(FROM_A, 22, &T));
}

fn refused_calls(r: &mut Recorder, prng: &mut Prng) {
    set_up(r, prng.draw() as u32);
    r.peer(18, OWN);
    r.peer(19, PEER_B);
    r.binding(18, 0, 4, 0, 9);
    r.binding(19, 0, VXLAN, 22, 9);
    r.receive(0, &vxlan(FROM_A, 22, &T));
    r.receive(0, &vxlan(FROM_B, 22, &T));
    // Adding stays possible after packets have passed.
    r.receive(12, &vxlan(FROM_A, 23, &T));
    r.binding(0, 0, VXLAN, 23, 9);
    r.receive(0, &vxlan(FROM_A, 23, &T));
}
