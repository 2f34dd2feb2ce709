//! Tunnel headers, bindings and inner frames of VXLAN and NVGRE: 25, 26, 27, 12, 13;
//! and the handing back of places.

use super::*;
use crate::packet::*;

pub const CASES: &[(&str, Case)] = &[
    ("VXLAN header", vxlan_header),
    ("NVGRE header", nvgre_header),
    ("tunnel headers behind IPv4 options", behind_options),
    ("several wrong bytes of a GRE header", wrong_together),
    ("lookups", lookups),
    ("inner frames", inner_frames),
    ("order of tunnel header, 12, 13", order),
    ("views", views),
];

fn vxlan_header(r: &mut Recorder, prng: &mut Prng) {
    set_up(r, prng.draw() as u32);
    let good = vxlan_summed(FROM_A, 22, &T);
    for flags in [0x08, 0x0F, 0x88, 0xFF, 0x18] {
        r.receive(0, &with_byte(&good, 28, flags));
    }
    for flags in [0x00, 0xF7, 0x07, 0x80, 0x10] {
        r.receive_at(25, 28, &with_byte(&good, 28, flags));
    }
    for at in [29, 30, 31, 35] {
        r.receive(0, &with_byte(&good, at, 0xFF));
    }
    for at in [32, 33, 34] {
        r.receive(12, &with_byte(&good, at, 0x17));
    }
}

fn nvgre_header(r: &mut Recorder, prng: &mut Prng) {
    set_up(r, prng.draw() as u32);
    let good = nvgre(FROM_A, 4096, &T);
    for first in 0x20..=0x23 {
        r.receive(0, &with_byte(&good, 20, first));
    }
    for first in [0x00, 0x1F, 0x24, 0x28, 0x30, 0x60, 0xA0, 0xB0, 0xFF, 0x02] {
        r.receive_at(26, 20, &with_byte(&good, 20, first));
    }
    for second in [0x08, 0x10, 0x80, 0xF8] {
        r.receive(0, &with_byte(&good, 21, second));
    }
    for second in [1, 2, 3, 4, 7, 0xF9, 0xFF] {
        r.receive_at(26, 21, &with_byte(&good, 21, second));
    }
    for kind in [0x6458, 0x0800, 0x5865, 0] {
        r.receive_at(27, 22, &with_word(&good, 22, kind));
    }
    for kind in [0x6557, 0x6559, 0x6565, 0x6500] {
        r.receive_at(27, 23, &with_word(&good, 22, kind));
    }
    r.receive(0, &with_byte(&good, 27, 0xFF));
    for vsid in [0, 1, 4095, 4097, 0x0010_0000, 16_777_214, 16_777_215] {
        r.receive(12, &nvgre(FROM_A, vsid, &T));
    }
}

/// The offset is that in the packet: the IPv4 header counts with its options. What
/// stands behind the total length does not.
fn behind_options(r: &mut Recorder, prng: &mut Prng) {
    set_up(r, prng.draw() as u32);
    for words in 0..=10 {
        let header = 20 + 4 * usize::from(words);
        let datagram = with_ip_options(&vxlan_summed(FROM_A, 22, &T), words);
        r.receive_at(25, header + 8, &with_byte(&datagram, header + 8, 0xF7));
        let good = with_ip_options(&nvgre(FROM_A, 4096, &T), words);
        for (code, at, value) in [(26, 0, 0x24), (26, 1, 0x01), (27, 2, 0x64), (27, 3, 0x59)] {
            r.receive_at(code, header + at, &with_byte(&good, header + at, value));
        }
        // A right header in front of what is refused later.
        r.receive(12, &with_ip_options(&nvgre(FROM_A, 4097, &T), words));
        r.receive(13, &with_ip_options(&vxlan(FROM_A, 22, &T[..13]), words));
    }
    let wrong = with_word(&nvgre(FROM_A, 4096, &T), 22, 0);
    r.receive_at(27, 22, &trailed(&wrong, &[0; 9]));
}

/// Every set of wrong bytes that has two or more: the first counts, so that 26
/// comes before 27.
fn wrong_together(r: &mut Recorder, prng: &mut Prng) {
    set_up(r, prng.draw() as u32);
    let good = with_ip_options(&nvgre(FROM_A, 4096, &T), 1);
    for which in (1..16usize).filter(|which| !which.is_power_of_two()) {
        let packet = edited(&good, |copy| {
            for (at, value) in [0x60, 0x87, 0x58, 0x65].into_iter().enumerate() {
                if which >> at & 1 == 1 {
                    copy[24 + at] = value;
                }
            }
        });
        let first = which.trailing_zeros() as usize;
        let code = if first < 2 { 26 } else { 27 };
        r.receive_at(code, 24 + first, &packet);
    }
}

fn lookups(r: &mut Recorder, prng: &mut Prng) {
    r.start(0, OWN, PORT, 1500);
    r.peer(0, PEER_B);
    r.peer(0, PEER_A);
    r.lend(60_000, prng.draw() as u32);
    let ids = [0, 4096, 0xFF_FFFE];
    for id in ids {
        r.receive(12, &vxlan(FROM_A, id, &T));
        r.binding(0, 1, VXLAN, id.into(), 40 ^ id as u16);
        r.receive(0, &vxlan(FROM_A, id, &T));
        r.receive(12, &vxlan(FROM_B, id, &T));
        r.receive(12, &nvgre(FROM_A, id, &T));
    }
    r.binding(0, 0, NVGRE, 4096, 65_535);
    r.binding(0, 1, NVGRE, 4096, 0);
    r.binding(0, 1, STT, 4096, 0);
    r.receive(0, &nvgre(FROM_A, 4096, &T));
    r.receive(0, &nvgre(FROM_B, 4096, &T));
    r.receive(0, &vxlan(FROM_A, 4096, &T));
    r.receive(12, &vxlan(FROM_B, 4096, &T));
}

fn inner_frames(r: &mut Recorder, prng: &mut Prng) {
    set_up(r, prng.draw() as u32);
    for (code, length) in [(13, 0), (13, 1), (13, 13), (0, 14), (0, 15)] {
        let frame = inner(prng, length);
        r.receive(code, &vxlan(FROM_A, 22, &frame));
        r.receive(code, &vxlan_summed(FROM_A, 22, &frame));
        r.receive(code, &nvgre(FROM_A, 4096, &frame));
    }
    for (code, length) in [(0, 1513), (0, 1514), (13, 1515), (13, 1518)] {
        let frame = inner(prng, length);
        r.receive(code, &vxlan_summed(FROM_A, 22, &frame));
        r.receive(code, &nvgre(FROM_A, 4096, &frame));
    }
    let types = [
        (13, 0x8100),
        (13, 0x88A8),
        (0, 0x8101),
        (0, 0x80FF),
        (0, 0x88A7),
        (0, 0x88A9),
        (0, 0x81A8),
        (0, 0x8800),
        (0, 0x0081),
        (0, 0xA888),
        (0, 0x9100),
        (0, 0x0000),
    ];
    for (code, kind) in types {
        let mut frame = inner(prng, 18);
        put16(&mut frame, 12, kind);
        r.receive(code, &vxlan(FROM_A, 22, &frame));
        r.receive(code, &nvgre(FROM_A, 4096, &frame));
        r.receive(code, &part(3, &stt_frame(CONTEXT, &frame), 0, 36));
    }
}

fn order(r: &mut Recorder, prng: &mut Prng) {
    set_up(r, prng.draw() as u32);
    for bytes in [&T[..13], &T[..0]] {
        r.receive(13, &vxlan(FROM_A, 22, bytes));
        r.receive(12, &vxlan(FROM_A, 21, bytes));
        r.receive_at(25, 28, &with_byte(&vxlan(FROM_A, 21, bytes), 28, 0xF7));
        r.receive_at(25, 28, &with_byte(&vxlan(FROM_A, 22, bytes), 28, 0));
        r.receive(13, &nvgre(FROM_A, 4096, bytes));
        r.receive(12, &nvgre(FROM_A, 4097, bytes));
        r.receive_at(26, 20, &with_byte(&nvgre(FROM_A, 4097, bytes), 20, 0x24));
        r.receive_at(27, 22, &with_byte(&nvgre(FROM_A, 4096, bytes), 22, 0x64));
    }
}

fn views(r: &mut Recorder, prng: &mut Prng) {
    set_up(r, prng.draw() as u32);
    r.lend(55_300, prng.draw() as u32);
    let packet = vxlan(FROM_A, 22, &inner(prng, 31));
    r.receive(0, &trailed(&packet, &[1, 2, 3]));
    let packet_length = packet.len() as u64 + 3;
    for (in_memory, length) in [(false, packet_length), (true, 55_300)] {
        for (start, count) in [(0, 0), (0, 1), (0, length), (1, length - 1), (5, 9)] {
            r.view(in_memory, start, count);
        }
        r.view(in_memory, length, 0);
        r.view(in_memory, length - 1, 1);
        r.view(in_memory, length - 1, 2);
        r.view(in_memory, length, 1);
        r.view(in_memory, length + 1, 0);
        r.view(in_memory, 0, length + 1);
        r.view(in_memory, 1, length);
        r.view(in_memory, u64::MAX, 1);
        r.view(in_memory, u64::MAX, 0);
        r.view(in_memory, 1, u64::MAX);
        r.view(in_memory, u64::MAX, u64::MAX);
        r.view(in_memory, u64::MAX - 3, 10);
        r.view(in_memory, 1 << 32, 0);
        r.view(in_memory, 0, 1 << 32);
        r.view(in_memory, (1 << 63) + 3, 1 << 63);
    }
    r.receive(3, &[]);
    r.view(false, 0, 0);
    r.view(false, 0, 1);
    r.view(false, 1, 0);
    r.view(true, 55_299, 1);
}
