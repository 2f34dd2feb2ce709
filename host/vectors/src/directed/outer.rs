//! The outer packet: 2 to 10, and the order among them.

use super::*;
use crate::packet::*;

pub const CASES: &[(&str, Case)] = &[
    ("memory asked first", memory_first),
    ("lengths of the IPv4 header", ipv4_lengths),
    ("IPv4 options", ipv4_options),
    ("trailing bytes", trailing),
    ("IPv4 checksum", ipv4_checksum),
    ("fragments", fragments),
    ("addresses", addresses),
    ("protocols and ports", protocols),
    ("short payloads", short_payloads),
    ("UDP length", udp_length),
    ("TCP data offset", data_offset),
    ("UDP checksum", udp_checksum),
    ("TCP checksum", tcp_checksum),
    ("order of the checks", order),
];

fn one_segment() -> Vec<u8> {
    part(77, &stt_frame(CONTEXT, &T), 0, 32)
}

fn memory_first(r: &mut Recorder, prng: &mut Prng) {
    set_up(r, prng.draw() as u32);
    let packets = [
        Vec::new(),
        vxlan(FROM_A, 22, &T),
        nvgre(FROM_A, 4096, &T),
        one_segment(),
    ];
    let expected = [3, 0, 0, 0];
    for length in [55_295, 0, 1, 20_000] {
        r.lend(length, prng.draw() as u32);
        for packet in &packets {
            r.receive(2, packet);
        }
        r.view(true, 0, length as u64);
    }
    for length in [55_296, 55_297, 60_000] {
        r.lend(length, prng.draw() as u32);
        for (packet, code) in packets.iter().zip(expected) {
            r.receive(code, packet);
        }
        r.receive(1, &part(length as u32, &[9; 100], 3, 61));
    }
    // A pending frame outlives a memory too short: 15 tells.
    r.lend(55_295, 5);
    r.receive(2, &part(60_000, &[9; 101], 61, 70));
    r.lend(55_296, 6);
    r.receive(15, &part(60_000, &[9; 101], 61, 70));
}

fn ipv4_lengths(r: &mut Recorder, prng: &mut Prng) {
    set_up(r, prng.draw() as u32);
    let good = vxlan(FROM_A, 22, &T);
    for length in [1, 2, 8, 19] {
        r.receive(3, &good[..length]);
    }
    r.receive(3, &good[..20]);
    r.receive(3, &good[..49]);
    r.receive(0, &good);
    for first in [0x05, 0x35, 0x55, 0x65, 0xF5, 0x40, 0x44, 0x41] {
        r.receive(3, &with_byte(&good, 0, first));
    }
    for (code, total) in [(3, 0), (3, 19), (9, 20), (9, 49), (3, 51), (3, 65_535)] {
        r.receive(code, &with_word(&good, 2, total));
    }
    // A header longer than the packet's bytes, and one that just fills them.
    let bare = ipv4(FROM_A, 1, &[]);
    r.receive(8, &bare);
    r.receive(3, &edited(&bare, |p| p[0] = 0x46));
    r.receive(8, &with_ip_options(&bare, 10));
}

fn ipv4_options(r: &mut Recorder, prng: &mut Prng) {
    set_up(r, prng.draw() as u32);
    let frame = inner(prng, 61);
    for words in [1, 2, 5, 10] {
        r.receive(0, &with_ip_options(&vxlan(FROM_A, 22, &frame), words));
        r.receive(
            0,
            &with_ip_options(&vxlan_summed(FROM_A, 22, &frame), words),
        );
        r.receive(0, &with_ip_options(&nvgre(FROM_A, 4096, &frame), words));
        r.receive(0, &with_ip_options(&one_segment(), words));
        let both = with_tcp_options(&with_ip_options(&one_segment(), words), words);
        r.receive(0, &both);
    }
    let optioned = with_ip_options(&vxlan(FROM_A, 22, &T), 2);
    for at in 20..28 {
        r.receive(4, &raw_byte(&optioned, at, 0x11));
    }
    for (code, total) in [(3, 20), (3, 27), (9, 28), (9, 35), (9, 57)] {
        r.receive(code, &with_word(&optioned, 2, total));
    }
}

fn trailing(r: &mut Recorder, prng: &mut Prng) {
    set_up(r, prng.draw() as u32);
    for extra in [1, 2, 7, 100] {
        let bytes = prng.bytes(extra);
        r.receive(0, &trailed(&vxlan(FROM_A, 22, &T), &bytes));
        r.receive(0, &trailed(&vxlan_summed(FROM_A, 22, &T), &bytes));
        r.receive(0, &trailed(&nvgre(FROM_A, 4096, &T), &bytes));
        r.receive(0, &trailed(&one_segment(), &bytes));
    }
    // What the payload lacks is not made up from trailing bytes.
    r.receive(9, &trailed(&ipv4(FROM_A, UDP, &[0; 7]), &[0; 60]));
    r.receive(9, &trailed(&ipv4(FROM_A, TCP, &[0; 19]), &[0; 60]));
    r.receive(9, &trailed(&ipv4(FROM_A, GRE, &[0x20; 7]), &[0; 60]));
    r.receive(13, &trailed(&nvgre(FROM_A, 4096, &T[..13]), &[0; 60]));
    let empty = loose(5, 32, 0, &[]);
    r.receive(14, &trailed(&empty, &[1; 32]));
    r.receive(9, &trailed(&with_byte(&empty, 32, 0x60), &[1; 32]));
}

/// Moves the header checksum into the identification: then 0 is the right
/// field, and so is 0xFFFF.
fn ipv4_checksum(r: &mut Recorder, prng: &mut Prng) {
    set_up(r, prng.draw() as u32);
    let good = vxlan(FROM_A, 22, &T);
    for at in 0..20 {
        // Not the fields that check 3 reads.
        if !matches!(at, 0 | 2 | 3) {
            r.receive(4, &raw_byte(&good, at, good[at] ^ 0x10));
        }
    }
    let field = get16(&good, 10);
    let mut moved = good.clone();
    put16(&mut moved, 4, field);
    for (code, value) in [(0, 0), (0, 0xFFFF), (4, 1), (4, 0xFFFE), (4, field)] {
        put16(&mut moved, 10, value);
        r.receive(code, &moved);
    }
    r.receive(0, &with_byte(&good, 1, 0xFF));
    r.receive(0, &with_byte(&good, 8, 0));
    r.receive(0, &with_word(&good, 4, 0xABCD));
}

fn fragments(r: &mut Recorder, prng: &mut Prng) {
    set_up(r, prng.draw() as u32);
    let packets = [
        vxlan(FROM_A, 22, &T),
        nvgre(FROM_A, 4096, &T),
        one_segment(),
    ];
    for packet in packets {
        for flags in [0x0000, 0x4000, 0x8000, 0xC000] {
            r.receive(0, &with_word(&packet, 6, flags));
        }
        for flags in [0x2000, 0x6000, 0x0001, 0x1000, 0x0100, 0x1FFF, 0xFFFF] {
            r.receive(5, &with_word(&packet, 6, flags));
        }
    }
}

fn addresses(r: &mut Recorder, prng: &mut Prng) {
    set_up(r, prng.draw() as u32);
    let ways = [
        (6, PEER_A, OWN + 1),
        (6, PEER_A, OWN ^ 0x8000_0000),
        (6, PEER_A, 0),
        (6, PEER_A, 0xFFFF_FFFF),
        (6, OWN, PEER_A),
        (7, OWN, OWN),
        (7, PEER_B + 1, OWN),
        (7, 0, OWN),
        (7, PEER_A ^ 0x0100_0000, OWN),
        (6, PEER_B + 1, OWN + 2),
        (0, PEER_A, OWN),
        (0, PEER_B, OWN),
    ];
    for (code, from, to) in ways {
        let path = Path { from, to };
        r.receive(code, &vxlan(path, 22, &T));
        r.receive(code, &nvgre(path, 4096, &T));
    }
}

fn protocols(r: &mut Recorder, prng: &mut Prng) {
    set_up(r, prng.draw() as u32);
    for protocol in [0, 1, 4, 5, 7, 16, 18, 41, 46, 48, 255] {
        r.receive(8, &ipv4(FROM_A, protocol, &[]));
        r.receive(8, &ipv4(FROM_A, protocol, &[0; 40]));
    }
    let datagram = vxlan_summed(FROM_A, 22, &T);
    for port in [0, 4788, 4790, 8472, PORT, 0xB512] {
        r.receive(8, &with_word(&datagram, 22, port));
    }
    r.receive(0, &with_word(&datagram, 20, 4790));
    let segment = one_segment();
    for port in [0, PORT - 1, PORT + 1, 4789, PORT.swap_bytes()] {
        r.receive(8, &with_word(&segment, 22, port));
    }
    r.receive(0, &with_word(&segment, 20, 1));
    // The STT port is a setting; it may be that of VXLAN.
    r.start(0, OWN, 4789, 1500);
    r.peer(0, PEER_A);
    r.binding(0, 0, STT, CONTEXT, 5);
    r.receive(8, &segment);
    r.receive(0, &with_word(&segment, 22, 4789));
}

fn short_payloads(r: &mut Recorder, prng: &mut Prng) {
    set_up(r, prng.draw() as u32);
    for length in [0, 1, 7] {
        r.receive(9, &ipv4(FROM_A, UDP, &vec![0; length]));
        r.receive(9, &ipv4(FROM_A, GRE, &vec![0x20; length]));
    }
    r.receive(8, &ipv4(FROM_A, UDP, &[0; 8]));
    r.receive(9, &ipv4(FROM_A, UDP, &udp(4789, &[])));
    r.receive_at(26, 20, &ipv4(FROM_A, GRE, &[0; 8]));
    r.receive(13, &nvgre(FROM_A, 4096, &[]));
    for length in [0, 8, 19] {
        r.receive(9, &ipv4(FROM_A, TCP, &vec![0; length]));
    }
    r.receive(8, &ipv4(FROM_A, TCP, &[0; 20]));
    r.receive(14, &loose(1, 32, 0, &[]));
}

fn udp_length(r: &mut Recorder, prng: &mut Prng) {
    set_up(r, prng.draw() as u32);
    let good = vxlan(FROM_A, 22, &T);
    for length in [0, 7, 8, 15, 16, 29, 31, 50, 65_535] {
        r.receive(9, &with_word(&good, 24, length));
    }
    r.receive(0, &with_word(&good, 24, 30));
    for (code, bytes) in [(9, 0), (9, 7), (13, 8), (13, 9), (13, 21), (0, 22)] {
        let mut data = vec![8, 0, 0, 0, 0, 0, 22, 0];
        data.extend(T);
        r.receive(code, &ipv4(FROM_A, UDP, &udp(4789, &data[..bytes])));
    }
}

fn data_offset(r: &mut Recorder, prng: &mut Prng) {
    set_up(r, prng.draw() as u32);
    let good = one_segment();
    for words in 0..5 {
        r.receive(9, &with_byte(&good, 32, words << 4 | 0x0F));
    }
    r.receive(0, &with_byte(&good, 32, 0x5F));
    for words in [1, 3, 10] {
        r.receive(0, &with_tcp_options(&good, words));
    }
    // A payload of 52 bytes: 13 words fill it, 14 go past it.
    r.receive(14, &with_byte(&good, 32, 0xD0));
    r.receive(9, &with_byte(&good, 32, 0xE0));
    r.receive(9, &with_byte(&good, 32, 0xF0));
    r.receive(14, &with_tcp_options(&loose(2, 32, 0, &[]), 10));
    r.receive(9, &with_byte(&loose(2, 32, 0, &[1; 39]), 32, 0xF0));
    r.receive(14, &with_byte(&loose(2, 32, 0, &[1; 40]), 32, 0xF0));
    r.receive(1, &with_byte(&loose(2, 32, 0, &[1; 41]), 32, 0xF0));
}

fn udp_checksum(r: &mut Recorder, prng: &mut Prng) {
    set_up(r, prng.draw() as u32);
    for length in [14, 15, 16, 17, 63, 200] {
        let good = vxlan_summed(FROM_A, 22, &inner(prng, length));
        r.receive(0, &good);
        let last = good.len() - 1;
        r.receive(10, &raw_byte(&good, last, good[last] ^ 1));
        r.receive(10, &raw_byte(&good, 27, good[27] ^ 0x80));
        r.receive(10, &raw_byte(&good, 20, good[20] ^ 0x80));
        let mut none = good.clone();
        put16(&mut none, 26, 0);
        r.receive(0, &none);
        none[last] ^= 1;
        r.receive(0, &none);
    }
    // The field moved into the source port: 0xFFFF is then right.
    let bare = edited(&vxlan_summed(FROM_A, 22, &T), |p| put16(p, 20, 0));
    let mut moved = bare.clone();
    put16(&mut moved, 20, get16(&bare, 26));
    for (code, value) in [(0, 0xFFFF), (0, 0), (10, 1), (10, 0xFFFE)] {
        put16(&mut moved, 26, value);
        r.receive(code, &moved);
    }
}

fn tcp_checksum(r: &mut Recorder, prng: &mut Prng) {
    set_up(r, prng.draw() as u32);
    for length in [32, 33, 34, 35, 101] {
        let frame = good_frame(prng, length);
        let good = part(4, &frame, 0, length);
        r.receive(0, &good);
        let last = good.len() - 1;
        r.receive(10, &raw_byte(&good, last, good[last] ^ 1));
        r.receive(10, &raw_byte(&good, 20, good[20] ^ 1));
        let mut zero = good.clone();
        put16(&mut zero, 36, 0);
        r.receive(10, &zero);
        put16(&mut zero, 36, 0xFFFF);
        r.receive(10, &zero);
    }
    // The field moved into the window: 0 and 0xFFFF are then both right.
    let good = one_segment();
    let mut moved = good.clone();
    put16(&mut moved, 34, get16(&good, 36));
    for (code, value) in [(0, 0), (0, 0xFFFF), (10, 1), (10, 0x8000)] {
        put16(&mut moved, 36, value);
        r.receive(code, &moved);
    }
    // Flags, window and urgent pointer are not examined.
    for flags in [0x00, 0x02, 0x18, 0xFF] {
        r.receive(0, &with_byte(&good, 33, flags));
    }
    r.receive(0, &with_word(&good, 34, 0xFFFF));
    r.receive(0, &with_word(&good, 38, 0x1234));
}

/// Packets with two faults each: the earlier check is the answer.
fn order(r: &mut Recorder, prng: &mut Prng) {
    set_up(r, prng.draw() as u32);
    let datagram = vxlan_summed(FROM_A, 22, &T);
    let segment = one_segment();
    r.receive(3, &raw_byte(&datagram, 0, 0x44));
    let fragment = with_word(&datagram, 6, 0x2000);
    r.receive(4, &raw_byte(&fragment, 11, fragment[11] ^ 1));
    r.receive(5, &with_word(&fragment, 18, 9));
    let elsewhere = with_word(&datagram, 18, 9);
    r.receive(6, &with_word(&elsewhere, 14, 9));
    let stranger = with_word(&datagram, 14, 9);
    r.receive(7, &with_byte(&stranger, 9, 1));
    r.receive(7, &resized(&stranger, 27));
    let other_port = with_word(&datagram, 22, 1);
    r.receive(8, &with_word(&other_port, 24, 3));
    r.receive(8, &raw_byte(&other_port, 49, 0));
    let other_port = with_word(&segment, 22, 1);
    r.receive(8, &with_byte(&other_port, 32, 0x40));
    r.receive(8, &raw_byte(&other_port, 60, 0xFF));
    let long = with_word(&datagram, 24, 31);
    r.receive(9, &raw_byte(&long, 49, 0));
    let past = with_byte(&segment, 32, 0xF0);
    r.receive(9, &raw_byte(&past, 60, 0xFF));
    let no_flag = with_byte(&datagram, 28, 0);
    r.receive_at(25, 28, &no_flag);
    r.receive(10, &raw_byte(&no_flag, 49, 0));
    r.receive(12, &with_byte(&datagram, 34, 23));
    r.receive_at(25, 28, &with_byte(&no_flag, 34, 23));
    let too_long = with_word(&segment, 24, 1533);
    r.receive(14, &too_long);
    r.receive(10, &raw_byte(&too_long, 60, 0xFF));
}
