//! Sums over the IPv4 headers of received packets, of every length and with options of
//! any bytes.

use crate::aligned::BORDER;
use crate::contents::{Contents, ALL};
use crate::outer::{seal_header, Carrier, HEADER};
use crate::receiver::{Receiver, Trial, LONGEST};
use crate::sides::SET_UPS;
use crate::slow::{self, judge_header, Expected};
use vectors::packet::{put16, UDP};
use vectors::prng::Prng;

/// Times that each kind of contents is tried.
const TIMES: usize = 12;

/// Every length of a header.
fn lengths() -> impl Iterator<Item = usize> {
    (20..=60).step_by(4)
}

/// A packet whose header has the contents but for its version, its length and the
/// packet's, with the right checksum.
fn any_header(trial: &Trial, payload: &[u8], prng: &mut Prng) -> Vec<u8> {
    let mut packet = trial.contents.bytes(trial.length, prng);
    packet.extend(payload);
    packet[0] = 0x40 | (trial.length / 4) as u8;
    let total = packet.len() as u16;
    put16(&mut packet, 2, total);
    seal_header(&mut packet);
    packet
}

/// The same with the fields that a packet for us has, around a datagram with its own
/// checksum: service, identification, time to live and options are left.
fn header_for_us(trial: &Trial, prng: &mut Prng) -> Vec<u8> {
    let set_up = &SET_UPS[trial.set_up];
    let plain = Carrier::Udp.packet(set_up, Contents::All(2), 31, prng);
    let mut packet = any_header(trial, &plain[HEADER..], prng);
    packet[6] &= 0xC0;
    packet[7] = 0;
    packet[9] = UDP;
    packet[12..20].copy_from_slice(&plain[12..20]);
    seal_header(&mut packet);
    packet
}

/// Headers of every length, each kind of contents several times.
fn trials(mut trial: impl FnMut(Trial)) {
    for length in lengths() {
        for contents in ALL {
            for turn in 0..TIMES {
                trial(told(turn % SET_UPS.len(), length, contents));
            }
        }
    }
}

/// How many there are.
fn number_of_trials() -> usize {
    lengths().count() * ALL.len() * TIMES
}

fn told(set_up: usize, length: usize, contents: Contents) -> Trial<'static> {
    Trial {
        set_up,
        what: &"IPv4 header",
        length,
        contents,
        change: &"right",
    }
}

#[test]
fn headers_for_us_pass_with_their_checksum_at_every_alignment() {
    let mut receiver = Receiver::new();
    let prng = &mut Prng::new(11);
    trials(|trial| {
        let packet = header_for_us(&trial, prng);
        receiver.receive_everywhere(&packet, judge_header(&packet), &trial);
    });
    assert_eq!(receiver.codes[0], number_of_trials() * BORDER);
}

/// Of any protocol, addresses and fragments, and of any total length: what is asked of
/// them comes behind the checksum.
#[test]
fn headers_of_any_bytes_pass_with_their_checksum() {
    let mut receiver = Receiver::new();
    let prng = &mut Prng::new(12);
    trials(|trial| {
        let payload = vec![0x5A; prng.below(LONGEST + 1 - trial.length)];
        let packet = any_header(&trial, &payload, prng);
        for _ in 0..8 {
            receiver.receive(&packet, judge_header, &trial);
        }
    });
    assert_eq!(receiver.codes.iter().sum::<usize>(), 8 * number_of_trials());
    assert_eq!((receiver.codes[3], receiver.codes[4]), (0, 0));
}

/// Each bit of each byte, those of the two lengths too: check 3 may then be first, and
/// the sum over another header.
#[test]
fn headers_are_refused_with_any_bit_turned() {
    let mut receiver = Receiver::new();
    let prng = &mut Prng::new(13);
    trials(|trial| {
        let mut packet = header_for_us(&trial, prng);
        for bit in 0..8 * trial.length {
            packet[bit / 8] ^= 1 << (bit % 8);
            let change = format_args!("bit {bit} turned");
            receiver.receive(&packet, judge_header, &trial.with(&change));
            packet[bit / 8] ^= 1 << (bit % 8);
        }
    });
    // Of 40 bytes, three are read by check 3.
    assert!(receiver.codes[4] > number_of_trials() * 8 * 37);
    assert_eq!(receiver.codes[0], 0);
}

/// Two neighbouring bytes exchanged, which is told where they differ; and two words of
/// the options, which no sum tells.
#[test]
fn headers_with_bytes_exchanged_are_told_and_with_words_are_not() {
    let mut receiver = Receiver::new();
    let prng = &mut Prng::new(14);
    trials(|trial| {
        let packet = header_for_us(&trial, prng);
        let bytes = (4..trial.length - 1).map(|at| (at, 1));
        let words = (20..trial.length.max(22) - 2).step_by(2).map(|at| (at, 2));
        for (at, size) in bytes.chain(words) {
            let mut changed = packet.clone();
            changed[at..at + 2 * size].rotate_left(size);
            let told = size == 1 && packet[at] != packet[at + 1];
            let right = judge_header(&changed) == Expected::Past(4);
            assert_eq!(right, !told, "bytes {at}, {size}");
            let change = format_args!("{size} at {at} exchanged");
            receiver.receive(&changed, judge_header, &trial.with(&change));
        }
    });
    assert!(receiver.codes[4] > number_of_trials() * 10);
    assert!(receiver.codes[0] > number_of_trials() * 10);
}

/// Every value of the field, of every length: one passes, or 0 and 0xFFFF where the
/// identification makes the sum of all else all ones.
#[test]
fn one_value_of_a_header_checksum_passes() {
    let prng = &mut Prng::new(15);
    for (turn, length) in lengths().chain(lengths()).enumerate() {
        let trial = told(turn % SET_UPS.len(), length, ALL[turn % ALL.len()]);
        let mut packet = header_for_us(&trial, prng);
        let zero_is_right = turn >= lengths().count();
        if zero_is_right {
            make_zero_right(&mut packet);
        }
        let mut receiver = Receiver::new();
        for field in 0..=0xFFFF {
            put16(&mut packet, 10, field);
            let change = format_args!("field {field:#06x}");
            receiver.receive(&packet, judge_header, &trial.with(&change));
        }
        let passed = 1 + usize::from(zero_is_right);
        let answers = (receiver.codes[0], receiver.codes[4]);
        assert_eq!(answers, (passed, 65_536 - passed), "{length}");
    }
}

/// The two values of the field that are right where 0 is, with every kind of contents.
#[test]
fn headers_pass_with_zero_and_with_all_ones_for_it() {
    let mut receiver = Receiver::new();
    let prng = &mut Prng::new(16);
    trials(|trial| {
        let mut packet = header_for_us(&trial, prng);
        make_zero_right(&mut packet);
        for field in [0, 0xFFFF, 1, 0xFFFE, 0x0100, 0xFEFF] {
            put16(&mut packet, 10, field);
            let change = format_args!("field {field:#06x}");
            receiver.receive(&packet, judge_header, &trial.with(&change));
        }
    });
    let trials = number_of_trials();
    let answers = (receiver.codes[0], receiver.codes[4]);
    assert_eq!(answers, (2 * trials, 4 * trials));
}

/// Moves what is missing of all ones to the identification.
fn make_zero_right(packet: &mut [u8]) {
    put16(packet, 4, 0);
    put16(packet, 10, 0);
    let missing = slow::missing(slow::of_header(packet), slow::ALL_ONES);
    put16(packet, 4, missing);
}
