//! Sums over the payload of received packets: UDP datagrams and TCP segments.

use crate::aligned::BORDER;
use crate::contents::{Contents, ALL};
use crate::outer::{around, make_zero_right, Carrier, CHANGES, HEADER};
use crate::receiver::{Receiver, Trial, LONGEST};
use crate::sides::SET_UPS;
use crate::slow::{judge_transport, Expected};
use crate::wide;
use vectors::packet::{put16, TCP, UDP};
use vectors::prng::Prng;

/// Every length up to here.
const UP_TO: usize = 2000;

/// Past the lengths of every step that a sum may take; the longest of all first.
fn long_lengths() -> impl Iterator<Item = usize> {
    let longest = LONGEST - HEADER;
    let leaps = [4096, 8192, 9000, 16_384, 32_768, 65_000];
    let near = |length: usize| length - 1..=length + 1;
    (longest - 3..=longest)
        .rev()
        .chain(leaps.into_iter().flat_map(near))
        .chain(UP_TO + 1..=UP_TO + 64)
}

/// Packets of one length: each of these kinds of contents, with each set-up in turn.
fn trials(
    carrier: &Carrier,
    length: usize,
    contents: &[Contents],
    prng: &mut Prng,
    mut trial: impl FnMut(Vec<u8>, Trial, &mut Prng),
) {
    for (turn, &contents) in contents.iter().enumerate() {
        let set_up = (length + turn) % SET_UPS.len();
        let packet = carrier.packet(&SET_UPS[set_up], contents, length, prng);
        let told = Trial {
            set_up,
            what: carrier,
            length,
            contents,
            change: &"right",
        };
        trial(packet, told, prng);
    }
}

/// Right checksums, at every offset from a 64-byte border. What the checks behind the
/// checksum say is held to the reference.
fn right_checksums(carrier: Carrier, lengths: impl Iterator<Item = usize>) -> Receiver {
    let mut receiver = Receiver::new();
    let prng = &mut Prng::new(1);
    for length in lengths {
        trials(&carrier, length, &ALL, prng, |packet, trial, _| {
            let expected = judge_transport(&packet);
            assert_eq!(expected, Expected::Past(10), "{length}");
            receiver.receive_everywhere(&packet, expected, &trial);
        });
        receiver.check_memories(length);
    }
    receiver
}

/// Checksums that were right before a change, at each offset in turn: 312 of each
/// length. The slow sum says whether the change can be told.
fn changed_packets(carrier: Carrier, lengths: impl Iterator<Item = usize>) -> Receiver {
    let mut receiver = Receiver::new();
    let prng = &mut Prng::new(2);
    for length in lengths {
        trials(&carrier, length, &ALL, prng, |packet, trial, prng| {
            for change in CHANGES {
                let mut changed = packet.clone();
                change.apply(carrier, &mut changed, prng);
                receiver.receive(&changed, judge_transport, &trial.with(&change));
            }
        });
        receiver.check_memories(length);
    }
    receiver
}

/// How many packets of `lengths` lengths there are with each kind of contents.
fn all_contents(lengths: usize) -> usize {
    lengths * ALL.len()
}

#[test]
fn udp_of_every_length_and_alignment_passes_with_its_checksum() {
    let receiver = right_checksums(Carrier::Udp, 16..=UP_TO);
    let received: usize = receiver.codes.iter().sum();
    assert_eq!(received, all_contents(1985) * BORDER);
    // Inner frames of 14 to 1,514 bytes; few have a tag by chance.
    assert!(receiver.codes[0] > all_contents(1500) * BORDER);
}

#[test]
fn stt_of_every_length_and_alignment_passes_with_its_checksum() {
    let receiver = right_checksums(Carrier::Tcp, 20..=UP_TO);
    let received: usize = receiver.codes.iter().sum();
    assert_eq!(received, all_contents(1981) * BORDER);
    // Whole frames of 32 to 1,532 bytes behind 20 to 60 bytes.
    assert!(receiver.codes[0] > all_contents(1500) * BORDER);
}

#[test]
fn udp_of_every_length_is_refused_with_another_checksum() {
    let receiver = changed_packets(Carrier::Udp, 16..=UP_TO);
    // Of 13 changes, but for: none at all, and what leaves the sum as it was.
    assert!(receiver.codes[10] > all_contents(1985) * 9);
    // Those, where the frame is of a good length.
    assert!(receiver.codes[0] > all_contents(1500) * 2);
}

#[test]
fn stt_of_every_length_is_refused_with_another_checksum() {
    let receiver = changed_packets(Carrier::Tcp, 20..=UP_TO);
    // A field of 0 is refused here too.
    assert!(receiver.codes[10] > all_contents(1981) * 10);
    assert!(receiver.codes[0] > all_contents(1500));
}

/// The largest sums, and lengths far past those that a step may take at once.
#[test]
fn long_payloads_pass_with_their_checksum_and_with_no_other() {
    for carrier in [Carrier::Udp, Carrier::Tcp] {
        right_checksums(carrier, long_lengths().step_by(5));
        let receiver = changed_packets(carrier, long_lengths());
        assert!(receiver.codes[10] > all_contents(86) * 9);
    }
}

/// Where 0 is right, so is 0xFFFF (RFC 1071, 1 (3)); a UDP field of 0 is none, and passes
/// for that. Nothing else is right.
fn zero_and_all_ones(carrier: Carrier) {
    let mut receiver = Receiver::new();
    let prng = &mut Prng::new(3);
    for length in carrier.shortest()..=UP_TO {
        trials(&carrier, length, &ALL, prng, |mut packet, trial, _| {
            make_zero_right(carrier, &mut packet);
            for field in [0, 0xFFFF, 1, 0xFFFE, 0x0100, 0xFEFF] {
                put16(&mut packet, HEADER + carrier.field(), field);
                let change = format_args!("field {field:#06x}");
                receiver.receive(&packet, judge_transport, &trial.with(&change));
            }
        });
    }
    let packets = all_contents(UP_TO + 1 - carrier.shortest());
    assert_eq!(receiver.codes[10], 4 * packets);
}

#[test]
fn udp_of_every_length_passes_with_all_ones_for_zero() {
    zero_and_all_ones(Carrier::Udp);
}

#[test]
fn stt_of_every_length_passes_with_zero_and_with_all_ones_for_it() {
    zero_and_all_ones(Carrier::Tcp);
}

/// Sums that are next to a carry where they are gathered in 64-bit words.
#[test]
fn sums_of_64_bits_next_to_a_carry_pass() {
    let mut receiver = Receiver::new();
    let prng = &mut Prng::new(6);
    for carrier in [Carrier::Udp, Carrier::Tcp] {
        for length in 32..=UP_TO {
            let contents = [ALL[length % ALL.len()], Contents::All(0xFF)];
            trials(&carrier, length, &contents, prng, |mut packet, trial, _| {
                for but in wide::ALL_BUT {
                    but.put(carrier, &mut packet);
                    receiver.receive(&packet, judge_transport, &trial.with(&but));
                }
            });
        }
    }
    assert_eq!(receiver.codes[10], 0);
}

/// Every value of the field: one passes, or two where 0 is right; and the 0 of UDP.
fn every_field(carrier: Carrier, length: usize, zero_is_right: bool) {
    let mut receiver = Receiver::new();
    let contents = [ALL[length % ALL.len()]];
    let prng = &mut Prng::new(4);
    trials(&carrier, length, &contents, prng, |mut packet, trial, _| {
        if zero_is_right {
            make_zero_right(carrier, &mut packet);
        }
        for field in 0..=0xFFFF {
            put16(&mut packet, HEADER + carrier.field(), field);
            let change = format_args!("field {field:#06x}");
            receiver.receive(&packet, judge_transport, &trial.with(&change));
        }
    });
    let none = !zero_is_right && carrier == Carrier::Udp;
    let passed = 1 + usize::from(zero_is_right) + usize::from(none);
    assert_eq!(receiver.codes[10], 65_536 - passed, "{length}");
}

#[test]
fn one_value_of_a_checksum_passes() {
    for carrier in [Carrier::Udp, Carrier::Tcp] {
        for length in carrier.shortest()..carrier.shortest() + 12 {
            every_field(carrier, length, false);
            every_field(carrier, length, true);
        }
    }
}

/// Too short for a sum: 9, whatever stands in the field.
#[test]
fn no_sum_is_asked_of_short_payloads() {
    let mut receiver = Receiver::new();
    let prng = &mut Prng::new(5);
    for (protocol, shortest, port) in [(UDP, 16, 4789), (TCP, 20, SET_UPS[0].port)] {
        for length in 0..shortest {
            let mut payload = prng.bytes(shortest);
            put16(&mut payload, 2, port);
            put16(&mut payload, 4, length as u16);
            payload[12] = 0x50;
            let packet = around(&SET_UPS[0], protocol, &payload[..length]);
            let trial = Trial {
                set_up: 0,
                what: &protocol,
                length,
                contents: Contents::Random,
                change: &"none",
            };
            receiver.receive_everywhere(&packet, Expected::Refused(9), &trial);
        }
    }
    assert_eq!(receiver.codes[9], (16 + 20) * BORDER);
}
