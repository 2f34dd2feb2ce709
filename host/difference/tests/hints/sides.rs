//! An endpoint of each side that get the same calls.

use crate::look::look;
use crate::rules::{answer, is_tagged, stt_frame, ID};
use difference::answer::Answer;
use difference::endpoints::Endpoints;
use vectors::directed::{ENOUGH, FROM_A, OWN, PORT, STT};
use vectors::packet;

/// Bytes of the IPv4 header and of the TCP-shaped one in a packet that is written.
const HEADERS: usize = 40;
const OUTPUT: usize = 1600;
const UNTOUCHED: u8 = 0xAA;

/// How often each was seen, by the rules.
#[derive(Clone, Copy, Debug, Default)]
pub struct Seen {
    /// Frames written with the hints of TCP over IPv4, UDP over IPv4, TCP over IPv6,
    /// UDP over IPv6, and none.
    pub written: [usize; 5],
    /// Frames written, by their number of segments less one.
    pub segments: [usize; 3],
    /// Frames completed, by answer.
    pub codes: [usize; 30],
    /// Of those delivered: both flags were set, so there was no transport header.
    pub both_delivered: usize,
}

pub struct Sides {
    endpoints: Endpoints,
    mtu: u16,
    identifier: u32,
    pub seen: Seen,
}

impl Sides {
    pub fn new() -> Sides {
        Sides::of_mtu(1600)
    }

    pub fn of_mtu(mtu: u16) -> Sides {
        Sides::between(OWN, FROM_A.from, mtu)
    }

    /// The ones that match those of an MTU: what these write is for them.
    pub fn matching() -> Sides {
        Sides::between(FROM_A.from, OWN, 1600)
    }

    fn between(own: u32, peer: u32, mtu: u16) -> Sides {
        let mut endpoints = Endpoints::start(own, PORT.into(), mtu.into());
        endpoints.add_peer(peer);
        endpoints.add_binding(0, STT.into(), ID, 7);
        Sides {
            endpoints,
            mtu,
            identifier: 0,
            seen: Seen::default(),
        }
    }

    /// A packet that both write alike, with right checksums, or the code of both.
    fn packet(&self, inner: &[u8], segment: u32) -> Result<Vec<u8>, u8> {
        let (mut ours, mut theirs) = ([UNTOUCHED; OUTPUT], [UNTOUCHED; OUTPUT]);
        let identifier = 0xFEDC_BA98;
        let Endpoints {
            library, reference, ..
        } = &self.endpoints;
        let wrapped = library.wrap(0, inner, segment, identifier, &mut ours);
        let expected = reference.wrap(0, inner, segment, identifier, &mut theirs);
        let numbers = (wrapped.code, wrapped.length, wrapped.segments);
        assert_eq!(
            numbers,
            (expected.code, expected.length, expected.segments),
            "{inner:02x?}"
        );
        assert!(
            ours == theirs,
            "segment {segment} of {inner:02x?}\nlibrary {ours:02x?}\nreference {theirs:02x?}"
        );
        if wrapped.code != 0 {
            assert!(ours == [UNTOUCHED; OUTPUT], "a refusal writes nothing");
            return Err(wrapped.code);
        }
        let packet = ours[..wrapped.length].to_vec();
        let repaired = packet::edited(&packet, |_| {});
        assert_eq!(packet, repaired, "the checksums are right");
        Ok(packet)
    }

    /// Writes every segment of a frame, and gives the packets: joined, their payloads are
    /// the STT frame of the rules.
    pub fn wrap(&mut self, inner: &[u8]) -> Vec<Vec<u8>> {
        if is_tagged(inner) {
            assert_eq!(self.packet(inner, 0), Err(13), "{inner:02x?}");
            return Vec::new();
        }
        let expected = stt_frame(inner);
        let count = expected.len().div_ceil(usize::from(self.mtu) - HEADERS) as u32;
        let packets: Result<Vec<_>, u8> = (0..count)
            .map(|segment| self.packet(inner, segment))
            .collect();
        let packets = packets.unwrap_or_else(|code| panic!("{code} on {inner:02x?}"));
        assert_eq!(self.packet(inner, count), Err(23), "the last was the last");
        let payloads: Vec<&[u8]> = packets.iter().map(|packet| &packet[HEADERS..]).collect();
        let joined = payloads.concat();
        assert!(
            joined == expected,
            "written {joined:02x?}\nby the rules {expected:02x?}"
        );
        self.seen.segments[packets.len() - 1] += 1;
        self.count_written(inner);
        packets
    }

    fn count_written(&mut self, inner: &[u8]) {
        let place = match look(inner).map(|hints| hints.flags) {
            Some(0x0C) => 0,
            Some(0x04) => 1,
            Some(0x08) => 2,
            Some(_) => 3,
            None => 4,
        };
        self.seen.written[place] += 1;
    }

    /// An STT frame comes, cut before these places, in this order: its last segment is
    /// answered by the rules, the others with 1.
    pub fn receive(&mut self, stt: &[u8], cuts: &[usize], order: &[usize]) {
        self.identifier = self.identifier.wrapping_add(1);
        let parts = packet::cut(FROM_A, PORT, self.identifier, stt, cuts);
        let Some((&last, others)) = order.split_last() else {
            return;
        };
        for &part in others {
            self.keep(&parts[part]);
        }
        self.complete(&parts[last], stt);
    }

    /// Frames come cut in two at this place, as many as there are slots: the first part
    /// of each, then the others, from the frame of this number on.
    pub fn receive_beside(
        &mut self,
        frames: &[Vec<u8>],
        cut: usize,
        order: [usize; 2],
        turn: usize,
    ) {
        let parts: Vec<Vec<Vec<u8>>> = (0..)
            .zip(frames)
            .map(|(identifier, stt)| packet::cut(FROM_A, PORT, identifier, stt, &[cut]))
            .collect();
        for part in &parts {
            self.keep(&part[order[0]]);
        }
        for number in (0..frames.len()).map(|number| (number + turn) % frames.len()) {
            self.complete(&parts[number][order[1]], &frames[number]);
        }
    }

    /// A segment comes whose frame is then pending.
    fn keep(&mut self, packet: &[u8]) {
        let given = self.segment(packet);
        assert_eq!((given.code, given.offset), (1, 0), "{packet:02x?}");
    }

    /// The last segment of this frame comes.
    fn complete(&mut self, packet: &[u8], stt: &[u8]) {
        let expected = answer(stt);
        let given = self.segment(packet);
        assert!(
            (given.code, given.offset) == expected,
            "answered {given:?}, by the rules {expected:?}\n{packet:02x?}\nof {stt:02x?}"
        );
        if given.code == 0 {
            let place = given.place;
            let bytes = self.endpoints.stored(place.start, place.length);
            assert!(bytes == &stt[18..], "delivered {bytes:02x?} of {stt:02x?}");
        }
        self.seen.codes[usize::from(expected.0)] += 1;
        let both = stt[1] & 3 == 3;
        self.seen.both_delivered += usize::from(both && expected.0 == 0);
    }

    /// The packets of one frame come as they were written, in this order.
    pub fn receive_written(&mut self, packets: &[Vec<u8>], inner: &[u8]) {
        let Some((last, others)) = packets.split_last() else {
            return;
        };
        for packet in others {
            self.keep(packet);
        }
        self.complete(last, &stt_frame(inner));
    }

    /// In one segment.
    pub fn receive_whole(&mut self, stt: &[u8]) {
        self.receive(stt, &[], &[0]);
    }

    /// What both answer to a packet.
    fn segment(&mut self, packet: &[u8]) -> Answer {
        let [ours, theirs] = self.endpoints.receive_in(ENOUGH, packet);
        assert_eq!(ours, theirs, "{packet:02x?}");
        ours
    }

    /// The endpoints and the memories are still the same.
    pub fn check(&self) {
        self.endpoints.check();
    }
}
