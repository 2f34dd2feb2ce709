//! Random runs aimed at 32: frames of many small segments, from several peers at once,
//! with repeats, overlaps, other lengths, ticks and damaged packets between.

use crate::counts::Counts;
use crate::reassembler::{MEMORY_NEEDED, SEGMENTS};
use crate::scene::{endpoint, from, ordered, pieces, Sent, VNI};
use crate::sides::{Memories, Sides};
use niulassenc::limits::{PEERS, TICKS};
use niulassenc::MEMORY_NEEDED as LIBRARY_NEEDED;
use std::ops::Range;
use vectors::directed::{inner, with_tcp, CONTEXT};
use vectors::packet::{repair, stt_frame, vxlan};
use vectors::prng::Prng;

/// A frame with the segments that are still to be sent, and those that were.
struct Flight {
    sent: Sent,
    next: Vec<Range<usize>>,
    past: Vec<Range<usize>>,
}

struct Scene {
    sides: Sides,
    peers: usize,
    flights: Vec<Flight>,
    /// The flight that most segments are of, for a while.
    current: usize,
    identifier: u32,
}

/// The run of a seed, of so many steps.
pub fn compare(seed: u64, steps: usize) -> Result<Counts, String> {
    let prng = &mut Prng::new(seed);
    let peers = prng.between(1, PEERS);
    let memories = Memories {
        library: LIBRARY_NEEDED + prng.below(2),
        reference: MEMORY_NEEDED + prng.below(2),
        seed: prng.draw() as u32,
    };
    let mut scene = Scene {
        sides: Sides::new(&endpoint(peers), memories),
        peers,
        flights: Vec::new(),
        current: 0,
        identifier: prng.draw() as u32,
    };
    for _ in 0..prng.between(1, 2 * peers + 2) {
        let flight = scene.flight(prng);
        scene.flights.push(flight);
    }
    for step in 0..steps {
        let made = scene.step(prng);
        made.map_err(|why| format!("seed {seed}, step {step}: {why}"))?;
    }
    Ok(scene.sides.counts)
}

impl Scene {
    fn flight(&mut self, prng: &mut Prng) -> Flight {
        let count = match prng.below(10) {
            0..=2 => SEGMENTS,
            3..=4 => SEGMENTS + 1,
            5..=7 => prng.between(SEGMENTS + 2, 2 * SEGMENTS),
            _ => prng.between(1, SEGMENTS - 1),
        };
        let length = (count * prng.between(1, 12) + prng.below(8)).clamp(count.max(32), 1532);
        let frame = any_frame(prng, length);
        self.identifier = self.identifier.wrapping_add(1);
        let cut = pieces(prng, length, count);
        Flight {
            sent: Sent {
                path: from(prng.below(self.peers)),
                identifier: self.identifier,
                frame,
            },
            next: ordered(prng, cut),
            past: Vec::new(),
        }
    }

    fn step(&mut self, prng: &mut Prng) -> Result<(), String> {
        let packet = match prng.below(1000) {
            0..=4 => return self.sides.tick(),
            5..=14 => {
                let length = prng.between(14, 60);
                vxlan(from(prng.below(self.peers)), VNI, &inner(prng, length))
            }
            15..=24 => self.damaged(prng),
            _ => {
                if prng.percent(2) {
                    self.current = prng.below(self.flights.len());
                }
                let flight = &self.flights[self.current];
                if flight.next.is_empty() {
                    return self.replace(prng);
                }
                self.segment(prng)
            }
        };
        self.sides.receive(&packet).map(|_| ())
    }

    /// Another frame follows one whose segments were all sent. Now and then one that was
    /// not complete is given up first.
    fn replace(&mut self, prng: &mut Prng) -> Result<(), String> {
        let sent = &self.flights[self.current].sent;
        let stays = self.sides.taken(sent.path.from, sent.identifier) > 0;
        self.flights[self.current] = self.flight(prng);
        if stays && prng.percent(40) {
            for _ in 0..TICKS {
                self.sides.tick()?;
            }
        }
        Ok(())
    }

    /// The next segment of the current frame; or one that is refused.
    fn segment(&mut self, prng: &mut Prng) -> Vec<u8> {
        let flight = &mut self.flights[self.current];
        let length = flight.sent.frame.len();
        let next = flight.next[0].clone();
        let bytes = flight.sent.frame[next.clone()].to_vec();
        match prng.below(100) {
            0..=5 if !flight.past.is_empty() => {
                let past = flight.past[prng.below(flight.past.len())].clone();
                // A byte more at each end, if there is one.
                let grown = past.start.saturating_sub(1)..(past.end + 1).min(length);
                let repeated = if prng.percent(50) { past } else { grown };
                flight.sent.part(repeated)
            }
            6..=8 => {
                let other = prng.pick(&[length + 1, length - 1, 32, 1532]);
                flight.sent.labelled(other, next.start, &bytes)
            }
            9..=10 => {
                let other = prng.pick(&[length, length + 1]);
                flight.sent.labelled(other, length, &bytes)
            }
            11 => flight.sent.labelled(length, next.start, &[]),
            _ => {
                flight.past.push(flight.next.remove(0));
                flight.sent.part(next)
            }
        }
    }

    /// A segment with a byte changed, mostly in a header that says so no more.
    fn damaged(&self, prng: &mut Prng) -> Vec<u8> {
        let flight = &self.flights[self.current];
        let mut packet = flight.sent.part(0..1);
        let at = prng.below(packet.len());
        packet[at] ^= 1 << prng.below(8);
        if prng.percent(50) {
            repair(&mut packet);
        }
        packet
    }
}

/// A good STT frame mostly; or one that is refused once it is complete, with 28, 29, 12
/// or 13.
fn any_frame(prng: &mut Prng, length: usize) -> Vec<u8> {
    let within = length - 18;
    let has_tcp = within >= 34 && prng.percent(20);
    let mut bytes = if has_tcp {
        with_tcp(prng, within)
    } else {
        inner(prng, within)
    };
    let fault = prng.below(25);
    if fault == 0 {
        bytes[12..14].copy_from_slice(&[0x81, 0x00]);
    }
    let context = if fault == 1 { CONTEXT + 1 } else { CONTEXT };
    let mut frame = stt_frame(context, &bytes);
    match fault {
        2 => frame[0] = prng.between(1, 255) as u8,
        3..=5 => frame[1] = 0x03,
        _ => {}
    }
    frame
}
