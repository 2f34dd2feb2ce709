//! What the test program `roundtrip` writes, worked out with the reference: a
//! frame of every size, for each kind and three MTUs, wrapped and unwrapped by a
//! second endpoint in another order.

use std::fmt::Write;

use niulassenc_reference::{view, Endpoint};

const MTUS: [u32; 3] = [576, 1500, 1600];
const SENDER: u32 = 0x0a00_0001;
const RECEIVER: u32 = 0x0a00_0002;

/// One line for each MTU and kind.
pub fn lines() -> String {
    let mut text = String::new();
    for mtu in MTUS {
        for binding in 0..3 {
            let t = Tally::of(mtu, binding);
            writeln!(
                text,
                "mtu {mtu} kind {} packets {} sum {} equal {} refused {}",
                binding + 1,
                t.packets,
                t.sum,
                t.equal,
                t.refused
            )
            .expect("a string takes all");
        }
    }
    text
}

#[derive(Default)]
struct Tally {
    packets: u64,
    sum: u32,
    equal: u64,
    refused: u64,
}

impl Tally {
    fn of(mtu: u32, binding: u32) -> Tally {
        let sender = set_up(SENDER, RECEIVER, mtu);
        let mut receiver = set_up(RECEIVER, SENDER, mtu);
        let mut memory = vec![165; 55_296];
        let mut tally = Tally::default();
        for size in 14..=1514 {
            tally.carry(
                &sender,
                &mut receiver,
                binding,
                &frame(size, binding),
                &mut memory,
            );
        }
        tally
    }

    fn carry(
        &mut self,
        sender: &Endpoint,
        receiver: &mut Endpoint,
        binding: u32,
        frame: &[u8],
        memory: &mut [u8],
    ) {
        let mut output = [0; 1600];
        let count = sender
            .wrap(binding, frame, 0, 0, &mut output)
            .segments
            .max(1) as usize;
        for i in 0..count {
            let k = turned(i, frame.len(), count) as u32;
            let wrapped = sender.wrap(binding, frame, k, frame.len() as u32, &mut output);
            if wrapped.code != 0 {
                self.refused += 1;
                continue;
            }
            let packet = &output[..wrapped.length];
            let answer = receiver.receive(packet, memory);
            self.packets += 1;
            for byte in packet {
                self.sum = self.sum.wrapping_mul(31).wrapping_add(u32::from(*byte) + 1);
            }
            if answer.code == 0 && view(packet, memory, answer.place) == frame {
                self.equal += 1;
            }
        }
    }
}

/// One peer, bound to VXLAN 22, NVGRE 4,096 and STT 77.
fn set_up(own: u32, peer: u32, mtu: u32) -> Endpoint {
    let (mut endpoint, _) = Endpoint::start(own, 7471, mtu);
    endpoint.add_peer(peer);
    for (kind, id, tenant) in [(1, 22, 7), (2, 4096, 8), (3, 77, 9)] {
        endpoint.add_binding(0, kind, id, tenant);
    }
    endpoint
}

/// Drawn bytes, but for those that make TCP or UDP over IPv4 or IPv6 of it, by its size,
/// as far as there is room for the IP header.
fn frame(size: usize, binding: u32) -> Vec<u8> {
    let mut x = size as u32 * 16 + binding;
    let mut bytes: Vec<u8> = (0..size)
        .map(|_| {
            x = x.wrapping_mul(1_103_515_245).wrapping_add(12_345);
            (x >> 16) as u8
        })
        .collect();
    let protocol = if size % 2 == 0 { 6 } else { 17 };
    let header = if size % 4 < 2 {
        [0x08, 0x00, 0x45, 0x40]
    } else {
        [0x86, 0xdd, 0x60, protocol]
    };
    let places = [12, 13, 14, 20, 21, 23];
    let values = header.into_iter().chain([0, protocol]);
    for (at, value) in places.into_iter().zip(values) {
        if let Some(byte) = bytes.get_mut(at) {
            *byte = value;
        }
    }
    bytes
}

/// Segment i of the order: from `size` on, around; backwards for an odd size.
fn turned(i: usize, size: usize, count: usize) -> usize {
    let k = (i + size) % count;
    if size % 2 == 0 {
        k
    } else {
        count - 1 - k
    }
}
