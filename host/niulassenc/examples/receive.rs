//! Packets in, frames out: a VXLAN packet, an STT frame in two segments, packets
//! that are dropped, with the byte that is to blame where there is one, and ticks
//! that give up a frame that lost a segment.

use niulassenc::{Dropped, Endpoint, Kind, Received, Refusal, MEMORY_NEEDED};

/// From 10.0.0.1 on VXLAN network 22.
const VXLAN: [u8; 50] = [
    0x45, 0, 0, 50, 0, 0, 0x40, 0, 64, 17, 0x26, 0xb9, 10, 0, 0, 1, 10, 0, 0, 2, // IPv4
    0xcc, 0xb8, 0x12, 0xb5, 0, 30, 0, 0, // UDP, port 4789
    0x08, 0, 0, 0, 0, 0, 22, 0, // VXLAN
    2, 0, 0, 0, 0, 2, 2, 0, 0, 0, 0, 1, 0x88, 0xb5, // the inner frame
];

/// From 10.0.0.1, bytes 0 to 15 of an STT frame of 32 bytes, Context ID 22.
const FIRST: [u8; 56] = [
    0x45, 0, 0, 56, 0, 0, 0x40, 0, 64, 6, 0x26, 0xbe, 10, 0, 0, 1, 10, 0, 0, 2, // IPv4
    0xcc, 0xb8, 0x1d, 0x2f, 0, 32, 0, 0, 0, 0, 0,
    5, // ports; frame length, offset; identifier
    0x50, 0x10, 0, 0, 0xb1, 0x9f, 0, 0, // TCP's other fields
    0, 0, 0, 0, 0, 0, 0, 0, 0, 0, 0, 0, 0, 0, 0, 22, // STT frame header: the Context ID
];

/// Bytes 16 to 31 of it.
const LAST: [u8; 56] = [
    0x45, 0, 0, 56, 0, 0, 0x40, 0, 64, 6, 0x26, 0xbe, 10, 0, 0, 1, 10, 0, 0, 2, // IPv4
    0xcc, 0xb8, 0x1d, 0x2f, 0, 32, 0, 16, 0, 0, 0,
    5, // ports; frame length, offset; identifier
    0x50, 0x18, 0, 0, 0x24, 0xe5, 0, 0, // TCP's other fields
    0, 0, 2, 0, 0, 0, 0, 2, 2, 0, 0, 0, 0, 1, 0x88, 0xb5, // padding, the inner frame
];

/// The VXLAN packet without the flag that says that it has a network.
const NO_FLAG: [u8; 50] = {
    let mut packet = VXLAN;
    packet[28] = 0;
    packet
};

fn show(name: &str, received: Result<Received, Dropped>) {
    match received {
        Ok(Received::Delivered(frame)) => {
            let bytes = frame.bytes.len();
            println!("{name}: tenant {}, frame of {bytes} bytes", frame.tenant);
        }
        Ok(Received::Pending) => println!("{name}: received, its frame is not yet complete"),
        Err(dropped) => println!("{name}: dropped: {dropped}"),
    }
}

fn main() -> Result<(), Refusal> {
    let mut endpoint = Endpoint::start([10, 0, 0, 2].into(), 7471, 1500)?;
    let peer = endpoint.add_peer([10, 0, 0, 1].into())?;
    endpoint.add_binding(peer, Kind::Vxlan, 22, 7)?;
    endpoint.add_binding(peer, Kind::Stt, 22, 9)?;
    let mut memory = vec![0; MEMORY_NEEDED]; // the same for every receive

    show("VXLAN", endpoint.receive(&VXLAN, &mut memory));
    show("STT, last segment", endpoint.receive(&LAST, &mut memory));
    show("STT, first segment", endpoint.receive(&FIRST, &mut memory));
    show("an empty packet", endpoint.receive(&[], &mut memory));
    show("VXLAN, no flag", endpoint.receive(&NO_FLAG, &mut memory));

    show("STT, last segment", endpoint.receive(&LAST, &mut memory));
    for tick in 1..=4 {
        let pending = endpoint.pending_count();
        endpoint.tick();
        let freed = pending - endpoint.pending_count();
        println!("tick {tick}: {freed} frames given up");
    }
    Ok(())
}
