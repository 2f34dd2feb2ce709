//! Cloned boards share one hardware address. A detector beside the endpoint says
//! which two peers show it to one tenant.

use niulassenc::{Detector, Endpoint, Frame, Kind, Observed, Received, Refusal, MEMORY_NEEDED};

/// From 10.0.0.2 and from 10.0.0.3, each on VXLAN network 22.
const PACKETS: [[u8; 50]; 2] = [packet(2, 0xb9), packet(3, 0xb8)];

const fn packet(from: u8, checksum: u8) -> [u8; 50] {
    [
        0x45, 0, 0, 50, 0, 0, 0x40, 0, 64, 17, 0x26, checksum, // IPv4
        10, 0, 0, from, 10, 0, 0, 1, // from the peer to us
        0xcc, 0xb8, 0x12, 0xb5, 0, 30, 0, 0, // UDP, port 4789
        0x08, 0, 0, 0, 0, 0, 22, 0, // VXLAN
        2, 0, 0, 0, 0, 2, 2, 0, 0, 0, 0, 1, 0x88, 0xb5, // the inner frame
    ]
}

/// Tells the detector of a delivered frame, and says which peers share its source
/// address.
fn watch(endpoint: &Endpoint, detector: &mut Detector, frame: &Frame) {
    let Some(peer) = endpoint.owner(frame.binding) else {
        return; // no receive of this endpoint gave the frame
    };
    let (tenant, address) = (frame.tenant, frame.source());
    match detector.observe(tenant, peer, address) {
        Observed::New | Observed::Known => {}
        Observed::Duplicate { first } => {
            let address = address.map(|byte| format!("{byte:02x}")).join(":");
            let peers = [first, peer].map(|peer| endpoint.peer_address(peer));
            if let [Some(first), Some(second)] = peers {
                println!("tenant {tenant}: {address} is shown by peers {first} and {second}");
            }
        }
        Observed::Full => println!("tenant {tenant}: an address is not watched, detector full"),
    }
}

fn main() -> Result<(), Refusal> {
    let mut endpoint = Endpoint::start([10, 0, 0, 1].into(), 7471, 1500)?;
    for last in [2, 3] {
        let peer = endpoint.add_peer([10, 0, 0, last].into())?;
        endpoint.add_binding(peer, Kind::Vxlan, 22, 7)?;
    }
    let mut memory = vec![0; MEMORY_NEEDED]; // the same for every receive
    let mut detector = Detector::start(); // it keeps what it saw, over all receives

    for packet in &PACKETS {
        match endpoint.receive(packet, &mut memory) {
            Ok(Received::Delivered(frame)) => watch(&endpoint, &mut detector, &frame),
            Ok(Received::Pending) => {} // its frame is not yet complete
            Err(dropped) => println!("dropped: {dropped}"),
        }
    }
    Ok(())
}
