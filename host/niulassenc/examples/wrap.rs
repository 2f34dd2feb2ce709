//! Frames out: on VXLAN, on STT in segments that the other end puts together,
//! and one that is too long for its tunnel.

use niulassenc::{Endpoint, Kind, Received, Refusal, MEMORY_NEEDED};

const VXLAN: u16 = 0;
const STT: u16 = 1;

/// An endpoint that sends packets of at most 576 bytes, with a VXLAN network
/// and an STT network of its peer.
fn end(own: u8, peer: u8) -> Result<Endpoint, Refusal> {
    let mut endpoint = Endpoint::start([10, 0, 0, own].into(), 7471, 576)?;
    let peer = endpoint.add_peer([10, 0, 0, peer].into())?;
    assert_eq!(endpoint.add_binding(peer, Kind::Vxlan, 22, 7)?, VXLAN);
    assert_eq!(endpoint.add_binding(peer, Kind::Stt, 22, 9)?, STT);
    Ok(endpoint)
}

fn main() -> Result<(), Refusal> {
    let (sender, mut receiver) = (end(1, 2)?, end(2, 1)?);
    let mut memory = vec![0; MEMORY_NEEDED];
    let mut output = [0; 576]; // the MTU is always enough
    let mut frame = vec![0; 1514];
    frame[12..14].copy_from_slice(&[0x88, 0xb5]);

    let wrapped = sender.wrap(VXLAN, &frame[..100], 0, 0, &mut output)?;
    println!("VXLAN: a packet of {} bytes", wrapped.length);

    let identifier = 77; // one for each frame, different from those still pending
    let mut segment = 0;
    loop {
        let wrapped = sender.wrap(STT, &frame, segment, identifier, &mut output)?;
        print!("STT: segment {segment} of {}", wrapped.segments);
        println!(", a packet of {} bytes", wrapped.length);
        let packet = &output[..wrapped.length];
        if let Received::Delivered(got) = receiver.receive(packet, &mut memory)? {
            assert_eq!(got.bytes, frame);
            println!("delivered to tenant {}", got.tenant);
        }
        segment += 1;
        if segment == wrapped.segments {
            break;
        }
    }

    let refused = sender.wrap(VXLAN, &frame, 0, 0, &mut output);
    println!(
        "VXLAN: {:?}",
        refused.map_err(|refusal| refusal.to_string())
    );
    Ok(())
}
