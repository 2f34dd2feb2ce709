//! A controller that starts from a file. Its configuration is saved there once; a
//! start reads the file, loads it and receives. A file that was damaged is
//! refused, and the endpoint that runs is kept.

use niulassenc::{Endpoint, Kind, Received, Refusal, IMAGE_BYTES, MEMORY_NEEDED};
use std::error::Error;
use std::fs::{self, File, OpenOptions};
use std::io::{Read, Write};
use std::path::Path;

/// From 10.0.0.2 on VXLAN network 22.
const PACKET: [u8; 50] = [
    0x45, 0, 0, 50, 0, 0, 0x40, 0, 64, 17, 0x26, 0xb9, 10, 0, 0, 2, 10, 0, 0, 1, // IPv4
    0xcc, 0xb8, 0x12, 0xb5, 0, 30, 0, 0, // UDP, port 4789
    0x08, 0, 0, 0, 0, 0, 22, 0, // VXLAN
    2, 0, 0, 0, 0, 2, 2, 0, 0, 0, 0, 1, 0x88, 0xb5, // the inner frame
];

/// Two peers with a VXLAN network each.
fn configure() -> Result<Endpoint, Refusal> {
    let mut endpoint = Endpoint::start([10, 0, 0, 1].into(), 7471, 1500)?;
    for last in [2, 3] {
        let peer = endpoint.add_peer([10, 0, 0, last].into())?;
        endpoint.add_binding(peer, Kind::Vxlan, 22, 7)?;
    }
    Ok(endpoint)
}

/// Replaces the file by the image of a configuration: written beside it, then
/// renamed, so that a loss of power leaves the old file or the new one.
fn save(endpoint: &Endpoint, path: &Path) -> Result<(), Box<dyn Error>> {
    let mut image = [0; IMAGE_BYTES]; // always enough
    let length = endpoint.save(&mut image)?;
    let beside = path.with_extension("new");
    let mut file = File::create(&beside)?;
    file.write_all(&image[..length])?;
    file.sync_all()?;
    fs::rename(&beside, path)?;
    println!("saved: {length} bytes");
    Ok(())
}

/// Loads a file. One byte more than an image can have is read, so that bytes
/// behind an image are seen and refused.
fn load(path: &Path) -> Result<Endpoint, Box<dyn Error>> {
    let mut image = Vec::new();
    let most = IMAGE_BYTES as u64 + 1;
    File::open(path)?.take(most).read_to_end(&mut image)?;
    Ok(Endpoint::load(&image)?)
}

fn receive(endpoint: &mut Endpoint, memory: &mut [u8]) {
    match endpoint.receive(&PACKET, memory) {
        Ok(Received::Delivered(frame)) => {
            let bytes = frame.bytes.len();
            println!("tenant {}, frame of {bytes} bytes", frame.tenant);
        }
        Ok(Received::Pending) => println!("no frame: it is not yet complete"),
        Err(dropped) => println!("no frame: {dropped}"),
    }
}

fn run(path: &Path) -> Result<(), Box<dyn Error>> {
    save(&configure()?, path)?;

    // What a controller does when it starts.
    let mut endpoint = load(path)?;
    let (peers, bindings) = (endpoint.peers().len(), endpoint.bindings().count());
    println!("loaded: {peers} peers, {bindings} bindings");
    let mut memory = vec![0; MEMORY_NEEDED]; // the same for every receive
    receive(&mut endpoint, &mut memory);

    // One byte behind the image is enough.
    OpenOptions::new()
        .append(true)
        .open(path)?
        .write_all(&[0])?;
    match load(path) {
        Ok(loaded) => endpoint = loaded,
        Err(refusal) => println!("not loaded: {refusal}"),
    }
    receive(&mut endpoint, &mut memory); // by the endpoint that was there before
    Ok(())
}

fn main() -> Result<(), Box<dyn Error>> {
    let name = format!("niulassenc-{}.settings", std::process::id());
    let path = std::env::temp_dir().join(name);
    run(&path)?;
    fs::remove_file(&path)?;
    Ok(())
}
