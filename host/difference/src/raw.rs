//! The library's struct, number by number.

use crate::pair::same;
use niulassenc::limits::{BINDINGS, PEERS, SLOTS};
use niulassenc::numbers::{Peer, Raw, Slot};
use niulassenc_reference::{Endpoint, Pending};

const FREE: Slot = Slot {
    identifier: 0,
    frame_length: 0,
    age: 0,
    pending: false,
};

/// The struct of a refused start: every number is 0.
pub const ZEROS: Raw = Raw {
    networks: [0; BINDINGS],
    peers: [Peer {
        slots: [FREE; SLOTS],
    }; PEERS],
    addresses: [0; PEERS],
    own: 0,
    tenants: [0; BINDINGS],
    port: 0,
    mtu: 0,
    peer_count: 0,
    binding_count: 0,
    kinds: [0; BINDINGS],
    owners: [0; BINDINGS],
};

fn slot(pending: &Option<Pending>) -> Slot {
    pending.map_or(FREE, |pending| Slot {
        identifier: pending.identifier,
        frame_length: pending.length,
        age: pending.age,
        pending: true,
    })
}

/// What the library must have where the reference has this endpoint; 0 behind the
/// counts and in free slots.
pub fn of_reference(endpoint: &Endpoint) -> Raw {
    let config = endpoint.config();
    let mut raw = Raw {
        own: config.own,
        port: config.stt_port,
        mtu: config.mtu,
        peer_count: endpoint.peers().len() as u16,
        binding_count: endpoint.bindings().len() as u16,
        ..ZEROS
    };
    raw.addresses[..endpoint.peers().len()].copy_from_slice(endpoint.peers());
    for (number, binding) in endpoint.bindings().iter().enumerate() {
        raw.owners[number] = binding.peer as u8;
        raw.kinds[number] = binding.kind as u8;
        raw.networks[number] = binding.network_id;
        raw.tenants[number] = binding.tenant;
    }
    for (peer, row) in raw.peers.iter_mut().zip(endpoint.pending()) {
        peer.slots = row.each_ref().map(slot);
    }
    raw
}

/// Says which number differs.
pub fn same_numbers(library: &Raw, reference: &Raw) -> Result<(), String> {
    if library == reference {
        return Ok(());
    }
    let settings = |raw: &Raw| (raw.own, raw.port, raw.mtu);
    same("settings", settings(library), settings(reference))?;
    let counts = |raw: &Raw| (raw.peer_count, raw.binding_count);
    same("counts", counts(library), counts(reference))?;
    same("addresses", library.addresses, reference.addresses)?;
    for number in 0..BINDINGS {
        let binding = |raw: &Raw| {
            let (peer, kind) = (raw.owners[number], raw.kinds[number]);
            (peer, kind, raw.networks[number], raw.tenants[number])
        };
        let name = format!("binding {number} (peer, kind, id, tenant)");
        same(&name, binding(library), binding(reference))?;
    }
    same("slots", library.peers, reference.peers)
}
