//! Building of settings images for the generator: of any numbers, in range or not.
//! It shares no code with the reference.

use niulassenc_reference::Endpoint;

/// What an image says.
#[derive(Clone, Debug, PartialEq, Eq)]
pub struct Image {
    pub own: u32,
    pub port: u16,
    pub mtu: u16,
    pub peers: Vec<u32>,
    pub bindings: Vec<Bound>,
}

/// A binding of an image.
#[derive(Clone, Copy, Debug, PartialEq, Eq)]
pub struct Bound {
    pub peer: u8,
    pub kind: u8,
    pub id: u64,
    pub tenant: u16,
}

/// Bytes of an image beside its peers and bindings, and of one of each.
pub const FIXED: usize = 15;
pub const PEER: usize = 4;
pub const BINDING: usize = 12;

/// Where the number of peers stands; the addresses follow.
pub const PEER_COUNT: usize = 13;

impl Image {
    /// What an endpoint of the reference has listed.
    pub fn of(endpoint: &Endpoint) -> Image {
        let config = endpoint.config();
        let bindings = endpoint.bindings().iter().map(|binding| Bound {
            peer: binding.peer as u8,
            kind: binding.kind as u8,
            id: binding.network_id,
            tenant: binding.tenant,
        });
        Image {
            own: config.own,
            port: config.stt_port,
            mtu: config.mtu,
            peers: endpoint.peers().to_vec(),
            bindings: bindings.collect(),
        }
    }

    /// The bytes. Of more than 255 peers or bindings the count shows the low byte.
    pub fn bytes(&self) -> Vec<u8> {
        let mut bytes = b"TWN\x00\x01".to_vec();
        bytes.extend(self.own.to_be_bytes());
        bytes.extend(self.port.to_be_bytes());
        bytes.extend(self.mtu.to_be_bytes());
        bytes.push(self.peers.len() as u8);
        for peer in &self.peers {
            bytes.extend(peer.to_be_bytes());
        }
        bytes.push(self.bindings.len() as u8);
        for binding in &self.bindings {
            bytes.extend([binding.peer, binding.kind]);
            bytes.extend(binding.id.to_be_bytes());
            bytes.extend(binding.tenant.to_be_bytes());
        }
        bytes
    }

    /// The bytes of a copy with something changed.
    pub fn with(&self, change: impl FnOnce(&mut Image)) -> Vec<u8> {
        let mut copy = self.clone();
        change(&mut copy);
        copy.bytes()
    }
}
