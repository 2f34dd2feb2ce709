//! Settings, peers and bindings: what an endpoint knows from its set-up.

use crate::answer::Refusal;

/// Most peers a listing takes.
pub const MAX_PEERS: usize = 8;

/// Most bindings a listing takes.
pub const MAX_BINDINGS: usize = 64;

/// The settings of a start. A refused start has all three 0.
#[derive(Clone, Copy, Debug, Default, PartialEq, Eq)]
pub struct Config {
    /// Our own IPv4 address.
    pub own: u32,
    /// TCP destination port of STT.
    pub stt_port: u16,
    /// Largest outer packet we write.
    pub mtu: u16,
}

impl Config {
    /// The settings, if each is in its range. They come as 32-bit numbers, so
    /// that a port of 65,537 is out of range and not port 1.
    pub fn checked(own: u32, stt_port: u32, mtu: u32) -> Result<Config, Refusal> {
        if is_host_address(own) && (1..=65_535).contains(&stt_port) && (576..=1600).contains(&mtu) {
            Ok(Config {
                own,
                stt_port: stt_port as u16,
                mtu: mtu as u16,
            })
        } else {
            Err(Refusal::OutOfRange)
        }
    }
}

/// First byte neither 0 nor 224 or more.
fn is_host_address(address: u32) -> bool {
    (1..224).contains(&(address >> 24))
}

/// How a network is carried; the discriminant is its number in the listing.
#[derive(Clone, Copy, Debug, PartialEq, Eq)]
#[repr(u8)]
pub enum Kind {
    /// VXLAN, RFC 7348.
    Vxlan = 1,
    /// NVGRE, RFC 7637.
    Nvgre = 2,
    /// STT, draft-davie-stt-06.
    Stt = 3,
}

impl Kind {
    fn from_number(number: u32) -> Option<Kind> {
        match number {
            1 => Some(Kind::Vxlan),
            2 => Some(Kind::Nvgre),
            3 => Some(Kind::Stt),
            _ => None,
        }
    }

    fn allows(self, network_id: u64) -> bool {
        match self {
            Kind::Vxlan => network_id <= 0xFF_FFFF,
            // RFC 7637, section 3.4: 0 to 0xFFF and 0xFFFFFF are reserved.
            Kind::Nvgre => (0x1000..=0xFF_FFFE).contains(&network_id),
            Kind::Stt => true,
        }
    }
}

/// One network of one peer, and the tenant whose it is.
#[derive(Clone, Copy, Debug, PartialEq, Eq)]
pub struct Binding {
    /// Number of the peer.
    pub peer: u16,
    /// How the network is carried.
    pub kind: Kind,
    /// VNI, VSID or Context ID.
    pub network_id: u64,
    /// The tenant (bench).
    pub tenant: u16,
}

impl Binding {
    const UNUSED: Binding = Binding {
        peer: 0,
        kind: Kind::Vxlan,
        network_id: 0,
        tenant: 0,
    };

    fn matches(&self, peer: u16, kind: Kind, network_id: u64) -> bool {
        self.network_id == network_id && self.peer == peer && self.kind == kind
    }
}

/// Peers and bindings in the order they were added.
#[derive(Clone, Debug, PartialEq, Eq)]
pub struct Listing {
    peers: [u32; MAX_PEERS],
    peer_count: usize,
    bindings: [Binding; MAX_BINDINGS],
    binding_count: usize,
}

impl Listing {
    pub fn empty() -> Listing {
        Listing {
            peers: [0; MAX_PEERS],
            peer_count: 0,
            bindings: [Binding::UNUSED; MAX_BINDINGS],
            binding_count: 0,
        }
    }

    pub fn peers(&self) -> &[u32] {
        &self.peers[..self.peer_count]
    }

    pub fn bindings(&self) -> &[Binding] {
        &self.bindings[..self.binding_count]
    }

    /// Checks 18, 19, 20. A refused start has address 0, which no accepted
    /// start has; nothing can be added to it.
    pub fn add_peer(&mut self, own: u32, address: u32) -> Result<u16, Refusal> {
        if own == 0 || !is_host_address(address) || address == own {
            return Err(Refusal::OutOfRange);
        }
        if self.peer_number(address).is_some() {
            return Err(Refusal::AlreadyListed);
        }
        if self.peer_count == MAX_PEERS {
            return Err(Refusal::Full);
        }
        self.peers[self.peer_count] = address;
        self.peer_count += 1;
        Ok((self.peer_count - 1) as u16)
    }

    /// Checks 18, 19, 20. The tenant does not count for 19.
    pub fn add_binding(
        &mut self,
        peer: u32,
        kind: u32,
        network_id: u64,
        tenant: u32,
    ) -> Result<u16, Refusal> {
        let kind = Kind::from_number(kind).ok_or(Refusal::OutOfRange)?;
        let tenant = u16::try_from(tenant).map_err(|_| Refusal::OutOfRange)?;
        if peer as usize >= self.peer_count || !kind.allows(network_id) {
            return Err(Refusal::OutOfRange);
        }
        let peer = peer as u16;
        if self.find(peer, kind, network_id).is_ok() {
            return Err(Refusal::AlreadyListed);
        }
        if self.binding_count == MAX_BINDINGS {
            return Err(Refusal::Full);
        }
        self.bindings[self.binding_count] = Binding {
            peer,
            kind,
            network_id,
            tenant,
        };
        self.binding_count += 1;
        Ok((self.binding_count - 1) as u16)
    }

    /// All eight places are looked at: their number is fixed, so no turn asks for
    /// the count. What is found behind the count is no peer.
    pub fn peer_number(&self, address: u32) -> Option<u16> {
        let found = self.peers.iter().position(|&peer| peer == address);
        found
            .filter(|&number| number < self.peer_count)
            .map(|number| number as u16)
    }

    /// The lowest-numbered binding that matches, with its tenant.
    pub fn find(&self, peer: u16, kind: Kind, network_id: u64) -> Result<(u16, u16), Refusal> {
        let mut numbered = self.bindings().iter().enumerate();
        numbered
            .find(|(_, binding)| binding.matches(peer, kind, network_id))
            .map(|(number, binding)| (number as u16, binding.tenant))
            .ok_or(Refusal::NoBinding)
    }
}
