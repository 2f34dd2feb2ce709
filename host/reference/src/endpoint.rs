//! The endpoint: listing, pending frames, and the order of the checks.

use crate::answer::{Added, Answer, Code, Fault, Place, Refusal, Wrapped, DONE, PENDING};
use crate::headers::{self, Carriage, Ipv4, Segment};
use crate::headers::{GRE_HEADER, STT_HEADER, UDP_HEADER, VXLAN_HEADER};
use crate::image;
use crate::listing::{Binding, Config, Kind, Listing, MAX_PEERS};
use crate::reassembly::{Reassembly, Row, Taken, MEMORY_NEEDED};
use crate::wrap;

/// One tunnel endpoint. Two endpoints are equal when no call can tell them
/// apart: a free slot has no numbers to differ in.
#[derive(Clone, Debug, PartialEq, Eq)]
pub struct Endpoint {
    config: Config,
    listing: Listing,
    reassembly: Reassembly,
}

impl Endpoint {
    /// A fresh endpoint, and 0; or, when a setting is out of range, 18 and an
    /// endpoint with every number 0 and no listing.
    pub fn start(own: u32, stt_port: u32, mtu: u32) -> (Endpoint, Code) {
        let (config, code) = match Config::checked(own, stt_port, mtu) {
            Ok(config) => (config, DONE),
            Err(refusal) => (Config::default(), refusal.code()),
        };
        let endpoint = Endpoint {
            config,
            listing: Listing::empty(),
            reassembly: Reassembly::empty(),
        };
        (endpoint, code)
    }

    /// An endpoint with the settings and the listing of a settings image, and no
    /// frame pending; or 24.
    pub fn load(image: &[u8]) -> Result<Endpoint, Refusal> {
        let (config, listing) = image::load(image)?;
        Ok(Endpoint {
            config,
            listing,
            reassembly: Reassembly::empty(),
        })
    }

    /// Writes settings and listing to the start of `output`, as a settings image,
    /// and gives its length: 18 on a refused start, then 21. Pending frames are no
    /// part of it.
    pub fn save(&self, output: &mut [u8]) -> Result<usize, Refusal> {
        image::save(&self.config, &self.listing, output)
    }

    /// The settings this endpoint runs with; all 0 after a refused start.
    pub fn config(&self) -> Config {
        self.config
    }

    /// The addresses of the peers, in the order of their numbers.
    pub fn peers(&self) -> &[u32] {
        self.listing.peers()
    }

    /// The bindings, in the order of their numbers.
    pub fn bindings(&self) -> &[Binding] {
        self.listing.bindings()
    }

    /// The number of the peer whose network a binding is; none where no binding
    /// has this number.
    pub fn owner(&self, binding: u32) -> Option<u16> {
        let bindings = self.listing.bindings();
        bindings.get(binding as usize).map(|binding| binding.peer)
    }

    /// The pending frames, by peer and slot.
    pub fn pending(&self) -> &[Row; MAX_PEERS] {
        self.reassembly.rows()
    }

    /// Lists a peer: 18, 19, 20, or 0 with its number.
    pub fn add_peer(&mut self, address: u32) -> Added {
        self.listing.add_peer(self.config.own, address).into()
    }

    /// Lists a network of a peer: 18, 19, 20, or 0 with its number. On a
    /// refused start no peer is listed, so every binding is 18.
    pub fn add_binding(&mut self, peer: u32, kind: u32, network_id: u64, tenant: u32) -> Added {
        self.listing
            .add_binding(peer, kind, network_id, tenant)
            .into()
    }

    /// Takes one outer packet, first byte of the IP header.
    pub fn receive(&mut self, packet: &[u8], memory: &mut [u8]) -> Answer {
        self.try_receive(packet, memory)
            .unwrap_or_else(Answer::from)
    }

    /// One tick of the clock; always 0.
    pub fn tick(&mut self) -> Code {
        self.reassembly.tick();
        DONE
    }

    /// Writes segment number `segment` of `frame` to the start of `output`. The
    /// identifier is used by STT only; VXLAN and NVGRE have segment 0 alone.
    pub fn wrap(
        &self,
        binding: u32,
        frame: &[u8],
        segment: u32,
        identifier: u32,
        output: &mut [u8],
    ) -> Wrapped {
        wrap::wrap(
            &self.config,
            &self.listing,
            binding,
            frame,
            wrap::Part {
                number: segment,
                identifier,
            },
            output,
        )
    }

    /// Checks 2 to 7, then those of the carriage, then those of the kind.
    fn try_receive(&mut self, packet: &[u8], memory: &mut [u8]) -> Result<Answer, Fault> {
        if memory.len() < MEMORY_NEEDED {
            return Err(Refusal::MemoryTooSmall.into());
        }
        let ip = Ipv4::parse(packet)?;
        if ip.destination != self.config.own {
            return Err(Refusal::NotForUs.into());
        }
        let peer = self
            .listing
            .peer_number(ip.source)
            .ok_or(Refusal::UnknownPeer)?;
        match Carriage::parse(&ip, self.config.stt_port)? {
            Carriage::Vxlan(header, inner) => {
                let start = ip.header_length + UDP_HEADER;
                let id = headers::vxlan_network_id(header).map_err(|fault| fault.behind(start))?;
                self.deliver(peer, Kind::Vxlan, id, inner, start + VXLAN_HEADER)
            }
            Carriage::Nvgre(header, inner) => {
                let start = ip.header_length;
                let id = headers::nvgre_network_id(header).map_err(|fault| fault.behind(start))?;
                self.deliver(peer, Kind::Nvgre, id, inner, start + GRE_HEADER)
            }
            Carriage::Stt(segment) => self.receive_segment(peer, &segment, memory),
        }
    }

    /// Checks 14 to 17, and 28, 29, 12 and 13 once the frame is complete: its header
    /// need not be in the segment that arrives first. By then the segment is
    /// stored and the slot is free, whatever these last checks say.
    fn receive_segment(
        &mut self,
        peer: u16,
        segment: &Segment,
        memory: &mut [u8],
    ) -> Result<Answer, Fault> {
        let (start, length) = match self.reassembly.take(peer, segment, memory)? {
            Taken::Pending => return Ok(Answer::without_frame(PENDING)),
            Taken::Complete { start, length } => (start, length),
        };
        let frame = &memory[start..start + length];
        let id = headers::stt_network_id(frame)?;
        let (inner, start) = (&frame[STT_HEADER..], start + STT_HEADER);
        self.deliver(peer, Kind::Stt, id, inner, start)
    }

    /// Checks 12 and 13, then answer 0. The inner frame starts at `start`, of the
    /// memory if it came by STT, else of the packet.
    fn deliver(
        &self,
        peer: u16,
        kind: Kind,
        network_id: u64,
        inner: &[u8],
        start: usize,
    ) -> Result<Answer, Fault> {
        let (binding, tenant) = self.listing.find(peer, kind, network_id)?;
        headers::check_inner(inner)?;
        Ok(Answer {
            code: DONE,
            offset: 0,
            tenant: Some(tenant),
            binding: Some(binding),
            place: Place {
                in_memory: kind == Kind::Stt,
                start,
                length: inner.len(),
            },
        })
    }
}
