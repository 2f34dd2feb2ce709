//! The endpoint in the crate's own types.

use crate::detector::address_of;
use crate::dropped::Dropped;
use crate::ffi;
use crate::kind::Kind;
use crate::limits::SLOTS;
use crate::numbers;
use crate::place::Place;
use crate::refusal::Refusal;
use core::net::Ipv4Addr;

/// One tunnel endpoint: settings, peers, bindings, and what it knows of the
/// pending frames. It is a plain value of 1,072 bytes that refers to nothing.
#[derive(Clone, Debug, PartialEq, Eq)]
pub struct Endpoint {
    numbers: numbers::Endpoint,
}

/// What a receive gave, if it was not refused.
#[derive(Clone, Copy, Debug, PartialEq, Eq)]
pub enum Received<'a> {
    /// Answer 0: a frame for a tenant.
    Delivered(Frame<'a>),
    /// Answer 1: the segment is received, its frame is not yet complete.
    Pending,
}

/// A delivered inner frame.
#[derive(Clone, Copy, Debug, PartialEq, Eq)]
pub struct Frame<'a> {
    /// The tenant (document 01: bench) whose frame it is.
    pub tenant: u16,
    /// The number of the binding that says so.
    pub binding: u16,
    /// Where it lies.
    pub place: Place,
    /// The frame: a part of the packet or of the reassembly memory.
    pub bytes: &'a [u8],
}

impl Frame<'_> {
    /// The frame's source address, bytes 6 to 11; zeros of a frame under 12 bytes,
    /// which no receive delivers.
    pub fn source(&self) -> [u8; 6] {
        address_of(numbers::source(self.bytes))
    }
}

/// A network of a peer, and the tenant whose it is.
#[derive(Clone, Copy, Debug, PartialEq, Eq)]
pub struct Binding {
    /// The peer's number.
    pub peer: u16,
    /// How the network is carried.
    pub kind: Kind,
    /// VNI, VSID or Context ID.
    pub network: u64,
    /// The tenant (document 01: bench).
    pub tenant: u16,
}

/// An STT frame that is not yet complete.
#[derive(Clone, Copy, Debug, PartialEq, Eq)]
pub struct Pending {
    /// The identifier of its segments.
    pub identifier: u32,
    /// The STT frame's length, its 18-byte header included.
    pub length: u16,
    /// Ticks since its first segment: 0 to 3.
    pub age: u8,
}

/// What a wrap wrote.
#[derive(Clone, Copy, Debug, PartialEq, Eq)]
pub struct Wrapped {
    /// Bytes of the packet, at the start of the output.
    pub length: usize,
    /// How many segments the frame has: 1 but for STT.
    pub segments: u32,
}

impl Endpoint {
    /// Starts an endpoint with our own address, the TCP port on which STT is
    /// expected, and the largest outer packet that is written (576 to 1,600).
    /// Refused with 18 where one of them is out of its range.
    pub fn start(own: Ipv4Addr, stt_port: u16, mtu: u16) -> Result<Endpoint, Refusal> {
        let (numbers, code) = numbers::Endpoint::start(own.into(), stt_port.into(), mtu.into());
        Refusal::check(code)?;
        Ok(Endpoint { numbers })
    }

    /// Lists a peer and gives its number. Refused with 18, 19 or 20.
    pub fn add_peer(&mut self, address: Ipv4Addr) -> Result<u16, Refusal> {
        let added = self.numbers.add_peer(address.into());
        Refusal::check(added.code)?;
        Ok(added.number)
    }

    /// Binds a network of a listed peer to a tenant and gives the binding's
    /// number. Refused with 18, 19 or 20.
    pub fn add_binding(
        &mut self,
        peer: u16,
        kind: Kind,
        network: u64,
        tenant: u16,
    ) -> Result<u16, Refusal> {
        let added = self
            .numbers
            .add_binding(peer.into(), kind.into(), network, tenant.into());
        Refusal::check(added.code)?;
        Ok(added.number)
    }

    /// Takes one outer packet, first byte of the IP header. Refused with 2 to 10,
    /// 12 to 17 or 25 to 29; a refused packet is dropped and needs no more
    /// handling. 25 to 29, a tunnel header that its format forbids, name the first
    /// offending byte:
    ///
    /// ```
    /// # use niulassenc::Offset;
    /// # fn f(mut endpoint: niulassenc::Endpoint, packet: &[u8], memory: &mut [u8]) {
    /// if let Err(dropped) = endpoint.receive(packet, memory) {
    ///     // "VXLAN flag missing (25), at byte 28 of the packet"
    ///     eprintln!("dropped: {dropped}");
    ///     if let Some(Offset::Packet(byte)) = dropped.offset {
    ///         eprintln!("which is {:#04x}", packet[usize::from(byte)]);
    ///     }
    /// }
    /// # }
    /// ```
    ///
    /// Every receive of an endpoint is lent the same memory, of at least
    /// [`MEMORY_NEEDED`](crate::MEMORY_NEEDED) bytes and of any contents at
    /// first; nobody else writes it. A delivered STT frame lies there until the
    /// next receive, which the borrow checker sees to:
    ///
    /// ```compile_fail,E0499
    /// # fn f(mut endpoint: niulassenc::Endpoint, packet: &[u8], memory: &mut [u8]) {
    /// let first = endpoint.receive(packet, memory);
    /// let second = endpoint.receive(packet, memory);
    /// drop(first);
    /// # }
    /// ```
    pub fn receive<'a>(
        &mut self,
        packet: &'a [u8],
        memory: &'a mut [u8],
    ) -> Result<Received<'a>, Dropped> {
        self.numbers.receive(packet, memory).read(packet, memory)
    }

    /// One tick of the clock: each pending frame grows older by 1, and those that
    /// reach 4 are given up. It always succeeds (answer 0). To learn how many
    /// frames it gave up, count those of [`pending`](Endpoint::pending) before and
    /// after.
    pub fn tick(&mut self) {
        self.numbers.tick();
    }

    /// Writes segment number `segment` of an inner frame to the start of
    /// `output`; VXLAN and NVGRE have segment 0 only. The identifier, any number
    /// that no other frame pending at this peer has, is used by STT alone.
    /// Refused with 13 or 21 to 23.
    ///
    /// The header of an STT frame tells where TCP or UDP is found in the inner
    /// frame: flag 0x04 for IPv4, flag 0x08 for TCP, and the L4 offset, the
    /// transport header's from the inner frame's first byte on. It is found behind
    /// type 0x0800, an IPv4 header that ends within the frame, fragment offset 0 and
    /// protocol 6 or 17; and behind type 0x86DD, an IPv6 header that ends within the
    /// frame and next header 6 or 17, there at 54. Of every other frame flags and L4
    /// offset are 0. All else of the header but the Context ID is always 0.
    ///
    /// ```
    /// # use niulassenc::{Endpoint, Kind, Refusal};
    /// # fn main() -> Result<(), Refusal> {
    /// let mut endpoint = Endpoint::start([10, 0, 0, 1].into(), 7471, 1500)?;
    /// let peer = endpoint.add_peer([10, 0, 0, 2].into())?;
    /// let binding = endpoint.add_binding(peer, Kind::Stt, 22, 7)?;
    ///
    /// let mut frame = [0; 60];
    /// frame[12..15].copy_from_slice(&[0x08, 0x00, 0x45]); // IPv4, a header of 20 bytes
    /// frame[23] = 6; // TCP
    /// let mut output = [0; 1500];
    /// endpoint.wrap(binding, &frame, 0, 77, &mut output)?;
    /// assert_eq!(output[40..43], [0, 0x04 | 0x08, 34]); // version, flags, L4 offset
    /// # Ok(())
    /// # }
    /// ```
    pub fn wrap(
        &self,
        binding: u16,
        frame: &[u8],
        segment: u32,
        identifier: u32,
        output: &mut [u8],
    ) -> Result<Wrapped, Refusal> {
        let wrapped = self
            .numbers
            .wrap(binding.into(), frame, segment, identifier, output);
        Refusal::check(wrapped.code)?;
        Ok(Wrapped {
            length: wrapped.length,
            segments: wrapped.segments,
        })
    }

    /// Writes the settings image of the configuration (settings, peers and bindings)
    /// to the start of `output` and gives its length, at most
    /// [`IMAGE_BYTES`](crate::IMAGE_BYTES). Pending frames are not in it, and stay
    /// pending. Refused with 18 where the endpoint is one of a refused start or
    /// load, then with 21 where the output is shorter than the image.
    ///
    /// ```
    /// use niulassenc::{Endpoint, Kind, Refusal, IMAGE_BYTES};
    ///
    /// # fn main() -> Result<(), Refusal> {
    /// let mut endpoint = Endpoint::start([10, 0, 0, 1].into(), 7471, 1500)?;
    /// let peer = endpoint.add_peer([10, 0, 0, 2].into())?;
    /// endpoint.add_binding(peer, Kind::Vxlan, 22, 7)?;
    ///
    /// let mut image = [0; IMAGE_BYTES]; // always enough
    /// let length = endpoint.save(&mut image)?;
    /// assert_eq!(length, 15 + 4 + 12); // one peer, one binding
    /// assert_eq!(Endpoint::load(&image[..length]), Ok(endpoint));
    /// # Ok(())
    /// # }
    /// ```
    pub fn save(&self, output: &mut [u8]) -> Result<usize, Refusal> {
        let saved = self.numbers.save(output);
        Refusal::check(saved.code)?;
        Ok(saved.length)
    }

    /// The endpoint whose configuration a settings image has, with no frame
    /// pending: a new start, whatever was received before. Refused with 24 unless
    /// the image is, byte by byte, what saving some endpoint gives; one more byte
    /// behind it is refused too, so hand over the whole file.
    ///
    /// ```
    /// use niulassenc::{Endpoint, Refusal};
    ///
    /// // The shortest image: 10.0.0.1, port 7471, MTU 1500, no peers, no bindings.
    /// let image = [b'T', b'W', b'N', 0, 1, 10, 0, 0, 1, 0x1d, 0x2f, 0x05, 0xdc, 0, 0];
    /// let endpoint = Endpoint::load(&image).expect("a good image");
    /// assert_eq!((endpoint.stt_port(), endpoint.mtu()), (7471, 1500));
    /// assert_eq!(Endpoint::load(&image[..14]), Err(Refusal::BadImage));
    /// assert_eq!(Refusal::BadImage.number(), 24);
    /// ```
    pub fn load(image: &[u8]) -> Result<Endpoint, Refusal> {
        let (numbers, code) = numbers::Endpoint::load(image);
        Refusal::check(code)?;
        Ok(Endpoint { numbers })
    }

    /// Our own address.
    pub fn own_address(&self) -> Ipv4Addr {
        self.raw().own.into()
    }

    /// The TCP port on which STT is expected.
    pub fn stt_port(&self) -> u16 {
        self.raw().port
    }

    /// The largest outer packet that is written.
    pub fn mtu(&self) -> u16 {
        self.raw().mtu
    }

    /// The addresses of the listed peers, in the order of their numbers.
    pub fn peers(&self) -> impl ExactSizeIterator<Item = Ipv4Addr> + '_ {
        let count = usize::from(self.raw().peer_count);
        let listed = self.raw().addresses.iter().take(count);
        listed.map(|&address| address.into())
    }

    /// The address of the peer with this number; none where none is listed.
    pub fn peer_address(&self, peer: u16) -> Option<Ipv4Addr> {
        self.peers().nth(peer.into())
    }

    /// The number of the peer whose network a binding is: for the binding of a
    /// delivered [`Frame`], the peer that it came from. None where no binding has
    /// this number.
    pub fn owner(&self, binding: u16) -> Option<u16> {
        let peer = self.numbers.owner(binding.into());
        (peer != numbers::NONE).then_some(peer)
    }

    /// The bindings, in the order of their numbers.
    pub fn bindings(&self) -> impl Iterator<Item = Binding> + '_ {
        let raw = self.raw();
        (0..usize::from(raw.binding_count)).filter_map(|number| {
            Some(Binding {
                peer: u16::from(*raw.owners.get(number)?),
                kind: Kind::try_from(*raw.kinds.get(number)?).ok()?,
                network: *raw.networks.get(number)?,
                tenant: *raw.tenants.get(number)?,
            })
        })
    }

    /// The pending frames of a peer, by slot; none for a number that no peer can
    /// have.
    pub fn pending(&self, peer: u16) -> [Option<Pending>; SLOTS] {
        let peer = self.raw().peers.get(usize::from(peer));
        peer.map_or([None; SLOTS], |peer| peer.slots.map(pending))
    }

    /// How many frames are pending, of all peers.
    pub fn pending_count(&self) -> usize {
        let slots = self.raw().peers.iter().flat_map(|peer| &peer.slots);
        slots.filter(|slot| slot.pending).count()
    }

    /// The endpoint for the calls with plain numbers.
    pub fn as_numbers(&mut self) -> &mut numbers::Endpoint {
        &mut self.numbers
    }

    fn raw(&self) -> &ffi::Endpoint {
        &self.numbers.raw
    }
}

fn pending(slot: ffi::Slot) -> Option<Pending> {
    slot.pending.then_some(Pending {
        identifier: slot.identifier,
        length: slot.frame_length,
        age: slot.age,
    })
}

/// An endpoint from a start or a load with plain numbers, a refused one too.
impl From<numbers::Endpoint> for Endpoint {
    fn from(numbers: numbers::Endpoint) -> Endpoint {
        Endpoint { numbers }
    }
}

impl numbers::Receipt {
    /// The answer in the crate's own types, the frame cut out of the packet or
    /// the memory that the receive had.
    pub fn read<'a>(self, packet: &'a [u8], memory: &'a [u8]) -> Result<Received<'a>, Dropped> {
        if self.code == 1 {
            return Ok(Received::Pending);
        }
        Refusal::check(self.code).map_err(|refusal| Dropped::of(refusal, self.offset))?;
        Ok(Received::Delivered(Frame {
            tenant: self.tenant,
            binding: self.binding,
            place: self.place,
            bytes: self.place.view(packet, memory),
        }))
    }
}
