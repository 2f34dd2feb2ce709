//! A library endpoint and a reference endpoint that get the same calls, and a
//! detector of each beside them.

use crate::lent::Lent;
use crate::raw::{of_reference, same_numbers};
use niulassenc as library;
use niulassenc::limits::ENTRIES;
use niulassenc::numbers::RawDetector;
use niulassenc_reference as reference;
use std::fmt::Debug;
use vectors::driver::{flat, memory_contents};
use vectors::packet;
use vectors::record::Record;

/// The two endpoints, the memory lent to each, and the last packet. The two
/// detectors start with the endpoints.
pub struct Pair {
    library: library::Endpoint,
    reference: reference::Endpoint,
    library_detector: library::Detector,
    reference_detector: reference::Detector,
    library_memory: Lent,
    reference_memory: Vec<u8>,
    last_packet: Vec<u8>,
    /// The flags of the STT frame that the last receive delivered.
    pub delivered_flags: Option<u8>,
    /// Flags and L4 offset in the STT header that the last wrap wrote.
    pub written_hints: Option<[u8; 2]>,
}

/// Says what differs.
pub fn same<T: PartialEq + Debug>(name: &str, library: T, reference: T) -> Result<(), String> {
    if library == reference {
        return Ok(());
    }
    Err(format!(
        "{name}: library {library:?}, reference {reference:?}"
    ))
}

/// Says what is not 0.
fn zeros<T: PartialEq + Debug + Default>(
    name: &str,
    mut unused: impl Iterator<Item = T>,
) -> Result<(), String> {
    unused.try_for_each(|numbers| same(name, numbers, T::default()))
}

/// A number as the library hands it out: 0xFFFF where there is none.
fn or_none(number: Option<u16>) -> u16 {
    number.unwrap_or(library::numbers::NONE)
}

/// The code of an answer in the cover's types.
fn code_of<T>(result: Result<T, library::Refusal>) -> u8 {
    result.map_or_else(library::Refusal::number, |_| 0)
}

fn place_of_library(place: library::Place) -> (bool, usize, usize) {
    (place.in_memory, place.start, place.length)
}

fn place_of_reference(place: reference::Place) -> (bool, usize, usize) {
    (place.in_memory, place.start, place.length)
}

/// The offset of an answer as the cover has it, with what it is counted in.
fn offset_of_reference(answer: &reference::Answer) -> Option<library::Offset> {
    let byte = answer.offset as u8;
    match answer.code {
        25..=27 => Some(library::Offset::Packet(byte)),
        28 | 29 => Some(library::Offset::SttFrame(byte)),
        _ => None,
    }
}

impl Default for Pair {
    fn default() -> Pair {
        Pair::new()
    }
}

impl Pair {
    /// Both as a refused start leaves them, with no memory.
    pub fn new() -> Pair {
        Pair {
            library: library::numbers::Endpoint::start(0, 0, 0).0.into(),
            reference: reference::Endpoint::start(0, 0, 0).0,
            library_detector: library::Detector::start(),
            reference_detector: reference::Detector::start(),
            library_memory: Lent::new(&[]),
            reference_memory: Vec::new(),
            last_packet: Vec::new(),
            delivered_flags: None,
            written_hints: None,
        }
    }

    /// Makes a call on both and gives its code, or a detector's answer, or says
    /// what differs.
    pub fn call(&mut self, record: &Record) -> Result<u8, String> {
        let code = self.answers(record)?;
        self.endpoints()?;
        self.unused()?;
        self.detectors()?;
        if matches!(
            record,
            Record::Start { .. } | Record::Binding { .. } | Record::Tick | Record::Load { .. }
        ) {
            self.owners()?;
        }
        self.library_memory
            .check("memory", &self.reference_memory)?;
        Ok(code)
    }

    fn answers(&mut self, record: &Record) -> Result<u8, String> {
        match record {
            Record::Start { own, port, mtu } => self.start(*own, *port, *mtu),
            Record::Peer { address } => self.peer(*address),
            Record::Binding {
                peer,
                kind,
                id,
                tenant,
            } => self.binding(*peer, *kind, *id, *tenant),
            Record::Lend { length, seed } => {
                self.reference_memory = memory_contents(*length as usize, *seed);
                self.library_memory = Lent::new(&self.reference_memory);
                Ok(0)
            }
            Record::Receive { packet } => self.receive(packet),
            Record::Tick => {
                let code = self.library.as_numbers().tick();
                same("code", code, self.reference.tick())?;
                Ok(code)
            }
            Record::View {
                in_memory,
                start,
                length,
            } => self.view(*in_memory, *start, *length),
            Record::Wrap { .. } => self.wrap(record),
            Record::Observe {
                tenant,
                peer,
                address,
            } => self.observe(*tenant, *peer, *address),
            Record::Save { output_length } => self.save(usize::from(*output_length)),
            Record::Load { image } => self.load(image),
        }
    }

    fn start(&mut self, own: u32, port: u32, mtu: u32) -> Result<u8, String> {
        let (endpoint, code) = library::numbers::Endpoint::start(own, port, mtu);
        self.library = endpoint.into();
        let (endpoint, expected) = reference::Endpoint::start(own, port, mtu);
        self.reference = endpoint;
        self.library_detector = library::Detector::start();
        self.reference_detector = reference::Detector::start();
        same("code", code, expected)?;
        // The cover's own types have no wider numbers.
        if let (Ok(port), Ok(mtu)) = (port.try_into(), mtu.try_into()) {
            let typed = library::Endpoint::start(own.into(), port, mtu);
            same("code in the cover", code_of(typed), expected)?;
        }
        Ok(code)
    }

    fn peer(&mut self, address: u32) -> Result<u8, String> {
        let added = self.library.as_numbers().add_peer(address);
        let expected = self.reference.add_peer(address);
        same("code", added.code, expected.code)?;
        same("number", added.number, or_none(expected.number))?;
        Ok(added.code)
    }

    fn binding(&mut self, peer: u32, kind: u32, id: u64, tenant: u32) -> Result<u8, String> {
        let numbers = self.library.as_numbers();
        let added = numbers.add_binding(peer, kind, id, tenant);
        let expected = self.reference.add_binding(peer, kind, id, tenant);
        same("code", added.code, expected.code)?;
        same("number", added.number, or_none(expected.number))?;
        Ok(added.code)
    }

    fn receive(&mut self, packet: &[u8]) -> Result<u8, String> {
        self.last_packet.clear();
        self.last_packet.extend(packet);
        let memory = self.library_memory.slice();
        let receipt = self.library.as_numbers().receive(packet, memory);
        let expected = self.reference.receive(packet, &mut self.reference_memory);
        same("code", receipt.code, expected.code)?;
        same("offset", usize::from(receipt.offset), expected.offset)?;
        same("tenant", receipt.tenant, or_none(expected.tenant))?;
        same("binding", receipt.binding, or_none(expected.binding))?;
        same(
            "place (in memory, start, length)",
            place_of_library(receipt.place),
            place_of_reference(expected.place),
        )?;
        self.delivered(&receipt, &expected)?;
        same("packet", packet, &self.last_packet[..])?;
        let from_memory = receipt.code == 0 && receipt.place.in_memory;
        // The second of the 18 bytes in front of the frame.
        let flags = || self.library_memory.contents()[receipt.place.start - 17];
        self.delivered_flags = from_memory.then(flags);
        Ok(receipt.code)
    }

    /// The answer in the cover's types, and the bytes that it hands out.
    fn delivered(
        &self,
        receipt: &library::numbers::Receipt,
        expected: &reference::Answer,
    ) -> Result<(), String> {
        let packet = &self.last_packet;
        let bytes = reference::view(packet, &self.reference_memory, expected.place);
        let answer = match receipt.read(packet, self.library_memory.contents()) {
            Ok(library::Received::Delivered(frame)) => {
                let source = reference::source(bytes).to_be_bytes();
                same("source", &frame.source()[..], &source[2..])?;
                (0, frame.bytes)
            }
            Ok(library::Received::Pending) => (1, &packet[..0]),
            Err(dropped) => {
                let named = offset_of_reference(expected);
                same("offset in the cover", dropped.offset, named)?;
                (dropped.refusal.number(), &packet[..0])
            }
        };
        same("delivered bytes", answer, (expected.code, bytes))
    }

    fn observe(&mut self, tenant: u16, peer: u16, address: u64) -> Result<u8, String> {
        let mut typed = self.library_detector.clone();
        let numbers = self.library_detector.as_numbers();
        let observed = numbers.observe(tenant, peer, address);
        let expected = self.reference_detector.observe(tenant, peer, address);
        let (answer, first) = flat(expected);
        same("answer", observed.answer, answer)?;
        same("peer", observed.peer, or_none(first))?;
        // The cover's own types have addresses of 48 bits.
        if let [0, 0, bytes @ ..] = address.to_be_bytes() {
            let observed = typed.observe(tenant, peer, bytes);
            let told = match observed {
                library::Observed::Duplicate { first } => Some(first),
                _ => None,
            };
            same(
                "answer in the cover",
                (observed.number(), told),
                (answer, first),
            )?;
            let alike = typed == self.library_detector;
            same("whether the cover's detector is the same", alike, true)?;
        }
        Ok(answer)
    }

    /// How many entries the library's detector keeps.
    pub fn entries(&self) -> usize {
        self.library_detector.entries().len()
    }

    fn view(&mut self, in_memory: bool, start: u64, length: u64) -> Result<u8, String> {
        let start = usize::try_from(start).unwrap_or(usize::MAX);
        let length = usize::try_from(length).unwrap_or(usize::MAX);
        let ours = library::Place {
            in_memory,
            start,
            length,
        };
        let theirs = reference::Place {
            in_memory,
            start,
            length,
        };
        let packet = &self.last_packet;
        let memory = self.library_memory.contents();
        same(
            "cut (in memory, start, length)",
            place_of_library(ours.cut(packet.len(), memory.len())),
            place_of_reference(reference::cut(packet.len(), memory.len(), theirs)),
        )?;
        same(
            "view",
            ours.view(packet, memory),
            reference::view(packet, &self.reference_memory, theirs),
        )?;
        Ok(0)
    }

    fn wrap(&mut self, record: &Record) -> Result<u8, String> {
        let Record::Wrap {
            binding,
            segment,
            identifier,
            output_length,
            frame,
        } = record
        else {
            return Ok(0);
        };
        let mut output = vec![0xAA; usize::from(*output_length)];
        let mut lent = Lent::new(&output);
        let numbers = self.library.as_numbers();
        let wrapped = numbers.wrap(*binding, frame, *segment, *identifier, lent.slice());
        let expected = self
            .reference
            .wrap(*binding, frame, *segment, *identifier, &mut output);
        same("code", wrapped.code, expected.code)?;
        same("length", wrapped.length, expected.length)?;
        same("segments", wrapped.segments, expected.segments)?;
        lent.check("output", &output)?;
        // The STT header is in the first segment, behind the 40 bytes of two others.
        let is_first = wrapped.code == 0 && output[9] == packet::TCP && *segment == 0;
        self.written_hints = is_first.then(|| [output[41], output[42]]);
        Ok(wrapped.code)
    }

    fn save(&mut self, output_length: usize) -> Result<u8, String> {
        let mut output = vec![0xAA; output_length];
        let mut lent = Lent::new(&output);
        let mut typed = Lent::new(&output);
        let saved = self.library.as_numbers().save(lent.slice());
        let in_cover = self.library.save(typed.slice());
        let expected = self.reference.save(&mut output);
        let expected = expected.map_err(reference::Refusal::code);
        same("code", saved.code, expected.err().unwrap_or(0))?;
        same("length", saved.length, expected.unwrap_or(0))?;
        lent.check("output", &output)?;
        let in_cover = in_cover.map_err(library::Refusal::number);
        same("length in the cover", in_cover, expected)?;
        typed.check("output in the cover", &output)?;
        Ok(saved.code)
    }

    /// What a load gives is compared of a refused one too; only one that is not
    /// refused takes the place of the two endpoints.
    fn load(&mut self, image: &[u8]) -> Result<u8, String> {
        let mut lent = Lent::new(image);
        let (given, code) = library::numbers::Endpoint::load(lent.slice());
        lent.check("image", image)?;
        let loaded = reference::Endpoint::load(image);
        let expected = loaded.as_ref().map_or_else(|why| why.code(), |_| 0);
        same("code", code, expected)?;
        let typed = library::Endpoint::load(image);
        same("code in the cover", code_of(typed), expected)?;
        let Ok(loaded) = loaded else {
            let refused = reference::Endpoint::start(0, 0, 0).0;
            same_numbers(given.raw(), &of_reference(&refused))?;
            return Ok(code);
        };
        same_numbers(given.raw(), &of_reference(&loaded))?;
        self.library = given.into();
        self.reference = loaded;
        self.library_detector = library::Detector::start();
        self.reference_detector = reference::Detector::start();
        Ok(code)
    }

    /// Settings, listing and the pending frames.
    fn endpoints(&self) -> Result<(), String> {
        let (ours, theirs) = (&self.library, &self.reference);
        let config = theirs.config();
        same(
            "settings",
            (u32::from(ours.own_address()), ours.stt_port(), ours.mtu()),
            (config.own, config.stt_port, config.mtu),
        )?;
        let listed = ours.peers().map(u32::from);
        if !listed.eq(theirs.peers().iter().copied()) {
            let listed: Vec<_> = ours.peers().map(u32::from).collect();
            same("peers", &listed[..], theirs.peers())?;
        }
        self.bindings()?;
        for (peer, expected) in (0..).zip(theirs.pending()) {
            let slots = ours.pending(peer);
            let slots = slots.map(|slot| slot.map(|p| (p.identifier, p.length, p.age)));
            let expected = expected.map(|slot| slot.map(|p| (p.identifier, p.length, p.age)));
            if slots != expected {
                same(&format!("slots of peer {peer}"), slots, expected)?;
            }
        }
        Ok(())
    }

    fn bindings(&self) -> Result<(), String> {
        let ours = || {
            let listed = self.library.bindings();
            listed.map(|b| (b.peer, b.kind as u8, b.network, b.tenant))
        };
        let theirs = || {
            let listed = self.reference.bindings().iter();
            listed.map(|b| (b.peer, b.kind as u8, b.network_id, b.tenant))
        };
        if ours().eq(theirs()) {
            return Ok(());
        }
        let (ours, theirs): (Vec<_>, Vec<_>) = (ours().collect(), theirs().collect());
        same("bindings", ours, theirs)
    }

    /// Every number of the library's detector; behind the count it is 0.
    fn detectors(&mut self) -> Result<(), String> {
        let kept = self.reference_detector.entries();
        let raw = self.library_detector.as_numbers().raw();
        let mut expected = RawDetector {
            addresses: [0; ENTRIES],
            tenants: [0; ENTRIES],
            peers: [0; ENTRIES],
            count: kept.len() as u16,
        };
        for (number, entry) in kept.iter().enumerate() {
            expected.addresses[number] = entry.address;
            expected.tenants[number] = entry.tenant;
            expected.peers[number] = entry.peer;
        }
        if *raw == expected {
            return Ok(());
        }
        same("entries", raw.count, expected.count)?;
        for number in 0..ENTRIES {
            let entry = |d: &RawDetector| (d.addresses[number], d.tenants[number], d.peers[number]);
            let name = format!("entry {number} (address, tenant, peer)");
            same(&name, entry(raw), entry(&expected))?;
        }
        Ok(())
    }

    /// The owner of every binding that is listed and of some that are not.
    fn owners(&mut self) -> Result<(), String> {
        let count = self.reference.bindings().len() as u32;
        let others = [count, 64, 65_535, 65_536, 65_536 + count / 2, u32::MAX];
        for binding in (0..count).chain(others) {
            let name = format!("owner of binding {binding}");
            let expected = self.reference.owner(binding);
            let owner = self.library.as_numbers().owner(binding);
            same(&name, owner, or_none(expected))?;
            let Ok(number) = u16::try_from(binding) else {
                continue; // the cover's own types have no wider numbers
            };
            let owner = self.library.owner(number);
            same(&name, owner, expected)?;
            let address = owner.and_then(|peer| self.library.peer_address(peer));
            let expected = expected.map(|peer| self.reference.peers()[usize::from(peer)]);
            same("its address", address.map(u32::from), expected)?;
        }
        Ok(())
    }

    /// The counts in the library's struct. Where it keeps nothing, behind them
    /// and in free slots, every number is 0.
    fn unused(&mut self) -> Result<(), String> {
        let raw = self.library.as_numbers().raw();
        let peers = usize::from(raw.peer_count);
        let bindings = usize::from(raw.binding_count);
        let reference = &self.reference;
        same("peer count", peers, reference.peers().len())?;
        same("binding count", bindings, reference.bindings().len())?;
        let slots = raw.peers.iter().flat_map(|peer| &peer.slots);
        let free = slots.filter(|slot| !slot.pending);
        zeros("unused addresses", raw.addresses.into_iter().skip(peers))?;
        zeros("unused networks", raw.networks.into_iter().skip(bindings))?;
        zeros("unused kinds", raw.kinds.into_iter().skip(bindings))?;
        zeros("unused owners", raw.owners.into_iter().skip(bindings))?;
        zeros("unused tenants", raw.tenants.into_iter().skip(bindings))?;
        zeros(
            "free slot (identifier, frame length, age)",
            free.map(|slot| (slot.identifier, slot.frame_length, slot.age)),
        )
    }
}
