//! Calls the reference and says in one line what it answered.

use niulassenc_reference::{source, view, Answer, Detector, Endpoint, Entry, Observed, Place};
use niulassenc_reference::{Pending, Refusal, DONE};
use niulassenc_reference::{MAX_BINDINGS, MAX_ENTRIES, MAX_PEERS};

/// Longest output that a wrap or a save may ask for.
pub const MAX_OUTPUT: usize = 2000;

/// Longest memory that a record may lend.
pub const MAX_MEMORY: usize = 60_000;

/// One endpoint, the memory lent to it and the last packet it got; and a detector,
/// which starts with the endpoint.
pub struct Driver {
    pub endpoint: Endpoint,
    pub detector: Detector,
    pub memory: Vec<u8>,
    pub last_packet: Vec<u8>,
    /// Whether lines have their text; its hashes take far longer than the calls.
    told: bool,
    output: Vec<u8>,
    written: usize,
    /// What the last receive gave.
    last_answer: Option<Answer>,
}

/// The code of an answer, where it has one, and its line.
pub struct Line {
    pub code: Option<u8>,
    pub text: String,
}

/// h := 31 h + byte + 1 modulo 2^32, from 0.
pub fn hash(bytes: &[u8]) -> u32 {
    bytes.iter().fold(0u32, |h, &byte| {
        h.wrapping_mul(31).wrapping_add(u32::from(byte) + 1)
    })
}

/// The first contents of a lent memory.
pub fn memory_contents(length: usize, seed: u32) -> Vec<u8> {
    let mut x = seed;
    (0..length)
        .map(|_| {
            x = x.wrapping_mul(1_103_515_245).wrapping_add(12_345);
            (x >> 16) as u8
        })
        .collect()
}

pub fn or_dash(number: Option<u16>) -> String {
    number.map_or_else(|| "-".to_string(), |number| number.to_string())
}

/// The number of a detector's answer, and the peer that it names.
pub fn flat(observed: Observed) -> (u8, Option<u16>) {
    match observed {
        Observed::New => (0, None),
        Observed::Known => (1, None),
        Observed::Duplicate { first } => (2, Some(first)),
        Observed::Full => (3, None),
    }
}

/// All entries of a detector, those that are not kept as zeros, then the count:
/// what the hash of its state is over.
fn state(detector: &Detector) -> Vec<u8> {
    let kept = detector.entries();
    let unused = std::iter::repeat(Entry::default()).take(MAX_ENTRIES - kept.len());
    let mut bytes = Vec::new();
    for entry in kept.iter().copied().chain(unused) {
        bytes.extend(entry.address.to_be_bytes());
        bytes.extend(entry.tenant.to_be_bytes());
        bytes.extend(entry.peer.to_be_bytes());
    }
    bytes.extend((kept.len() as u16).to_be_bytes());
    bytes
}

/// Settings, listing and slots of an endpoint, what is not listed and what is free
/// as zeros: what the hash of a load's endpoint is over.
fn numbers(endpoint: &Endpoint) -> Vec<u8> {
    let config = endpoint.config();
    let (peers, bindings) = (endpoint.peers(), endpoint.bindings());
    let mut bytes = Vec::new();
    bytes.extend(config.own.to_be_bytes());
    bytes.extend(config.stt_port.to_be_bytes());
    bytes.extend(config.mtu.to_be_bytes());
    bytes.extend((peers.len() as u16).to_be_bytes());
    bytes.extend((bindings.len() as u16).to_be_bytes());
    for address in peers {
        bytes.extend(address.to_be_bytes());
    }
    bytes.resize(bytes.len() + 4 * (MAX_PEERS - peers.len()), 0);
    for binding in bindings {
        bytes.extend([binding.peer as u8, binding.kind as u8]);
        bytes.extend(binding.network_id.to_be_bytes());
        bytes.extend(binding.tenant.to_be_bytes());
    }
    bytes.resize(bytes.len() + 12 * (MAX_BINDINGS - bindings.len()), 0);
    for slot in endpoint.pending().as_flattened() {
        bytes.extend(slot.as_ref().map_or([0; 8], slot_numbers));
    }
    bytes
}

/// Identifier (4), frame length (2), age (1), pending (1).
fn slot_numbers(pending: &Pending) -> [u8; 8] {
    let [a, b, c, d] = pending.identifier.to_be_bytes();
    let [e, f] = pending.length.to_be_bytes();
    [a, b, c, d, e, f, pending.age, 1]
}

impl Default for Driver {
    fn default() -> Driver {
        Driver::new()
    }
}

impl Driver {
    pub fn new() -> Driver {
        Driver {
            endpoint: Endpoint::start(0, 0, 0).0,
            detector: Detector::start(),
            memory: Vec::new(),
            last_packet: Vec::new(),
            told: true,
            output: Vec::new(),
            written: 0,
            last_answer: None,
        }
    }

    /// A driver whose lines have codes and no text.
    pub fn untold() -> Driver {
        Driver {
            told: false,
            ..Driver::new()
        }
    }

    fn line(&self, code: Option<u8>, text: impl FnOnce() -> String) -> Line {
        let text = if self.told { text() } else { String::new() };
        Line { code, text }
    }

    pub fn start(&mut self, own: u32, port: u32, mtu: u32) -> Line {
        let (endpoint, code) = Endpoint::start(own, port, mtu);
        self.endpoint = endpoint;
        self.detector = Detector::start();
        self.line(Some(code), || format!("start {code}"))
    }

    pub fn peer(&mut self, address: u32) -> Line {
        let added = self.endpoint.add_peer(address);
        self.line(Some(added.code), || {
            format!("peer {} {}", added.code, or_dash(added.number))
        })
    }

    pub fn binding(&mut self, peer: u32, kind: u32, id: u64, tenant: u32) -> Line {
        let added = self.endpoint.add_binding(peer, kind, id, tenant);
        self.line(Some(added.code), || {
            format!("binding {} {}", added.code, or_dash(added.number))
        })
    }

    pub fn lend(&mut self, length: usize, seed: u32) -> Line {
        self.memory = memory_contents(length, seed);
        self.line(None, || format!("memory {length} {}", hash(&self.memory)))
    }

    pub fn receive(&mut self, packet: &[u8]) -> Line {
        self.last_packet = packet.to_vec();
        let answer = self.endpoint.receive(packet, &mut self.memory);
        let place = answer.place;
        self.last_answer = Some(answer);
        self.line(Some(answer.code), || {
            format!(
                "receive {} {} {} {} {} {} {} {} {}",
                answer.code,
                answer.offset,
                or_dash(answer.tenant),
                or_dash(answer.binding),
                if place.in_memory { "memory" } else { "packet" },
                place.start,
                place.length,
                hash(view(packet, &self.memory, place)),
                hash(&self.memory),
            )
        })
    }

    pub fn tick(&mut self) -> Line {
        let code = self.endpoint.tick();
        self.line(Some(code), || format!("tick {code}"))
    }

    /// A place whose numbers exceed the machine's word fits nothing.
    pub fn view(&mut self, in_memory: bool, start: u64, length: u64) -> Line {
        let place = Place {
            in_memory,
            start: usize::try_from(start).unwrap_or(usize::MAX),
            length: usize::try_from(length).unwrap_or(usize::MAX),
        };
        let part = view(&self.last_packet, &self.memory, place);
        let slice = if in_memory {
            &self.memory
        } else {
            &self.last_packet
        };
        let text = if place.fits(slice.len()) {
            // Told from the part itself, so that the line says where it lies.
            let offset = part.as_ptr() as usize - slice.as_ptr() as usize;
            format!("view {offset} {} {}", part.len(), hash(part))
        } else {
            assert_eq!(part.as_ptr(), self.last_packet.as_ptr());
            format!("view - {} {}", part.len(), hash(part))
        };
        Line { code: None, text }
    }

    pub fn wrap(
        &mut self,
        binding: u32,
        segment: u32,
        identifier: u32,
        output_length: usize,
        frame: &[u8],
    ) -> Line {
        self.output = vec![0xAA; output_length];
        let wrapped = self
            .endpoint
            .wrap(binding, frame, segment, identifier, &mut self.output);
        self.written = wrapped.length;
        self.line(Some(wrapped.code), || {
            format!(
                "wrap {} {} {} {}",
                wrapped.code,
                wrapped.length,
                wrapped.segments,
                hash(&self.output)
            )
        })
    }

    /// The line's code is none of document 01's, so it has none.
    pub fn observe(&mut self, tenant: u16, peer: u16, address: u64) -> (Observed, Line) {
        let observed = self.detector.observe(tenant, peer, address);
        let line = self.line(None, || {
            let (answer, first) = flat(observed);
            let hash = hash(&state(&self.detector));
            format!("observe {answer} {} {hash}", or_dash(first))
        });
        (observed, line)
    }

    pub fn save(&mut self, output_length: usize) -> Line {
        self.output = vec![0xAA; output_length];
        let saved = self.endpoint.save(&mut self.output);
        let code = saved.map_or_else(Refusal::code, |_| DONE);
        self.written = saved.unwrap_or(0);
        self.line(Some(code), || {
            format!("save {code} {} {}", self.written, hash(&self.output))
        })
    }

    /// A load that is not refused puts its endpoint in place of the driver's, and
    /// an empty detector, as a start does.
    pub fn load(&mut self, image: &[u8]) -> Line {
        let loaded = Endpoint::load(image);
        let code = loaded
            .as_ref()
            .map_or_else(|refusal| refusal.code(), |_| DONE);
        let line = self.line(Some(code), || {
            let refused = Endpoint::start(0, 0, 0).0;
            let given = loaded.as_ref().unwrap_or(&refused);
            format!("load {code} {}", hash(&numbers(given)))
        });
        if let Ok(endpoint) = loaded {
            self.endpoint = endpoint;
            self.detector = Detector::start();
        }
        line
    }

    /// What the last wrap or save wrote; empty after a refusal.
    pub fn written(&self) -> &[u8] {
        &self.output[..self.written]
    }

    /// The offset that the last receive named.
    pub fn offset(&self) -> usize {
        self.last_answer.map_or(0, |answer| answer.offset)
    }

    /// The tenant that the last receive delivered a frame to; none after another
    /// answer.
    pub fn tenant(&self) -> Option<u16> {
        self.last_answer?.tenant
    }

    /// Where the frame lies that the last receive delivered; the empty place after
    /// another answer.
    pub fn place(&self) -> Place {
        self.last_answer.map_or(Place::EMPTY, |answer| answer.place)
    }

    /// The bytes that the last receive delivered; none after another answer.
    pub fn handed_back(&self) -> &[u8] {
        view(&self.last_packet, &self.memory, self.place())
    }

    /// What a detector is told of the frame that the last receive delivered: its
    /// tenant, the peer that it came from and its source address.
    pub fn delivered(&self) -> Option<(u16, u16, u64)> {
        let answer = self.last_answer?;
        let peer = self.endpoint.owner(answer.binding?.into())?;
        Some((answer.tenant?, peer, source(self.handed_back())))
    }
}
