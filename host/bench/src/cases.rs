//! What is measured.

use crate::frames::{inner, over_ip, tcp_over_ipv4};
use crate::sides::Side;
use crate::table::whole;
use niulassenc_reference::Endpoint;
use vectors::directed::{NVGRE, OWN, PEER_A, PORT, STT, VXLAN};
use vectors::image::{Bound, Image};
use vectors::packet::{self, Label, Path};

/// The lengths of the inner frames.
const INNER: [usize; 2] = [64, 1514];

/// The network that the packets are on.
const NETWORK: u64 = 0x00C0_FFEE;

/// The tenant that the detector's entries are of.
const TENANT: u16 = 7;

/// What a detector answers.
const NEW: u8 = 0;
const KNOWN: u8 = 1;
const DUPLICATE: u8 = 2;
const FULL: u8 = 3;

const FROM_PEER: Path = Path {
    from: PEER_A,
    to: OWN,
};

/// The call that is measured.
pub enum Call {
    Receive(Vec<u8>),
    Tick,
    Wrap(Vec<u8>),
    Observe(Seen),
    Save,
    Load(Vec<u8>),
}

/// What a detector is told of.
#[derive(Clone, Copy)]
pub struct Seen {
    pub tenant: u16,
    pub peer: u16,
    pub address: u64,
}

impl Seen {
    /// What makes entry `number` of a measured detector, counted from 1.
    fn of_entry(number: u64) -> Seen {
        Seen {
            tenant: TENANT,
            peer: 2,
            address: 0x0200_0000_0000 + number,
        }
    }
}

/// What is listed. The sender and its binding come last, so that they are found
/// last.
#[derive(Clone, Copy)]
pub enum Listing {
    /// One peer with one binding.
    Small,
    /// Eight peers and 64 bindings.
    Full,
}

impl Listing {
    pub fn name(self) -> &'static str {
        match self {
            Listing::Small => "1 binding",
            Listing::Full => "64 bindings",
        }
    }

    /// With the number of peers, which an image has too.
    fn full_name(self) -> &'static str {
        match self {
            Listing::Small => "1 peer, 1 binding",
            Listing::Full => "8 peers, 64 bindings",
        }
    }

    fn size(self) -> (u32, u32) {
        match self {
            Listing::Small => (1, 1),
            Listing::Full => (8, 64),
        }
    }

    /// The number of the binding that the packets are on.
    pub fn binding(self) -> u32 {
        self.size().1 - 1
    }
}

/// A measured call with what must be done around it.
pub struct Case {
    pub name: String,
    pub call: Call,
    /// The code, or the detector's answer, that every measured call must give.
    pub code: u8,
    /// How the network of the packets is carried.
    pub kind: u8,
    pub listing: Listing,
    /// Packets received before each measured call, not measured.
    pub before: Vec<Vec<u8>>,
    /// Packets received after each, not measured, so that it can come again.
    pub after: Vec<Vec<u8>>,
    /// Entries that the detector keeps before each measured call.
    pub kept: u64,
}

impl Case {
    fn receive(name: String, kind: u8, listing: Listing, code: u8, packet: Vec<u8>) -> Case {
        Case {
            name,
            call: Call::Receive(packet),
            code,
            kind,
            listing,
            before: Vec::new(),
            after: Vec::new(),
            kept: 0,
        }
    }

    /// Whether the measured call can be repeated with nothing around it, so
    /// that its time can be told too.
    pub fn stands_alone(&self) -> bool {
        let makes_an_entry = matches!(self.call, Call::Observe(_)) && self.code == NEW;
        self.before.is_empty() && self.after.is_empty() && !makes_an_entry
    }

    /// A detector with the case's entries.
    pub fn detector<S: Side>(&self) -> S::Detector {
        let mut detector = S::detector();
        for number in 1..=self.kept {
            let entry = Seen::of_entry(number);
            let answer = S::observe(&mut detector, entry.tenant, entry.peer, entry.address);
            assert_eq!(answer, NEW);
        }
        detector
    }

    /// An endpoint with the case's listing.
    pub fn endpoint<S: Side>(&self) -> S {
        let (peers, bindings) = self.listing.size();
        let mut endpoint = S::start(OWN, PORT, 1600);
        for number in 1..peers {
            endpoint.add_peer(OWN + 100 + number);
        }
        endpoint.add_peer(PEER_A);
        for number in 1..bindings {
            let (peer, kind) = (number % peers, number % 3 + 1);
            endpoint.add_binding(peer, kind, 4096 + u64::from(number), number);
        }
        endpoint.add_binding(peers - 1, self.kind.into(), NETWORK, bindings);
        endpoint
    }
}

fn segment(length: usize, from: usize, to: usize) -> Vec<u8> {
    let frame = packet::stt_frame(NETWORK, &inner(length));
    let label = Label::new(PORT, 5, frame.len(), from);
    packet::segment(FROM_PEER, label, &frame[from..to])
}

/// An STT frame in one segment, with the two flags set that exclude each other.
fn both_flags(inner: &[u8]) -> Vec<u8> {
    let mut frame = packet::stt_frame(NETWORK, inner);
    frame[1] = 0x03;
    let label = Label::new(PORT, 5, frame.len(), 0);
    packet::segment(FROM_PEER, label, &frame)
}

fn vxlan(length: usize) -> Vec<u8> {
    packet::vxlan(FROM_PEER, NETWORK as u32, &inner(length))
}

fn vxlan_summed(length: usize) -> Vec<u8> {
    packet::vxlan_summed(FROM_PEER, NETWORK as u32, &inner(length))
}

/// Every case but those of the sums alone.
pub fn all() -> Vec<Case> {
    let mut cases = Vec::new();
    deliveries(&mut cases);
    segments(&mut cases);
    refusals(&mut cases);
    ticks(&mut cases);
    wraps(&mut cases);
    observations(&mut cases);
    images(&mut cases);
    cases
}

fn deliveries(cases: &mut Vec<Case>) {
    for listing in [Listing::Small, Listing::Full] {
        for length in INNER {
            let delivery = |name: &str, kind, packet| {
                let name = format!("{name}, inner {length}, {}", listing.name());
                Case::receive(name, kind, listing, 0, packet)
            };
            let plain = vxlan(length);
            cases.push(delivery("VXLAN, UDP checksum 0", VXLAN, plain));
            let summed = vxlan_summed(length);
            cases.push(delivery("VXLAN, UDP checksum set", VXLAN, summed));
            let packet = packet::nvgre(FROM_PEER, NETWORK as u32, &inner(length));
            cases.push(delivery("NVGRE", NVGRE, packet));
            let whole = segment(length, 0, 18 + length);
            cases.push(delivery("STT in one segment", STT, whole));
        }
    }
    // Without a transport header it is delivered; with one it is refusal 29.
    let name = "STT in one segment, both flags, inner 64, 64 bindings";
    let flagged = both_flags(&inner(64));
    let full = Listing::Full;
    cases.push(Case::receive(name.to_string(), STT, full, 0, flagged));
}

/// A frame of 1,532 bytes in two segments: after the first it is pending, the
/// second completes it.
fn segments(cases: &mut Vec<Case>) {
    let (first, second) = (segment(1514, 0, 766), segment(1514, 766, 1532));
    let case = |name: &str, code, packet| {
        let name = format!("STT segment of 766 bytes, {name}");
        Case::receive(name, STT, Listing::Small, code, packet)
    };
    cases.push(Case {
        after: vec![second.clone()],
        ..case("frame pending", 1, first.clone())
    });
    cases.push(Case {
        before: vec![first],
        ..case("completes its frame", 0, second)
    });
}

/// VXLAN packets in the order of the checks, then a wrong tunnel header of each other
/// kind.
fn refusals(cases: &mut Vec<Case>) {
    let good = vxlan(64);
    let refused: [(u8, &str, Vec<u8>); 10] = [
        (3, "version 6", packet::with_byte(&good, 0, 0x65)),
        (4, "header checksum", packet::raw_byte(&good, 10, 0)),
        (5, "fragment", packet::with_word(&good, 6, 0x2000)),
        (6, "not for us", packet::with_byte(&good, 19, 99)),
        (7, "unknown peer", packet::with_byte(&good, 15, 99)),
        (8, "port", packet::with_word(&good, 22, 53)),
        (9, "UDP length", packet::with_word(&good, 24, 79)),
        (
            10,
            "UDP checksum",
            packet::raw_byte(&vxlan_summed(64), 26, 1),
        ),
        (25, "VXLAN flag", packet::with_byte(&good, 28, 0)),
        (12, "no binding", packet::with_byte(&good, 34, 0)),
    ];
    let mut push = |code, why: &str, kind, packet| {
        let name = format!("refusal {code}: {why}, 64 bindings");
        cases.push(Case::receive(name, kind, Listing::Full, code, packet));
    };
    for (code, why, packet) in refused {
        push(code, why, VXLAN, packet);
    }
    let nvgre = packet::nvgre(FROM_PEER, NETWORK as u32, &inner(64));
    let mistyped = packet::with_byte(&nvgre, 23, 0x59);
    push(27, "GRE protocol type", NVGRE, mistyped);
    let flagged = both_flags(&tcp_over_ipv4(64));
    push(29, "STT flags, in one segment", STT, flagged);
}

fn ticks(cases: &mut Vec<Case>) {
    let tick = |name: &str| Case {
        call: Call::Tick,
        ..Case::receive(name.to_string(), STT, Listing::Full, 0, Vec::new())
    };
    cases.push(tick("tick, no frame pending"));
    let frame = packet::stt_frame(NETWORK, &inner(64));
    // These are refused as repeats until the frames are given up.
    let before = (0..4).map(|identifier| {
        let label = Label::new(PORT, identifier, frame.len(), 0);
        packet::segment(FROM_PEER, label, &frame[..40])
    });
    cases.push(Case {
        before: before.collect(),
        ..tick("tick, four frames pending")
    });
}

/// What an STT frame says of its transport header is found in the inner frame.
fn wraps(cases: &mut Vec<Case>) {
    let mut push = |name: String, kind, frame| {
        let case = Case::receive(name, kind, Listing::Full, 0, Vec::new());
        cases.push(Case {
            call: Call::Wrap(frame),
            ..case
        });
    };
    for (kind, name) in [(VXLAN, "VXLAN"), (NVGRE, "NVGRE"), (STT, "STT")] {
        for length in INNER {
            push(format!("wrap {name}, inner {length}"), kind, inner(length));
        }
    }
    for (transport, frame) in over_ip(64) {
        push(format!("wrap STT, inner 64, {transport}"), STT, frame);
    }
}

/// The entries are searched in the order in which they came, so the last is found
/// last.
fn observations(cases: &mut Vec<Case>) {
    let entry = Seen::of_entry;
    let other_peer = |seen: Seen| Seen { peer: 3, ..seen };
    for (name, kept, seen, answer) in [
        ("new, no entry", 0, entry(1), NEW),
        ("new, 127 entries", 127, entry(128), NEW),
        ("known at entry 1", 128, entry(1), KNOWN),
        ("known at entry 128", 128, entry(128), KNOWN),
        (
            "duplicate at entry 128",
            128,
            other_peer(entry(128)),
            DUPLICATE,
        ),
        ("full", 128, entry(129), FULL),
    ] {
        let name = format!("observe: {name}");
        let case = Case::receive(name, VXLAN, Listing::Small, answer, Vec::new());
        cases.push(Case {
            call: Call::Observe(seen),
            kept,
            ..case
        });
    }
}

/// A bad image is refused at its last binding, when all others were read, or at its
/// first byte.
fn images(cases: &mut Vec<Case>) {
    let case = |name: &str, listing, code, call| Case {
        call,
        ..Case::receive(name.to_string(), STT, listing, code, Vec::new())
    };
    for listing in [Listing::Small, Listing::Full] {
        let size = listing.full_name();
        let image = image(listing).bytes();
        cases.push(case(&format!("save, {size}"), listing, 0, Call::Save));
        cases.push(case(
            &format!("load, {size}"),
            listing,
            0,
            Call::Load(image),
        ));
    }
    let full = image(Listing::Full);
    let repeated = full.with(repeat_the_last_but_one);
    let letters = packet::raw_byte(&full.bytes(), 0, 0);
    for (why, image) in [
        ("the last of 64 bindings listed already", repeated),
        ("letters", letters),
    ] {
        let name = format!("refusal 24: {why}");
        cases.push(case(&name, Listing::Full, 24, Call::Load(image)));
    }
}

/// The settings image of a measured endpoint.
fn image(listing: Listing) -> Image {
    let case = Case::receive(String::new(), STT, listing, 0, Vec::new());
    Image::of(&case.endpoint::<Endpoint>())
}

/// The tenant does not count for a repeat.
fn repeat_the_last_but_one(image: &mut Image) {
    if let [.., before, last] = &mut image.bindings[..] {
        let tenant = last.tenant;
        *last = Bound { tenant, ..*before };
    }
}

/// A sum, which no call makes alone: what the first of two receives takes more
/// than the second.
pub struct Sum {
    pub name: String,
    pub with: Case,
    pub without: Case,
}

/// The lengths of the transport sums: one without and one with an odd byte, then
/// those that the cases above have.
const SUMMED: [usize; 7] = [64, 65, 80, 102, 786, 1530, 1552];

pub fn sums() -> Vec<Sum> {
    let transport = SUMMED.map(transport_sum);
    std::iter::once(header_sum()).chain(transport).collect()
}

/// A packet with a wrong header checksum, whole and without its last byte. That the
/// total length is beyond the bytes given is the last check before the checksum,
/// so one refusal comes right behind the sum and the other right before it. The
/// difference is the sum with its comparison, what a side does to call it, and any
/// check that a compiler moved in between.
fn header_sum() -> Sum {
    let whole = packet::raw_byte(&vxlan(64), 10, 0);
    let short = whole[..whole.len() - 1].to_vec();
    let case = |name: &str, code, packet| {
        Case::receive(name.to_string(), VXLAN, Listing::Small, code, packet)
    };
    Sum {
        name: "IPv4 header, 20 bytes".to_string(),
        with: case("header summed", 4, whole),
        without: case("header not summed", 3, short),
    }
}

/// A VXLAN datagram of `length` bytes with and without a checksum. The difference
/// is the sum over it and over the pseudo-header, with the comparison. Its frame
/// may be too long; 13 comes after the sum.
fn transport_sum(length: usize) -> Sum {
    let frame_length = length - 16;
    let code = if frame_length > 1514 { 13 } else { 0 };
    let case = |name: &str, packet| {
        let name = format!("{name} {length}");
        Case::receive(name, VXLAN, Listing::Small, code, packet)
    };
    Sum {
        name: format!("transport, {} bytes", whole(length as f64)),
        with: case("summed", vxlan_summed(frame_length)),
        without: case("not summed", vxlan(frame_length)),
    }
}
