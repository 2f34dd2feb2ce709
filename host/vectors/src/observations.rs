//! Runs for the detector: directed cases, whose answers are read off document 02,
//! and observations from small pools.

use crate::directed::{OWN, PORT};
use crate::prng::Prng;
use crate::recorder::Recorder;
use niulassenc_reference::Observed::{self, Duplicate, Full, Known, New};

/// Observations of one detector.
const SCENE_STEPS: usize = 600;

type Case = fn(&mut Recorder);

const CASES: &[(&str, Case)] = &[
    ("refused start", refused_start),
    ("zeros", zeros),
    ("zeros behind one entry", |r| zeros_behind(r, 1)),
    ("zeros behind two entries", |r| zeros_behind(r, 2)),
    ("zeros behind 127 entries", |r| zeros_behind(r, 127)),
    ("three peers", three_peers),
    ("tenants", tenants),
    ("bits", bits),
    ("full", full),
    ("full of tenants", full_of_tenants),
];

/// Runs every directed case, each with a detector of its own.
pub fn directed(recorder: &mut Recorder) {
    for (name, case) in CASES {
        recorder.case = name;
        recorder.start(0, OWN, PORT, 1500);
        case(recorder);
    }
}

/// A start that is refused leaves no entry either.
fn refused_start(r: &mut Recorder) {
    r.observe(New, 7, 2, 1);
    r.start(18, OWN, PORT, 575);
    r.observe(New, 7, 3, 1);
}

/// An entry of zeros is not there before it is made.
fn zeros(r: &mut Recorder) {
    r.observe(New, 0, 0, 0);
    r.observe(Known, 0, 0, 0);
    r.observe(Duplicate { first: 0 }, 0, 0xFFFF, 0);
    r.observe(New, 0xFFFF, 0xFFFF, u64::MAX);
    r.observe(Known, 0xFFFF, 0xFFFF, u64::MAX);
    r.observe(Duplicate { first: 0xFFFF }, 0xFFFF, 0, u64::MAX);
}

/// The zeros behind the entries that are kept are none.
fn zeros_behind(r: &mut Recorder, kept: u64) {
    for address in 1..=kept {
        r.observe(New, 0, 0, address);
    }
    r.observe(New, 0, 1, 0);
    r.observe(Known, 0, 1, 0);
    r.observe(Duplicate { first: 1 }, 0, 0, 0);
}

/// Whoever comes after the first is told of the first.
fn three_peers(r: &mut Recorder) {
    r.observe(New, 7, 2, 0x0200_0000_0001);
    for peer in [3, 4, 3, 4, 0] {
        r.observe(Duplicate { first: 2 }, 7, peer, 0x0200_0000_0001);
    }
    r.observe(Known, 7, 2, 0x0200_0000_0001);
}

/// An address is watched for each tenant by itself.
fn tenants(r: &mut Recorder) {
    r.observe(New, 7, 2, 1);
    r.observe(New, 8, 3, 1);
    r.observe(Known, 7, 2, 1);
    r.observe(Known, 8, 3, 1);
    r.observe(Duplicate { first: 2 }, 7, 3, 1);
    r.observe(Duplicate { first: 3 }, 8, 2, 1);
}

/// Every bit of the three numbers counts.
fn bits(r: &mut Recorder) {
    let (tenant, peer, address) = (0x00FF, 0x0F0F, 0x0200_0000_0001);
    r.observe(New, tenant, peer, address);
    for bit in 0..64 {
        r.observe(New, tenant, peer, address ^ 1 << bit);
    }
    for bit in 0..16 {
        r.observe(New, tenant ^ 1 << bit, peer, address);
        r.observe(Duplicate { first: peer }, tenant, peer ^ 1 << bit, address);
    }
    r.observe(Known, tenant, peer, address);
}

/// Whatever is kept is found when there is no room, at every entry.
fn full(r: &mut Recorder) {
    for number in 0..128 {
        r.observe(New, 7, number, u64::from(number));
    }
    for number in 0..128 {
        r.observe(Full, 7, number, 128 + u64::from(number));
        r.observe(Known, 7, number, u64::from(number));
        r.observe(Duplicate { first: number }, 7, number + 1, number.into());
    }
    r.observe(Full, 8, 0, 0);
    r.observe(Full, 0, 0, 0);
}

/// One address of 129 tenants.
fn full_of_tenants(r: &mut Recorder) {
    for tenant in 0..128 {
        r.observe(New, tenant, 1, 5);
        r.observe(Duplicate { first: 1 }, tenant, 2, 5);
    }
    r.observe(Full, 128, 1, 5);
    r.observe(Known, 127, 1, 5);
}

/// What the observations of one detector are drawn from. Few numbers, so that
/// they come again; the addresses differ in one byte, so that near misses are
/// common.
struct Pools {
    tenants: Vec<u16>,
    peers: Vec<u16>,
    addresses: Vec<u64>,
}

impl Pools {
    fn draw(prng: &mut Prng) -> Pools {
        let tenants = (0..prng.between(1, 4))
            .map(|_| prng.pick(&[0, 1, 7, 0x00FF, 0xFF00, 0xFFFF]))
            .collect();
        let peers = (0..prng.between(1, 5))
            .map(|_| prng.pick(&[0, 1, 2, 7, 8, 0x00FF, 0x0100, 0xFFFF]))
            .collect();
        let bases = [0, prng.draw() >> 16, prng.draw(), u64::MAX];
        let addresses = (0..prng.pick(&[1, 10, 40, 100, 128, 200, 400]))
            .map(|_| {
                let byte = u64::from(prng.byte()) << (8 * prng.below(8));
                prng.pick(&bases) ^ byte
            })
            .collect();
        Pools {
            tenants,
            peers,
            addresses,
        }
    }

    fn observe(&self, recorder: &mut Recorder, prng: &mut Prng) -> Observed {
        let tenant = prng.pick(&self.tenants);
        let peer = prng.pick(&self.peers);
        recorder.try_observe(tenant, peer, prng.pick(&self.addresses))
    }
}

/// Makes `count` observations, on a new detector after every 600.
pub fn random(recorder: &mut Recorder, prng: &mut Prng, count: usize) {
    recorder.case = "random observations";
    let mut pools = Pools::draw(prng);
    for number in 0..count {
        if number % SCENE_STEPS == 0 {
            recorder.start(0, OWN, PORT, 1500);
            pools = Pools::draw(prng);
        }
        pools.observe(recorder, prng);
    }
}
