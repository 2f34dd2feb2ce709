//! Making a case's calls, counted or timed.

use crate::cases::{Call, Case, Seen};
use crate::sides::Side;
use niulassenc::MEMORY_NEEDED;
use std::hint::black_box;
use std::time::{Duration, Instant};

/// Calls under callgrind: some to warm up, then the counted ones.
const WARM: usize = 8;
pub const COUNTED: u64 = 16;

/// How long one round of a timing lasts, and how many there are for each side at
/// each depth of the stack.
const ROUND: Duration = Duration::from_micros(100);
const ROUNDS: usize = 40;

/// Times depend on how the stack lies to packet and memory within a page, by a
/// quarter and more. So they are taken at several depths, which together make up
/// a page.
const DEPTHS: usize = 16;
const DEPTH: usize = 4096 / DEPTHS;

/// An endpoint with all that its calls need, and a detector.
pub struct Bench<'a, S: Side> {
    case: &'a Case,
    side: S,
    memory: Vec<u8>,
    output: Vec<u8>,
    detector: S::Detector,
    /// The detector as it is before each measured call.
    fresh: S::Detector,
}

/// Callgrind counts in the functions `counted_*` alone (`--toggle-collect`).
#[inline(never)]
fn counted_receive<S: Side>(side: &mut S, packet: &[u8], memory: &mut [u8]) -> u8 {
    side.receive(packet, memory)
}

#[inline(never)]
fn counted_tick<S: Side>(side: &mut S) -> u8 {
    side.tick()
}

#[inline(never)]
fn counted_wrap<S: Side>(side: &mut S, binding: u32, frame: &[u8], output: &mut [u8]) -> u8 {
    side.wrap(binding, frame, output)
}

#[inline(never)]
fn counted_save<S: Side>(side: &mut S, output: &mut [u8]) -> u8 {
    side.save(output)
}

#[inline(never)]
fn counted_load<S: Side>(image: &[u8]) -> u8 {
    S::load(image)
}

#[inline(never)]
fn counted_observe<S: Side>(detector: &mut S::Detector, seen: Seen) -> u8 {
    S::observe(detector, seen.tenant, seen.peer, seen.address)
}

/// Callgrind writes down what it counted when this is entered (`--dump-before`).
#[inline(never)]
pub fn next_count() {
    black_box(());
}

impl<'a, S: Side> Bench<'a, S> {
    pub fn new(case: &'a Case) -> Bench<'a, S> {
        Bench {
            case,
            side: case.endpoint(),
            memory: vec![0; MEMORY_NEEDED],
            output: vec![0; 1600],
            detector: case.detector::<S>(),
            fresh: case.detector::<S>(),
        }
    }

    #[inline(always)]
    fn call(&mut self) -> u8 {
        match &self.case.call {
            Call::Receive(packet) => counted_receive(&mut self.side, packet, &mut self.memory),
            Call::Tick => counted_tick(&mut self.side),
            Call::Wrap(frame) => {
                let binding = self.case.listing.binding();
                counted_wrap(&mut self.side, binding, frame, &mut self.output)
            }
            Call::Observe(seen) => counted_observe::<S>(&mut self.detector, *seen),
            Call::Save => counted_save(&mut self.side, &mut self.output),
            Call::Load(image) => counted_load::<S>(image),
        }
    }

    /// The call with what is done around it. A call that answers otherwise than
    /// the case says is not what was to be measured.
    fn once(&mut self) {
        for packet in &self.case.before {
            black_box(self.side.receive(packet, &mut self.memory));
        }
        self.detector.clone_from(&self.fresh);
        let code = self.call();
        assert_eq!(
            code,
            self.case.code,
            "{} on the {}",
            self.case.name,
            S::NAME
        );
        for packet in &self.case.after {
            black_box(self.side.receive(packet, &mut self.memory));
        }
    }

    /// For callgrind.
    pub fn count(&mut self) {
        for _ in 0..WARM {
            self.once();
        }
        next_count();
        for _ in 0..COUNTED {
            self.once();
        }
        next_count();
    }

    fn round(&mut self, calls: u32) -> Duration {
        let begun = Instant::now();
        for _ in 0..calls {
            black_box(self.call());
        }
        begun.elapsed()
    }

    /// How many calls a round takes.
    fn calls(&mut self) -> u32 {
        let mut calls = 64;
        while self.round(calls) < ROUND {
            calls *= 2;
        }
        calls
    }
}

/// Does the work with `depth` times [`DEPTH`] more bytes on the stack.
#[inline(never)]
fn at_depth(depth: usize, work: &mut dyn FnMut()) {
    let filling = [0u8; DEPTH];
    black_box(&filling);
    if depth == 0 {
        work();
    } else {
        at_depth(depth - 1, work);
    }
    black_box(&filling);
}

/// Nanoseconds a call: at each depth the best of several rounds, the sides
/// taking turns, so that what else runs on the machine disturbs both alike; of
/// these the median.
pub fn nanoseconds<A: Side, B: Side>(case: &Case) -> [f64; 2] {
    let (mut a, mut b) = (Bench::<A>::new(case), Bench::<B>::new(case));
    a.once();
    b.once();
    let (calls_a, calls_b) = (a.calls(), b.calls());
    let each = |time: Duration, calls: u32| time.as_secs_f64() * 1e9 / f64::from(calls);
    let mut times = [Vec::new(), Vec::new()];
    for depth in 0..DEPTHS {
        let mut best = [f64::INFINITY; 2];
        at_depth(depth, &mut || {
            for _ in 0..ROUNDS {
                best[0] = best[0].min(each(a.round(calls_a), calls_a));
                best[1] = best[1].min(each(b.round(calls_b), calls_b));
            }
        });
        times[0].push(best[0]);
        times[1].push(best[1]);
    }
    times.map(|mut times| {
        times.sort_by(f64::total_cmp);
        times[DEPTHS / 2]
    })
}
