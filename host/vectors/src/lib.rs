//! Makes runs (lists of calls) and the reference's answers to them, so that
//! another implementation can be compared call by call.

#![forbid(unsafe_code)]

pub mod directed;
pub mod driver;
pub mod image;
pub mod observations;
pub mod packet;
pub mod prng;
pub mod random;
pub mod record;
pub mod recorder;
pub mod round_trip;
pub mod traces;

use prng::Prng;
use recorder::Recorder;

/// Seed and number of random steps when the command line names none.
pub const DEFAULT_SEED: u64 = 20_140_415;
pub const DEFAULT_STEPS: usize = 3900;

/// All directed cases, then `steps` random steps; then those of the detector, as many
/// random observations as there are random steps. Every frame that is delivered is
/// observed too.
pub fn generate(seed: u64, steps: usize) -> Recorder {
    fill(Recorder::new(), seed, steps)
}

/// The same calls without the wraps and the saves, for an implementation that cannot
/// write. They change neither endpoint, memory nor detector, so every other answer
/// stays.
pub fn generate_receive_only(seed: u64, steps: usize) -> Recorder {
    fill(Recorder::receive_only(), seed, steps)
}

fn fill(mut recorder: Recorder, seed: u64, steps: usize) -> Recorder {
    let mut prng = Prng::new(seed);
    directed::all(&mut recorder, &mut prng);
    random::steps(&mut recorder, &mut prng, steps);
    observations::directed(&mut recorder);
    // From the seed anew: a new case before them does not shift them.
    observations::random(&mut recorder, &mut Prng::new(seed), steps);
    recorder
}
