//! Runs to compare on: the generator's, by seed, in portions.

use vectors::prng::Prng;
use vectors::record::Record;
use vectors::recorder::Recorder;
use vectors::{directed, observations, random};

/// Random steps in the run of one seed: four set-ups of the generator.
pub const STEPS: usize = 1000;

/// Observations in the run of one seed: ten detectors of the generator.
pub const OBSERVATIONS: usize = 6000;

/// The generator's directed cases, of the endpoint and of the detector.
pub fn directed(seed: u64) -> Vec<Record> {
    let mut recorder = Recorder::keeping();
    directed::all(&mut recorder, &mut Prng::new(seed));
    observations::directed(&mut recorder);
    recorder.into_records()
}

/// The random observations of a seed.
pub fn observations(seed: u64) -> Vec<Record> {
    let mut recorder = Recorder::keeping();
    observations::random(&mut recorder, &mut Prng::new(seed), OBSERVATIONS);
    recorder.into_records()
}

/// The random run of a seed.
pub fn random(seed: u64) -> Vec<Record> {
    let mut recorder = Recorder::keeping();
    random::steps(&mut recorder, &mut Prng::new(seed), STEPS);
    recorder.into_records()
}
