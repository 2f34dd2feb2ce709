//! Demand 3 on random runs: a peer's answers do not depend on what the other
//! senders sent. A load begins a new run from what it gives, as a start does; both
//! stay where they are.

use vectors::driver::Driver;
use vectors::prng::Prng;
use vectors::random;
use vectors::record::{decode, Record};
use vectors::recorder::Recorder;

/// A record, the address of the peer whose packet it is (document 01, "Whose
/// packet it is"), and its line without the memory's hash.
struct Step {
    record: Record,
    sender: Option<u32>,
    line: String,
}

/// The line of a receive without its last field: the whole memory's hash, which
/// other peers' rows change.
fn answer_part(line: &str) -> &str {
    line.rsplit_once(' ').map_or(line, |(front, _)| front)
}

/// With code 2 nobody looks at the packet; such packets stay in both runs.
fn sender(record: &Record, code: Option<u8>) -> Option<u32> {
    match (record, code) {
        (Record::Receive { .. }, Some(2)) => None,
        (Record::Receive { .. }, Some(3..=7)) => Some(0),
        (Record::Receive { packet }, _) => {
            let mut source = [0; 4];
            source.copy_from_slice(&packet[12..16]);
            Some(u32::from_be_bytes(source))
        }
        _ => None,
    }
}

fn random_run(seed: u64, steps: usize) -> Vec<Step> {
    let mut recorder = Recorder::new();
    random::steps(&mut recorder, &mut Prng::new(seed), steps);
    let mut driver = Driver::new();
    let records = decode(&recorder.runs).unwrap();
    records
        .into_iter()
        .map(|record| {
            let line = record.call(&mut driver);
            Step {
                sender: sender(&record, line.code),
                line: answer_part(&line.text).to_string(),
                record,
            }
        })
        .collect()
}

#[test]
fn other_senders_do_not_matter() {
    let mut compared = [0; 30];
    let mut loaded = 0;
    for seed in 0..4 {
        let run = random_run(seed, 2000);
        loaded += run.iter().filter(|step| step.line == "load 0").count();
        for peer in 0x0A00_0002..=0x0A00_000E {
            let mut driver = Driver::new();
            for step in &run {
                if step.sender.is_some_and(|sender| sender != peer) {
                    continue;
                }
                let line = step.record.call(&mut driver);
                if step.sender.is_some() {
                    assert_eq!(answer_part(&line.text), step.line);
                    compared[usize::from(line.code.unwrap())] += 1;
                }
            }
        }
    }
    // The peers' packets met every answer that a peer's packet can get.
    let answers = [0, 1].into_iter().chain(8..=10);
    for code in answers.chain(12..=17).chain(25..=29) {
        assert!(compared[code] > 10, "code {code}: {}", compared[code]);
    }
    assert!(loaded > 10, "{loaded} loads");
}
