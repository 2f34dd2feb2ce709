//! The runs of the generator, through both.

use crate::reassembler::{MEMORY_NEEDED, TOO_MANY};
use crate::sides::Memories;
use crate::{Counts, Sides};
use niulassenc::{numbers, MEMORY_NEEDED as LIBRARY_NEEDED};
use niulassenc_reference::trace::{Next, Record, Trace};
use vectors::prng::Prng;
use vectors::record;
use vectors::traces::{pairs, Pair};

/// Each configuration of a run with its packets and ticks, from the set-up on and with
/// one memory throughout: as a run is cut into traces. The lines that the host's own
/// reference writes are asked for too, up to the first 32.
pub fn compare(run: &[record::Record], seed: u64) -> Result<Counts, String> {
    let mut counts = Counts::default();
    let prng = &mut Prng::new(seed);
    for (number, pair) in (1..).zip(pairs(run)) {
        let memories = memories(prng);
        let of_pair = compare_pair(&pair, memories);
        counts.add(&of_pair.map_err(|why| format!("part {number}, {why}"))?);
    }
    Ok(counts)
}

/// Of several lengths from the least on, and of any contents.
fn memories(prng: &mut Prng) -> Memories {
    let more = [0, 0, 1, 4096];
    Memories {
        library: LIBRARY_NEEDED + prng.pick(&more),
        reference: MEMORY_NEEDED + prng.pick(&more),
        seed: prng.draw() as u32,
    }
}

fn compare_pair(pair: &Pair, memories: Memories) -> Result<Counts, String> {
    let (endpoint, code) = numbers::Endpoint::load(&pair.settings);
    if code != 0 {
        return Err("the settings image is refused".to_string());
    }
    let mut sides = Sides::new(&endpoint, memories);
    let mut trace = Trace::open(&pair.trace[..]).ok_or("no trace")?;
    let mut lines = pair.lines.lines();
    let mut said_32 = false;
    for number in 1.. {
        let at = |why: String| format!("record {number}: {why}");
        let line = match trace.read() {
            Next::Record(Record::Tick) => {
                sides.tick().map_err(at)?;
                format!("{number} tick")
            }
            Next::Record(Record::Packet(packet)) => {
                let answer = sides.receive(packet).map_err(at)?;
                said_32 |= answer.reference == TOO_MANY;
                let tenant = match answer.reference {
                    0 => sides.last().tenant.to_string(),
                    _ => "-".to_string(),
                };
                format!("{number} {} {tenant}", answer.reference)
            }
            Next::Broken => return Err(at("broken".to_string())),
            Next::End => break,
        };
        let expected = lines.next().unwrap_or_default();
        if !said_32 && line != expected {
            return Err(at(format!("{line}, and the host's reference: {expected}")));
        }
    }
    Ok(sides.counts)
}
