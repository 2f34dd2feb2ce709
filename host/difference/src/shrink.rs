//! Shrinks a run that shows a difference: calls are dropped, many at a time
//! first and then one by one, as long as some difference is left.

use crate::{compare, Difference};
use vectors::record::Record;

/// A run of which no call can be dropped, and the difference that it shows;
/// nothing if `run` shows none.
pub fn shrink(run: &[Record]) -> Option<(Vec<Record>, Difference)> {
    shrink_by(run, |run| compare(run).err())
}

fn shrink_by(
    run: &[Record],
    differs: impl Fn(&[Record]) -> Option<Difference>,
) -> Option<(Vec<Record>, Difference)> {
    let mut found = differs(run)?;
    let mut kept = run[..=found.at].to_vec();
    let mut portion = kept.len();
    loop {
        let before = kept.len();
        let mut start = 0;
        while start < kept.len() {
            let end = kept.len().min(start + portion);
            let rest = [&kept[..start], &kept[end..]].concat();
            match differs(&rest) {
                Some(difference) => {
                    kept = rest;
                    kept.truncate(difference.at + 1);
                    found = difference;
                }
                None => start = end,
            }
        }
        // A last pass that drops nothing ends it.
        if portion == 1 && kept.len() == before {
            return Some((kept, found));
        }
        portion = portion.div_ceil(2);
    }
}

#[cfg(test)]
mod tests {
    use super::*;

    fn peers(addresses: &[u32]) -> Vec<Record> {
        let record = |&address| Record::Peer { address };
        addresses.iter().map(record).collect()
    }

    /// A made-up difference: at the first 7 that has a 3 before it.
    fn seven_after_three(run: &[Record]) -> Option<Difference> {
        let three = run.iter().position(|r| *r == Record::Peer { address: 3 })?;
        let later = run[three..].iter();
        let seven = later
            .clone()
            .position(|r| *r == Record::Peer { address: 7 })?;
        Some(Difference {
            at: three + seven,
            what: String::new(),
        })
    }

    #[test]
    fn only_what_is_needed_stays() {
        for run in [
            &[3, 7][..],
            &[1, 7, 2, 3, 4, 5, 3, 6, 7, 8, 9, 7],
            &[3, 3, 3, 3, 3, 1, 1, 7, 7, 7],
        ] {
            let (kept, found) = shrink_by(&peers(run), seven_after_three).unwrap();
            assert_eq!(kept, peers(&[3, 7]));
            assert_eq!(found.at, 1);
        }
        assert_eq!(shrink_by(&peers(&[7, 3]), seven_after_three), None);
    }
}
