//! The orders in which the segments of a frame can come.

/// Every order of the segments that none, one and two cuts make of a frame, by the number
/// of cuts.
pub const ORDERS: [&[&[usize]]; 3] = [
    &[&[0]],
    &[&[0, 1], &[1, 0]],
    &[
        &[0, 1, 2],
        &[0, 2, 1],
        &[1, 0, 2],
        &[1, 2, 0],
        &[2, 0, 1],
        &[2, 1, 0],
    ],
];

#[cfg(test)]
mod tests {
    use super::ORDERS;
    use std::collections::BTreeSet;

    /// As many orders as there are, no two alike, each with every segment once.
    #[test]
    fn every_order_stands_once() {
        for (cuts, orders) in ORDERS.iter().enumerate() {
            let all: usize = (1..=cuts + 1).product();
            assert_eq!(orders.iter().collect::<BTreeSet<_>>().len(), all);
            for order in *orders {
                let mut sorted = order.to_vec();
                sorted.sort();
                assert!(sorted.into_iter().eq(0..=cuts), "{order:?}");
            }
        }
    }
}
