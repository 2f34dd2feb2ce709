//! Settings images with a fault, and the largest.

use crate::tester::Tester;
use crate::traces::{each_changed, settings, small};
use vectors::image::{Bound, Image};

/// Whatever the trace is, a bad image is told alone.
const WRONG_TRACES: [&[u8]; 3] = [b"", b"TRP", b"TRP\x00\x01\x09"];

#[test]
fn cut_at_every_byte() {
    let mut tester = Tester::new("cut image");
    let image = settings();
    for length in 0..=image.len() {
        tester.compare(&image[..length], &small());
        for trace in WRONG_TRACES {
            tester.compare(&image[..length], trace);
        }
    }
    let tally = &tester.tally;
    let (all, whole) = (4 * (image.len() + 1), 4);
    assert_eq!((tally.runs, tally.bad_settings), (all, all - whole));
    assert_eq!(tally.bad_traces, 3);
}

/// Each byte takes values near its own and the bounds. Some of these images are good:
/// the lines then tell.
#[test]
fn changed_at_every_byte() {
    let mut tester = Tester::new("changed image");
    for image in each_changed(&settings(), &[0, 4, 255]) {
        tester.compare(&image, &small());
    }
    let tally = &tester.tally;
    assert!(tally.runs > 600 && tally.bad_settings > 200, "{tally:?}");
    assert!(tally.ticks > 400, "{tally:?}");
}

/// Eight peers and as many bindings.
fn large(bindings: u8) -> Image {
    let bound = |number: u8| Bound {
        peer: number % 8,
        kind: number / 8 % 3 + 1,
        id: 5000 + u64::from(number),
        tenant: u16::from(number) * 1000,
    };
    Image {
        own: 0x0A00_0001,
        port: 7471,
        mtu: 1500,
        peers: (2..10).map(|number| 0x0A00_0000 + number).collect(),
        bindings: (0..bindings).map(bound).collect(),
    }
}

#[test]
fn the_largest() {
    let mut tester = Tester::new("largest image");
    for bindings in 60..=66 {
        tester.compare(&large(bindings).bytes(), &small());
    }
    assert_eq!(large(64).bytes().len(), 815);
    assert_eq!(tester.tally.bad_settings, 2);
    assert_eq!(tester.tally.ticks, 5 * 2);
}

/// Bytes behind a good image, up to many buffers of them; and a good one behind others.
#[test]
fn with_bytes_behind() {
    let mut tester = Tester::new("long image");
    let powers = (1..=18).map(|power| 1 << power);
    let lengths: Vec<usize> = powers
        .flat_map(|power| [power - 1, power, power + 1])
        .collect();
    for image in [settings(), large(64).bytes()] {
        for &count in &lengths {
            let behind = [&image[..], &vec![0; count]].concat();
            tester.compare(&behind, &small());
            let filled = [&image[..], &vec![0; count.saturating_sub(image.len())]].concat();
            tester.compare(&filled, &small());
        }
        tester.compare(&[&image[..], &image].concat(), &small());
        tester.compare(&[&vec![0; 65_536][..], &image].concat(), &small());
    }
    let tally = &tester.tally;
    assert!(tally.bad_settings > 170, "{tally:?}");
    assert_eq!(tally.runs - tally.bad_settings, tally.ticks / 2);
}
