//! Handing back: places that fit and places that do not.

use niulassenc_reference::{cut, view, Place};

fn place(in_memory: bool, start: usize, length: usize) -> Place {
    Place {
        in_memory,
        start,
        length,
    }
}

#[test]
fn a_fitting_place_is_a_part_of_its_slice() {
    let packet = [1, 2, 3, 4, 5];
    let memory = [9, 8, 7];
    let cases: [(bool, usize, usize, &[u8]); 7] = [
        (false, 0, 5, &packet),
        (false, 1, 3, &[2, 3, 4]),
        (false, 5, 0, &[]),
        (false, 2, 0, &[]),
        (true, 0, 3, &memory),
        (true, 2, 1, &[7]),
        (true, 3, 0, &[]),
    ];
    for (in_memory, start, length, expected) in cases {
        let got = view(&packet, &memory, place(in_memory, start, length));
        assert_eq!(got, expected);
        let slice: &[u8] = if in_memory { &memory } else { &packet };
        assert_eq!(got.as_ptr(), slice[start..].as_ptr());
    }
}

#[test]
fn a_misfit_is_the_empty_part_at_the_packets_start() {
    let packet = [1, 2, 3, 4, 5];
    let memory = [9, 8, 7];
    let misfits = [
        (false, 0, 6),
        (false, 5, 1),
        (false, 6, 0),
        (false, usize::MAX, 1),
        (false, 1, usize::MAX),
        (false, usize::MAX, usize::MAX),
        (true, 0, 4),
        (true, 3, 1),
        (true, 4, 0),
        (true, 0, 5),
        (true, usize::MAX, 2),
        (true, 2, usize::MAX),
    ];
    for (in_memory, start, length) in misfits {
        let got = view(&packet, &memory, place(in_memory, start, length));
        assert!(got.is_empty());
        assert_eq!(
            got.as_ptr(),
            packet.as_ptr(),
            "{in_memory} {start} {length}"
        );
    }
}

/// The cut is the view told by lengths alone, so it goes beyond what fits into a
/// machine.
#[test]
fn a_cut_is_where_the_view_lies() {
    let (packet, memory) = ([1, 2, 3, 4, 5], [9, 8, 7]);
    for in_memory in [false, true] {
        for start in 0..8 {
            for length in 0..8 {
                let place = place(in_memory, start, length);
                let part = cut(packet.len(), memory.len(), place);
                let got = view(&packet, &memory, place);
                let slice: &[u8] = if part.in_memory { &memory } else { &packet };
                assert_eq!(got, &slice[part.start..part.start + part.length]);
                assert_eq!(got.as_ptr(), slice[part.start..].as_ptr());
            }
        }
    }
    let most = usize::MAX;
    let all = place(true, 0, most);
    assert_eq!(cut(0, most, all), all);
    assert_eq!(cut(0, most - 1, all), Place::EMPTY);
    let last = place(false, most, 0);
    assert_eq!(cut(most, 0, last), last);
    assert_eq!(cut(most, 0, place(false, most, 1)), Place::EMPTY);
    assert_eq!(cut(most, most, place(true, most, most)), Place::EMPTY);
}

#[test]
fn empty_slices_have_empty_parts() {
    assert!(view(&[], &[], Place::EMPTY).is_empty());
    assert!(view(&[], &[1], place(false, 0, 1)).is_empty());
    assert!(view(&[1], &[], place(true, 0, 1)).is_empty());
}
