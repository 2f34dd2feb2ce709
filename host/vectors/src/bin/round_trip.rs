//! Writes what the test program `roundtrip` must write.

fn main() {
    print!("{}", vectors::round_trip::lines());
}
