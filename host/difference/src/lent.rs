//! Slices lent to the library, with bytes around them that nobody may touch.

/// Bytes before and after the lent slice.
const MARGIN: usize = 64;
const MARK: u8 = 0x5A;

/// A slice between two margins.
#[derive(Default)]
pub struct Lent {
    bytes: Vec<u8>,
}

impl Lent {
    pub fn new(contents: &[u8]) -> Lent {
        let margin = [MARK; MARGIN];
        Lent {
            bytes: [&margin[..], contents, &margin[..]].concat(),
        }
    }

    /// The slice to lend.
    pub fn slice(&mut self) -> &mut [u8] {
        let end = self.bytes.len().saturating_sub(MARGIN).max(MARGIN);
        self.bytes.get_mut(MARGIN..end).unwrap_or_default()
    }

    pub fn contents(&self) -> &[u8] {
        let end = self.bytes.len().saturating_sub(MARGIN).max(MARGIN);
        self.bytes.get(MARGIN..end).unwrap_or_default()
    }

    /// Says where the slice is not what it must be, or that a margin changed.
    pub fn check(&self, name: &str, expected: &[u8]) -> Result<(), String> {
        let contents = self.contents();
        if contents != expected {
            let differing = contents.iter().zip(expected).position(|(a, b)| a != b);
            let at = differing.unwrap_or(contents.len().min(expected.len()));
            return Err(format!(
                "{name}, byte {at}: library {:?}, reference {:?}",
                contents.get(at),
                expected.get(at)
            ));
        }
        let (front, back) = (
            self.bytes.get(..MARGIN).unwrap_or_default(),
            self.bytes
                .get(MARGIN + contents.len()..)
                .unwrap_or_default(),
        );
        if front.iter().chain(back).any(|&byte| byte != MARK) {
            return Err(format!("{name}: a byte beside the lent slice was written"));
        }
        Ok(())
    }
}

#[cfg(test)]
mod tests {
    use super::*;

    #[test]
    fn changes_are_seen() {
        let mut lent = Lent::new(&[1, 2, 3]);
        assert_eq!(lent.slice(), [1, 2, 3]);
        assert_eq!(lent.check("memory", &[1, 2, 3]), Ok(()));
        assert!(lent.check("memory", &[1, 2, 4]).is_err());
        assert!(lent.check("memory", &[1, 2]).is_err());
        for at in [0, MARGIN - 1, MARGIN + 3, 2 * MARGIN + 2] {
            let mut lent = Lent::new(&[1, 2, 3]);
            lent.bytes[at] ^= 1;
            assert!(lent.check("memory", &[1, 2, 3]).is_err(), "{at}");
        }
    }
}
