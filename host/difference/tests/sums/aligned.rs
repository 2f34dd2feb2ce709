//! Slices that lie at a given offset from a 64-byte border.

/// What the offsets of the slices are counted from.
pub const BORDER: usize = 64;

/// Bytes beside a slice, which count in no sum and which nobody may write.
const MARGIN: usize = 64;

/// A word of it changes every sum, as one of 0x0000 or of 0xFFFF would not.
pub const MARK: u8 = 0x5B;

/// Room for one slice at a time.
pub struct Aligned {
    bytes: Vec<u8>,
    border: usize,
}

impl Aligned {
    /// Room for slices of up to `longest` bytes.
    pub fn new(longest: usize) -> Aligned {
        let bytes = vec![MARK; BORDER + MARGIN + BORDER + longest + MARGIN];
        let behind = bytes.as_ptr() as usize + MARGIN;
        let border = MARGIN + behind.next_multiple_of(BORDER) - behind;
        Aligned { bytes, border }
    }

    /// A slice at this offset, with marks in it and around it.
    pub fn marked(&mut self, offset: usize, length: usize) -> &mut [u8] {
        let start = self.border + offset;
        self.bytes[start - MARGIN..start + length + MARGIN].fill(MARK);
        let slice = &mut self.bytes[start..start + length];
        assert_eq!(slice.as_ptr() as usize % BORDER, offset, "not aligned");
        slice
    }

    /// These bytes at this offset and `trailing` marks behind them.
    pub fn lend(&mut self, offset: usize, bytes: &[u8], trailing: usize) -> &[u8] {
        let slice = self.marked(offset, bytes.len() + trailing);
        slice[..bytes.len()].copy_from_slice(bytes);
        slice
    }

    /// The slice that was made last, if the marks around it still stand.
    pub fn written(&self, offset: usize, length: usize) -> Option<&[u8]> {
        let (start, end) = (self.border + offset, self.border + offset + length);
        let before = &self.bytes[start - MARGIN..start];
        let behind = &self.bytes[end..end + MARGIN];
        let mut beside = before.iter().chain(behind);
        beside
            .all(|&byte| byte == MARK)
            .then_some(&self.bytes[start..end])
    }
}
