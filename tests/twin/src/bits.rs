//! Bit-packed fields, most significant bit first: a cursor that reads them and a writer.

/// A reading position in bytes.
pub struct BitCursor<'a> {
    bytes: &'a [u8],
    position: usize,
}

/// The bits of the window that `peek` cuts a field from.
const WINDOW: u32 = u32::BITS;

impl<'a> BitCursor<'a> {
    /// The position before the first bit.
    pub fn new(bytes: &'a [u8]) -> Self {
        BitCursor { bytes, position: 0 }
    }

    /// The count of bits before the position.
    pub fn position(&self) -> usize {
        self.position
    }

    /// The count of bits after the position.
    pub fn left(&self) -> usize {
        self.bytes.len() * 8 - self.position
    }

    /// The value of the next `width` bits, 1 to 16 of them, with zeros for those after the end.
    pub fn peek(&self, width: u32) -> u16 {
        let rest = &self.bytes[self.position / 8..];
        let window = match rest.first_chunk() {
            Some(bytes) => u32::from_be_bytes(*bytes),
            None => u32::from_be_bytes(padded(rest)),
        };
        (window << (self.position % 8) >> (WINDOW - width)) as u16
    }

    /// Moves on by `width` bits, no more than are left.
    pub fn skip(&mut self, width: u32) {
        self.position += width as usize;
    }
}

/// Fewer than four bytes, followed by zeros.
fn padded(rest: &[u8]) -> [u8; 4] {
    let mut bytes = [0; 4];
    bytes[..rest.len()].copy_from_slice(rest);
    bytes
}

/// A writing position in bytes; the last bits written are held back until four bytes are full.
pub struct BitWriter<'a> {
    bytes: &'a mut [u8],
    written: usize,
    held: u64,
    held_bits: u32,
}

impl<'a> BitWriter<'a> {
    /// The position before the first bit.
    pub fn new(bytes: &'a mut [u8]) -> Self {
        BitWriter { bytes, written: 0, held: 0, held_bits: 0 }
    }

    /// Appends the `width` low bits of a value, 1 to 16 of them, the others being 0.
    pub fn put(&mut self, value: u16, width: u32) {
        self.held = self.held << width | u64::from(value);
        self.held_bits += width;
        if self.held_bits >= WINDOW {
            self.held_bits -= WINDOW;
            let full = (self.held >> self.held_bits) as u32;
            self.bytes[self.written..self.written + 4].copy_from_slice(&full.to_be_bytes());
            self.written += 4;
        }
    }

    /// Appends zero bits up to the next whole byte; hands back the count of bytes written.
    pub fn finish(self) -> usize {
        let full = (self.held << (WINDOW - self.held_bits)) as u32;
        let count = self.held_bits.div_ceil(8) as usize;
        self.bytes[self.written..self.written + count].copy_from_slice(&full.to_be_bytes()[..count]);
        self.written + count
    }
}
