//! Fields of bits, most significant first.

pub struct Reader<'a> {
    bytes: &'a [u8],
    place: usize,
}

impl<'a> Reader<'a> {
    pub fn new(bytes: &'a [u8]) -> Self {
        Reader { bytes, place: 0 }
    }

    /// The next field, or nothing where the bytes end inside it.
    pub fn field(&mut self, width: usize) -> Option<u64> {
        if self.place + width > 8 * self.bytes.len() {
            return None;
        }
        let mut value = 0;
        for i in self.place..self.place + width {
            value = value << 1 | u64::from(self.bytes[i / 8] >> (7 - i % 8) & 1);
        }
        self.place += width;
        Some(value)
    }

    /// Is what is left less than a byte, and zero?
    pub fn only_fill_left(&mut self) -> bool {
        let left = 8 * self.bytes.len() - self.place;
        left < 8 && self.field(left) == Some(0)
    }
}

#[derive(Default)]
pub struct Writer {
    bytes: Vec<u8>,
    bits: usize,
}

impl Writer {
    pub fn field(&mut self, width: usize, value: u64) {
        for i in (0..width).rev() {
            if self.bits.is_multiple_of(8) {
                self.bytes.push(0);
            }
            *self.bytes.last_mut().unwrap() |= ((value >> i & 1) as u8) << (7 - self.bits % 8);
            self.bits += 1;
        }
    }

    pub fn place(&self) -> usize {
        self.bits
    }

    pub fn bytes(self) -> Vec<u8> {
        self.bytes
    }
}

/// Writes a value over the field of `width` bits at `place`.
pub fn patch(bytes: &mut [u8], place: usize, width: usize, value: u64) {
    for i in 0..width {
        let at = place + i;
        let mask = 1 << (7 - at % 8);
        if value >> (width - 1 - i) & 1 == 1 {
            bytes[at / 8] |= mask;
        } else {
            bytes[at / 8] &= !mask;
        }
    }
}

pub fn hex(bytes: &[u8]) -> String {
    bytes.iter().map(|b| format!("{b:02x}")).collect()
}

pub fn unhex(text: &str) -> Option<Vec<u8>> {
    if !text.len().is_multiple_of(2) || !text.is_ascii() {
        return None;
    }
    (0..text.len())
        .step_by(2)
        .map(|i| u8::from_str_radix(&text[i..i + 2], 16).ok())
        .collect()
}
