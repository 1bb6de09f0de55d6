//! A sheet as a string of bits, the most significant bit of each byte first.

pub struct Bits {
    bits: Vec<bool>,
    at: usize,
}

impl Bits {
    pub fn of(bytes: &[u8]) -> Bits {
        let mut bits = Vec::with_capacity(bytes.len() * 8);
        for byte in bytes {
            for weight in [128, 64, 32, 16, 8, 4, 2, 1] {
                bits.push(byte & weight != 0);
            }
        }
        Bits { bits, at: 0 }
    }

    /// The next field, or nothing where the bits end before it is complete.
    pub fn field(&mut self, width: usize) -> Option<u64> {
        let field = self.bits.get(self.at..self.at + width)?;
        self.at += width;
        Some(field.iter().fold(0, |value, bit| value * 2 + u64::from(*bit)))
    }

    /// Passes over the fill of the last byte and says whether all of it is zero.
    pub fn fill_is_zero(&mut self) -> bool {
        let end = self.at.div_ceil(8) * 8;
        let zero = !self.bits[self.at..end].contains(&true);
        self.at = end;
        zero
    }

    pub fn at_end(&self) -> bool {
        self.at == self.bits.len()
    }
}

/// A value and the number of bits it takes.
#[derive(Clone, Copy, PartialEq, Eq, Debug)]
pub struct Field {
    pub value: u64,
    pub width: usize,
}

pub fn field(value: u64, width: usize) -> Field {
    Field { value, width }
}

/// The fields without gaps; zero bits fill the last byte.
pub fn pack(fields: &[Field]) -> Vec<u8> {
    let mut bits = Vec::new();
    for field in fields {
        for place in (0..field.width).rev() {
            bits.push(field.value >> place & 1 == 1);
        }
    }
    bits.chunks(8).map(byte_of).collect()
}

fn byte_of(bits: &[bool]) -> u8 {
    (0..8).fold(0, |byte, place| byte * 2 + u8::from(bits.get(place) == Some(&true)))
}
