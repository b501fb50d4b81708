//! Fields of bits, the most significant bit first.

use crate::refusal::{Fault, Refusal};

pub struct Reader<'a> {
    bytes: &'a [u8],
    bit: usize,
}

impl<'a> Reader<'a> {
    pub fn new(bytes: &'a [u8]) -> Reader<'a> {
        Reader { bytes, bit: 0 }
    }

    /// The bit of the next field.
    pub fn bit(&self) -> usize {
        self.bit
    }

    /// The next fields, of at most 16 bits each and 64 in all. Where the bytes end too soon, the first that is cut is refused.
    pub fn record<const N: usize>(&mut self, widths: [u32; N]) -> Result<[u16; N], Refusal> {
        let left = self.bytes.len() * 8 - self.bit;
        if (widths.iter().sum::<u32>() as usize) > left {
            return Err(self.cut(left, &widths));
        }
        let mut window = self.window();
        Ok(widths.map(|width| {
            let field = (window >> (64 - width)) as u16;
            window <<= width;
            self.bit += width as usize;
            field
        }))
    }

    /// The next field, of 1 to 16 bits.
    pub fn field(&mut self, width: u32) -> Result<u16, Refusal> {
        self.record([width]).map(|[field]| field)
    }

    fn cut(&self, left: usize, widths: &[u32]) -> Refusal {
        let mut end = 0;
        for &width in widths {
            let start = end;
            end += width as usize;
            if end > left {
                return Fault::Cut.at_bit(self.bit + start);
            }
        }
        unreachable!("some field goes past the end")
    }

    /// The next 64 bits, with zeros past the end.
    fn window(&self) -> u64 {
        let rest = &self.bytes[self.bit / 8..];
        let word = match rest.first_chunk() {
            Some(chunk) => u128::from_be_bytes(*chunk),
            None => {
                let mut padded = [0; 16];
                padded[..rest.len()].copy_from_slice(rest);
                u128::from_be_bytes(padded)
            }
        };
        (word << (self.bit % 8) >> 64) as u64
    }
}

#[derive(Default)]
pub struct Writer {
    bytes: Vec<u8>,
    /// The bits past the last whole byte, fewer than eight.
    pending: u64,
    count: u32,
}

impl Writer {
    pub fn with_capacity(bytes: usize) -> Writer {
        Writer { bytes: Vec::with_capacity(bytes), ..Writer::default() }
    }

    /// Fields, each with its width, of 64 bits in all at most.
    pub fn record<const N: usize>(&mut self, fields: [(u32, u16); N]) {
        let (mut width, mut value) = (0, 0);
        for (bits, field) in fields {
            value = value << bits | u64::from(field);
            width += bits;
        }
        let count = self.count + width;
        let all = u128::from(self.pending) << width | u128::from(value);
        let whole = (count / 8) as usize;
        self.bytes.extend_from_slice(&(all << (128 - count)).to_be_bytes()[..whole]);
        self.count = count % 8;
        self.pending = all as u64 & ((1 << self.count) - 1);
    }

    /// The bytes so far, the last one filled with zeros.
    pub fn finish(mut self) -> Vec<u8> {
        if self.count > 0 {
            self.record([(8 - self.count, 0)]);
        }
        self.bytes
    }
}
