//! The pieces that a peer has, as they come over the wire: bit i is in byte i / 8, high bit first.

use crate::Refusal;

/// The most pieces that a picker has.
const MOST_PIECES: usize = 4096;

/// Bits and their number. A pick refuses one that does not fit its picker with 11.
#[derive(Clone, Debug, Default, PartialEq, Eq, Hash)]
pub struct Bitfield {
    buf: Vec<u8>,
    bits: usize,
}

impl Bitfield {
    /// So many bits, all 0. More bits than a picker can have pieces are refused with 11.
    pub fn with_size(bits: usize) -> Result<Self, Refusal> {
        Self::with_value(bits, false)
    }

    /// So many bits, all `val`. More bits than a picker can have pieces are refused with 11.
    pub fn with_value(bits: usize, val: bool) -> Result<Self, Refusal> {
        if bits > MOST_PIECES {
            return Err(Refusal::PickArguments);
        }
        Ok(Self { buf: vec![if val { 0xff } else { 0 }; bits.div_ceil(8)], bits })
    }

    /// Any bytes and any number of bits; whether they fit each other is for the pick to judge.
    #[must_use]
    pub fn from_bytes(data: &[u8], bits: usize) -> Self {
        Self { buf: data.to_vec(), bits }
    }

    /// Bit `index`; past the end it is false.
    #[must_use]
    pub fn get_bit(&self, index: usize) -> bool {
        index < self.bits && self.buf.get(index / 8).is_some_and(|byte| byte & 0x80 >> (index % 8) != 0)
    }

    /// Sets bit `index`; past the end nothing happens.
    pub fn set_bit(&mut self, index: usize) {
        if let Some(byte) = self.byte(index) {
            *byte |= 0x80 >> (index % 8);
        }
    }

    /// Clears bit `index`; past the end nothing happens.
    pub fn clear_bit(&mut self, index: usize) {
        if let Some(byte) = self.byte(index) {
            *byte &= !(0x80 >> (index % 8));
        }
    }

    /// The number of bits.
    #[must_use]
    pub fn size(&self) -> usize {
        self.bits
    }

    /// The bytes. Spare bits of the last one mean nothing.
    #[must_use]
    pub fn bytes(&self) -> &[u8] {
        &self.buf
    }

    fn byte(&mut self, index: usize) -> Option<&mut u8> {
        if index < self.bits {
            self.buf.get_mut(index / 8)
        } else {
            None
        }
    }
}
