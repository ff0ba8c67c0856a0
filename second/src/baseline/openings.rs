//! Openings as they stand in a slice or in block 0: a word of bits, then 32 values.

pub const BYTES: usize = 132;

/// The bits, and the figure of each object.
#[derive(Clone, Copy)]
pub struct Openings {
    bits: u32,
    /// 0 where the bit is clear.
    pub figures: [u32; 32],
}

pub const NONE: Openings = Openings { bits: 0, figures: [0; 32] };

impl Openings {
    pub fn new(bytes: &[u8; BYTES]) -> Openings {
        let (words, _) = bytes.as_chunks::<4>();
        let figures = std::array::from_fn(|object| u32::from_le_bytes(words[1 + object]));
        Openings { bits: u32::from_le_bytes(words[0]), figures }
    }

    /// All bits of the values under clear bits together, so that nothing branches.
    pub fn has_value_under_clear_bit(&self) -> bool {
        let mut under = 0;
        for (object, figure) in self.figures.iter().enumerate() {
            under |= figure & self.bit(object).wrapping_sub(1);
        }
        under != 0
    }

    /// 1 where an object below 32 has an opening.
    #[inline]
    pub fn bit(&self, object: usize) -> u32 {
        self.bits >> object & 1
    }

    #[inline]
    pub fn of(&self, object: usize) -> Option<u32> {
        (object < 32 && self.bit(object) == 1).then(|| self.figures[object])
    }
}
