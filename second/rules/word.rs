//! Pointer words: the parts of one, the reading of two bytes, and the words
//! that the source writes.

use super::shape::Shape;

/// "ten bits I D I D I D I D I D": all ten, the five I, the five D.
const VALUE_BITS: u16 = 0b11_1111_1111;
const I_BITS: u16 = 0b10_1010_1010;
const D_BITS: u16 = 0b01_0101_0101;

/// "The source writes 0110 and SS 10."
const SOURCE_NDF_AND_SS: u16 = 0b0110_10 << 10;

/// "neither 0, normal 1, enabled 2".
pub(crate) fn ndf_kind(ndf: u16) -> u16 {
    match ndf {
        // "NDF normal: 0110, 1110, 0010, 0100, 0111."
        0b0110 | 0b1110 | 0b0010 | 0b0100 | 0b0111 => 1,
        // "Enabled: 1001, 0001, 1101, 1011, 1000."
        0b1001 | 0b0001 | 0b1101 | 0b1011 | 0b1000 => 2,
        // "The other six are neither."
        _ => 0,
    }
}

/// "Pointer word (H1, H2): four NDF bits, two SS bits, ten bits", and the kind
/// of the NDF.
#[derive(Clone, Copy, Debug, PartialEq, Eq)]
pub struct Word {
    pub ndf: u16,
    pub kind: u16,
    pub ss: u16,
    pub value: u16,
}

impl Word {
    #[inline]
    pub fn of(word: u16) -> Self {
        Word {
            ndf: word >> 12,
            kind: ndf_kind(word >> 12),
            ss: (word >> 10) & 0b11,
            value: word & VALUE_BITS,
        }
    }

    /// FFFF.
    #[inline]
    pub fn is_alarm(&self) -> bool {
        (self.ndf, self.ss, self.value) == (0b1111, 0b11, VALUE_BITS)
    }

    /// "normal NDF, SS 10"
    #[inline]
    pub fn is_normal(&self) -> bool {
        self.kind == 1 && self.ss == 0b10
    }

    /// "Enabled NDF, SS 10"
    #[inline]
    pub fn is_enabled(&self) -> bool {
        self.kind == 2 && self.ss == 0b10
    }

    /// "value in range"
    #[inline]
    pub fn in_range(&self, shape: Shape) -> bool {
        self.value <= shape.last_value()
    }
}

/// "word reading answers 4096 times the NDF kind ... plus 1024 times SS plus
/// the value, and 0 unless given 2 bytes".
pub fn word_reading(bytes: &[u8]) -> u16 {
    // "0 unless given 2 bytes"
    if bytes.len() != 2 {
        return 0;
    }
    let word = Word::of(u16::from_be_bytes([bytes[0], bytes[1]]));
    4096 * word.kind + 1024 * word.ss + word.value
}

/// The word of a pointer value without adjustment: "0110 and SS 10", then the
/// value. Only the ten bits of the value are taken.
pub fn plain_word(value: u16) -> u16 {
    SOURCE_NDF_AND_SS | (value & VALUE_BITS)
}

/// "the inverted word in the unit of the adjustment": the value that stood
/// before the increment, its I bits inverted.
pub fn increment_word(value: u16) -> u16 {
    plain_word(value) ^ I_BITS
}

/// "the inverted word in the unit of the adjustment": the value that stood
/// before the decrement, its D bits inverted.
pub fn decrement_word(value: u16) -> u16 {
    plain_word(value) ^ D_BITS
}

/// How many "I bits inverted" and how many D bits: those of the word that
/// differ from the value's.
pub fn inverted(word: u16, value: u16) -> (u32, u32) {
    let differing = word ^ value;
    (
        (differing & I_BITS).count_ones(),
        (differing & D_BITS).count_ones(),
    )
}
