//! Units: the source that writes one out of the current container and the next.

use super::counts::{up, LONGEST_WAIT};
use super::refusal::Refusal;
use super::shape::Shape;
use super::word::{decrement_word, increment_word, plain_word};

/// "The source writes Y = 9B and 1* = FF, and 00 in unused H3 or skipped
/// places".
const Y: u8 = 0x9B;
const ONE_STAR: u8 = 0xFF;
const UNUSED: u8 = 0x00;

/// What a unit source is asked for beside the bytes.
#[derive(Clone, Copy, Debug, PartialEq, Eq)]
pub enum Asked {
    Nothing,
    Increment,
    Decrement,
}

/// State of a unit source: the offset, a pointer value, and the units since the
/// last adjustment, of which no more than three are counted ("wait 3").
#[derive(Clone, Copy, Debug, PartialEq, Eq)]
pub struct UnitSource {
    pub offset: u16,
    pub wait: u8,
}

impl UnitSource {
    /// "Fresh, it stands at offset 0, free to adjust".
    pub fn fresh() -> Self {
        UnitSource {
            offset: 0,
            wait: LONGEST_WAIT,
        }
    }
}

/// Writes one unit out of "the current container and the next, and says how
/// many of them ended"; the refusal otherwise, in the order "8, 3, 1, 7". A
/// refused call is no unit.
#[inline(always)]
pub fn unit_source(
    shape: Shape,
    s: UnitSource,
    asked: Asked,
    current: &[u8],
    next: &[u8],
    unit: &mut [u8],
) -> Result<(u8, UnitSource), Refusal> {
    // 8: "a state number outside its range"
    if s.offset > shape.last_value() || s.wait > LONGEST_WAIT {
        return Err(Refusal::of(8));
    }
    // 3: "a container ... not 2349 bytes", be it sent or not
    if current.len() != shape.container() || next.len() != shape.container() {
        return Err(Refusal::of(3));
    }
    // 1: "unit not 2358 bytes"
    if unit.len() != shape.unit() {
        return Err(Refusal::of(1));
    }
    // 7: "adjustment asked with fewer than three units since the last"
    if asked != Asked::Nothing && s.wait < LONGEST_WAIT {
        return Err(Refusal::of(7));
    }

    // "The source sends the inverted word in the unit of the adjustment and the
    // new value from the next."
    let (word, first, offset) = match asked {
        Asked::Nothing => (plain_word(s.offset), shape.head(), s.offset),
        // "In an increment unit byte offsets 0 to 2 are skipped"
        Asked::Increment => (
            increment_word(s.offset),
            shape.head() + shape.step,
            shape.incremented(s.offset),
        ),
        // "In a decrement unit the three H3 bytes carry container bytes."
        Asked::Decrement => (
            decrement_word(s.offset),
            shape.head() - shape.step,
            shape.decremented(s.offset),
        ),
    };

    // "H1 Y Y H2 1* 1*"; what is 00 behind them stays so up to the first place
    // that carries.
    let [h1, h2] = word.to_be_bytes();
    let (head, carrying) = unit.split_at_mut(first);
    let (pointer, unused) = head.split_at_mut(2 * shape.step);
    let (from_h1, from_h2) = pointer.split_at_mut(shape.step);
    from_h1.fill(Y);
    from_h1[0] = h1;
    from_h2.fill(ONE_STAR);
    from_h2[0] = h2;
    unused.fill(UNUSED);

    // The rest of the current container, then the next, until the unit is full.
    let rest = &current[shape.carried(s.offset)..];
    let from_current = rest.len().min(carrying.len());
    let (ending, beginning) = carrying.split_at_mut(from_current);
    ending.copy_from_slice(&rest[..from_current]);
    beginning.copy_from_slice(&next[..beginning.len()]);
    let ended = u8::from(from_current == rest.len()) + u8::from(beginning.len() == next.len());

    let wait = match asked {
        Asked::Nothing => up(s.wait, LONGEST_WAIT),
        Asked::Increment | Asked::Decrement => 0,
    };
    Ok((ended, UnitSource { offset, wait }))
}
