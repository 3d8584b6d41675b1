//! "Containers out of a unit": where those stand that end in one, and what of
//! one that does not end is held.

use super::pointer::{Pointer, Taken};
use super::shape::Shape;
use super::sink::Sink;

/// Where a container that ended stands.
#[derive(Clone, Copy, Debug, PartialEq, Eq)]
pub enum Place {
    /// The done buffer.
    Done,
    /// "that part of the unit itself": 2349 bytes from this place, H1 at 0.
    Unit(usize),
}

impl Place {
    /// The bytes of the container that stands there.
    #[inline]
    pub fn container<'a>(self, shape: Shape, unit: &'a [u8], done: &'a [u8]) -> &'a [u8] {
        match self {
            Place::Done => done,
            Place::Unit(from) => &unit[from..from + shape.container()],
        }
    }
}

/// "A normal state's held count is 2349 minus 3 times the offset, or 0 at
/// offset 0; any other state's is 0."
#[inline]
pub(crate) fn held_count(shape: Shape, state: Pointer) -> usize {
    match state {
        Pointer::Normal(offset) => shape.carried(offset),
        Pointer::Alarm | Pointer::Lost => 0,
    }
}

/// Where the containers of a unit stand: "Up to two containers end in a unit."
/// Done gets what was begun earlier, held what does not end.
#[inline]
pub(crate) fn cut(
    shape: Shape,
    s: &mut Sink,
    offset: u16,
    taken: Taken,
    unit: &[u8],
    held: &mut [u8],
    done: &mut [u8],
) -> Vec<Place> {
    // "In an increment unit byte offsets 0 to 2 are skipped"; "In a decrement
    // unit the three H3 bytes carry container bytes."
    let first = match taken {
        Taken::Increment => shape.head() + shape.step,
        Taken::Decrement => shape.head() - shape.step,
        _ => shape.head(),
    };
    let mut places = Vec::new();
    let count = usize::from(s.held);
    // Where the next container begins.
    let mut at = first;
    if taken == Taken::NewData || taken == Taken::Found {
        // "New data (even at the same offset) and rule 3 drop the held bytes
        // and forget the last parity." "J1 stands at offset 3 times the value",
        // and "A new offset holds in the same unit."
        s.parity = None;
        at = first + shape.step * usize::from(offset);
    } else if count > 0 {
        // "One begun earlier is completed in the done buffer: the held bytes
        // first, and a continuation is written from the held count on."
        let rest = shape.container() - count;
        done[..count].copy_from_slice(&held[..count]);
        done[count..].copy_from_slice(&unit[first..first + rest]);
        places.push(Place::Done);
        at = first + rest;
    }
    // "One that begins and ends in this unit is handed back as that part of
    // the unit itself, not a copy."
    if unit.len() - at >= shape.container() {
        places.push(Place::Unit(at));
        at += shape.container();
    }
    // "What begins and does not end goes to the held buffer from its first
    // byte. Bytes of either buffer not named so keep their values."
    let begun = unit.len() - at;
    held[..begun].copy_from_slice(&unit[at..]);
    s.held = begun as u16;
    places
}
