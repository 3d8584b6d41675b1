//! The numbers in which one pointer and its container differ from another: what
//! the rules share is written once, over the step and the columns.
//!
//! The paper's words, wherever a rule quotes them, have the numbers of AU-4 with
//! VC-4. For TU-3 with VC-3 "01's other rules hold with these numbers", those of
//! `TU3`.
//!
//! Rules that take a shape are inlined: a caller says which, and its numbers are
//! constants there.

/// "9 rows", of either container.
pub const ROWS: usize = 9;

/// A pointer and its container.
#[derive(Clone, Copy, Debug, PartialEq, Eq)]
pub struct Shape {
    /// The bytes that one step of the value is worth. So many are the H3 bytes,
    /// the places that an increment skips, and the places from H1 to H2 and from
    /// there to H3.
    pub step: usize,
    /// The bytes of a row, column 1 among them.
    pub columns: usize,
}

/// "J1 stands at offset 3 times the value"; "9 rows of 261 bytes".
pub const AU4: Shape = Shape { step: 3, columns: 261 };

/// "The value runs 0 to 764 counting single bytes, and an adjustment moves one
/// byte"; "the VC-3 is 85 columns by 9".
pub const TU3: Shape = Shape { step: 1, columns: 85 };

impl Shape {
    /// "A container (VC-4) is 9 rows of 261 bytes, 2349 in all."
    #[inline]
    pub const fn container(self) -> usize {
        ROWS * self.columns
    }

    /// "The other 2340 bytes are payload, row by row."
    #[inline]
    pub const fn payload(self) -> usize {
        ROWS * (self.columns - 1)
    }

    /// "H1 Y Y H2 1* 1* H3 H3 H3"; "H1, H2, H3".
    #[inline]
    pub const fn head(self) -> usize {
        3 * self.step
    }

    /// "A unit is 2358 bytes": the head, "then 2349 bytes".
    #[inline]
    pub const fn unit(self) -> usize {
        self.head() + self.container()
    }

    /// "Value 0 to 782".
    #[inline]
    pub const fn last_value(self) -> u16 {
        (self.container() / self.step - 1) as u16
    }

    /// "782 goes up to 0".
    #[inline]
    pub const fn incremented(self, value: u16) -> u16 {
        if value == self.last_value() {
            0
        } else {
            value + 1
        }
    }

    /// "and 0 down to 782".
    #[inline]
    pub const fn decremented(self, value: u16) -> u16 {
        if value == 0 {
            self.last_value()
        } else {
            value - 1
        }
    }

    /// How much of a container the units before have carried: "2349 minus 3
    /// times the offset, or 0 at offset 0".
    #[inline]
    pub const fn carried(self, offset: u16) -> usize {
        match offset as usize {
            0 => 0,
            value => self.container() - self.step * value,
        }
    }
}
