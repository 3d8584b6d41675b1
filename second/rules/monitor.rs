//! What the sink makes of each container that ended: parity, label, remote
//! defect, trace.

use super::counts::{up, LAST_PLACE, MOST_EQUAL, MOST_MESSAGES, MOST_WITHOUT};
use super::cut::Place;
use super::parity::{columns, parity, violations};
use super::shape::Shape;
use super::sink::{Expected, Sink};
use super::trace::trace_check;

/// "set by five ..., cleared by five that are not": what the last containers
/// said, how many in a row, and whether the defect stands.
#[derive(Clone, Copy, Debug, PartialEq, Eq)]
pub struct Watch {
    pub last: bool,
    pub run: u8,
    pub stands: bool,
}

impl Watch {
    pub(crate) const NONE: Watch = Watch {
        last: false,
        run: 0,
        stands: false,
    };

    fn see(&mut self, says: bool) {
        self.run = if self.run > 0 && self.last == says {
            up(self.run, MOST_EQUAL)
        } else {
            1
        };
        self.last = says;
        if self.run >= MOST_EQUAL {
            self.stands = says;
        }
    }
}

/// One container that ended.
#[derive(Clone, Copy, Debug, PartialEq, Eq)]
pub struct Ended {
    pub place: Place,
    /// "Which bit columns" the parity comparison found violated.
    pub columns: u8,
    /// "the violations returned (received 9 to 15 read as 0)"
    pub returned: u8,
}

impl Ended {
    /// "REI = violations"
    pub fn violations(&self) -> u8 {
        violations(self.columns)
    }
}

/// "Column 1 holds J1, B3, C2, G1, ... from the top": those that the sink
/// examines.
#[derive(Clone, Copy, Debug, PartialEq, Eq)]
pub(crate) struct Overhead {
    pub j1: u8,
    pub b3: u8,
    pub c2: u8,
    pub g1: u8,
}

impl Overhead {
    #[inline]
    pub fn of(shape: Shape, container: &[u8]) -> Self {
        let column = |row: usize| container[row * shape.columns];
        Overhead {
            j1: column(0),
            b3: column(1),
            c2: column(2),
            g1: column(3),
        }
    }

    /// "G1: bits 1-4 the violations returned"
    pub fn returned_bits(&self) -> u8 {
        self.g1 >> 4
    }

    /// "bit 5 remote defect"
    pub fn remote_bit(&self) -> bool {
        self.g1 & 0x08 != 0
    }
}

impl Sink {
    /// One container that ended, "Per container, in order".
    #[inline]
    pub(crate) fn examine(&mut self, shape: Shape, container: &[u8], place: Place, expected: &Expected) -> Ended {
        let overhead = Overhead::of(shape, container);

        let columns = columns(overhead.b3, self.parity);
        self.parity = Some(parity(container));

        self.label(overhead.c2, expected);
        // "dRDI: set by five with the bit, cleared by five without."
        self.remote.see(overhead.remote_bit());
        self.trace(overhead.j1, expected);

        Ended {
            place,
            columns,
            // "received 9 to 15 read as 0"
            returned: match overhead.returned_bits() {
                bits @ 0..=8 => bits,
                _ => 0,
            },
        }
    }

    /// "Label accepted after five equal. dPLM: accepted and not the expected
    /// one. dUNEQ: set by five 00, cleared by five that are not."
    fn label(&mut self, c2: u8, expected: &Expected) {
        if self.label_run > 0 && self.label == c2 {
            self.label_run = up(self.label_run, MOST_EQUAL);
        } else {
            self.label_run = 1;
            self.label = c2;
        }
        if self.label_run >= MOST_EQUAL {
            self.accepted_label = Some(c2);
        }
        self.plm = match self.accepted_label {
            Some(label) => label != expected.label,
            None => false,
        };
        self.uneq.see(c2 == 0x00);
    }

    /// The next byte of a message: "a good message is a start byte, 15 bytes
    /// with top bit 0, right check. A set top bit always starts one anew. A cut
    /// or wrong one, or a byte outside any, sets the message run to 0." Whether
    /// a good one ended.
    fn message_byte(&mut self, j1: u8) -> bool {
        if j1 & 0x80 != 0 {
            if self.place > 0 {
                self.message_run = 0;
            }
            self.message[0] = j1;
            self.place = 1;
            return false;
        }
        if self.place == 0 {
            self.message_run = 0;
            return false;
        }
        self.message[usize::from(self.place)] = j1;
        if self.place < LAST_PLACE {
            self.place += 1;
            return false;
        }
        self.place = 0;
        let good = trace_check(&self.message);
        if !good {
            self.message_run = 0;
        }
        good
    }

    /// The trace, of the messages and of the containers without one.
    fn trace(&mut self, j1: u8, expected: &Expected) {
        if self.message_byte(j1) {
            let mut characters = [0; 15];
            characters.copy_from_slice(&self.message[1..]);
            if self.message_run > 0 && self.characters == characters {
                self.message_run = up(self.message_run, MOST_MESSAGES);
            } else {
                self.message_run = 1;
                self.characters = characters;
            }
            // "A good message puts the count to 0, whatever it was, and its
            // container is not one without."
            self.without = 0;
            // "At a run of three or more equal ones the message is accepted,
            // and dTIM becomes: accepted differs from expected."
            if self.message_run >= 3 {
                self.accepted_trace = Some(characters);
                self.tim = characters != expected.trace;
            }
        } else {
            // "48 containers without a good message set dTIM and the message
            // run to 0, and so does each later one without, also where a
            // clearing put the count at 48."
            self.without = up(self.without, MOST_WITHOUT);
            if self.without >= MOST_WITHOUT {
                self.tim = true;
                self.message_run = 0;
            }
        }
    }
}
