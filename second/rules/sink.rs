//! The sink: its state, what it answers at a unit's end, and the call that
//! feeds it one.

use super::super::coverage::{self, Note};
use super::counts::{LAST_PLACE, MOST_EQUAL, MOST_MESSAGES, MOST_WITHOUT};
use super::cut::{cut, held_count};
use super::monitor::{Ended, Watch};
use super::pointer::{Pointer, PointerReader};
use super::refusal::Refusal;
use super::shape::Shape;
use super::trace::trace_fault;
use super::word::Word;

/// State of a sink.
#[derive(Clone, Debug, PartialEq, Eq)]
pub struct Sink {
    pub pointer: PointerReader,
    /// How many bytes of a container are held.
    pub held: u16,
    /// "last parity"
    pub parity: Option<u8>,
    /// The label of the containers before, how many had it, and the accepted.
    pub label: u8,
    pub label_run: u8,
    pub accepted_label: Option<u8>,
    pub plm: bool,
    pub uneq: Watch,
    pub remote: Watch,
    /// The message under way: the place of the next byte, 0 outside any, and
    /// the bytes before it.
    pub place: u8,
    pub message: [u8; 16],
    /// The last good message's characters, how many equal ones came, and the
    /// accepted.
    pub characters: [u8; 15],
    pub message_run: u8,
    pub accepted_trace: Option<[u8; 15]>,
    pub tim: bool,
    /// "containers without a message"
    pub without: u8,
    /// "The unsettled total".
    pub unsettled: u16,
}

/// The sink's settings: expected label and trace, "its four flags as yes or
/// no".
#[derive(Clone, Copy, Debug, PartialEq, Eq)]
pub struct Expected {
    pub label: u8,
    pub trace: [u8; 15],
    pub monitored: bool,
    pub rdi_reported: bool,
    pub ssf_reported: bool,
    pub ais_reported: bool,
}

/// What the sink answers for a unit.
#[derive(Clone, Debug, PartialEq, Eq)]
pub struct Answer {
    pub ended: Vec<Ended>,
    pub ssf: bool,
    pub tsf: bool,
    pub ais: bool,
    pub rdi: bool,
    /// dUNEQ, dTIM, dPLM, dRDI.
    pub defects: [bool; 4],
    /// cAIS, cLOP, cSSF, cUNEQ, cTIM, cRDI, cPLM.
    pub causes: [bool; 7],
    pub settled: bool,
}

impl Sink {
    /// "it starts lost, the wait 3, all else 0 or none".
    pub fn fresh() -> Self {
        Sink {
            pointer: PointerReader::fresh(),
            held: 0,
            parity: None,
            label: 0,
            label_run: 0,
            accepted_label: None,
            plm: false,
            uneq: Watch::NONE,
            remote: Watch::NONE,
            place: 0,
            message: [0; 16],
            characters: [0; 15],
            message_run: 0,
            accepted_trace: None,
            tim: false,
            without: 0,
            unsettled: 0,
        }
    }

    /// "a state number outside its range, or a held count other than the one
    /// above" is refused.
    #[inline]
    pub(crate) fn well_formed(&self, shape: Shape) -> bool {
        self.pointer.in_range(shape)
            && usize::from(self.held) == held_count(shape, self.pointer.state)
            && self.label_run <= MOST_EQUAL
            && self.uneq.run <= MOST_EQUAL
            && self.remote.run <= MOST_EQUAL
            && self.place <= LAST_PLACE
            && self.message_run <= MOST_MESSAGES
            && self.without <= MOST_WITHOUT
    }

    /// "It clears held count, parity, accepted values, defects, message place
    /// and run, the count to 48, label and defect runs, but not the pointer's
    /// own runs and wait or the unsettled total."
    fn clear(&mut self) {
        *self = Sink {
            pointer: self.pointer,
            // "also where a clearing put the count at 48"
            without: MOST_WITHOUT,
            unsettled: self.unsettled,
            ..Sink::fresh()
        };
    }

    /// "Actions and causes are taken at the unit's end".
    fn answer(&mut self, ended: Vec<Ended>, expected: &Expected) -> Answer {
        let state = self.pointer.state;
        let (uneq, tim, plm, remote) = (self.uneq.stands, self.tim, self.plm, self.remote.stands);
        // "A unit that ends in alarm or lost has SSF"
        let ssf = !matches!(state, Pointer::Normal(_));
        // "TSF = SSF or dUNEQ or dTIM. AIS = TSF or dPLM. RDI = TSF."
        let tsf = ssf || uneq || tim;
        let ais = tsf || plm;
        let rdi = tsf;
        let causes = [
            // "cAIS = alarm and AIS reported; cLOP = lost; cSSF = SSF,
            // monitored, SSF reported"
            state == Pointer::Alarm && expected.ais_reported,
            state == Pointer::Lost,
            ssf && expected.monitored && expected.ssf_reported,
            // "cUNEQ = dUNEQ, monitored; cTIM = dTIM, not dUNEQ, monitored"
            uneq && expected.monitored,
            tim && !uneq && expected.monitored,
            // "cRDI = dRDI, not dUNEQ, not dTIM, monitored, RDI reported"
            remote && !uneq && !tim && expected.monitored && expected.rdi_reported,
            // "cPLM = dPLM and not TSF"
            plm && !tsf,
        ];
        // "A unit ends settled if the state is normal, none of the four defects
        // stands, and accepted label and trace are the expected ones."
        let settled = !ssf
            && !uneq
            && !tim
            && !plm
            && !remote
            && self.accepted_label == Some(expected.label)
            && self.accepted_trace == Some(expected.trace);
        // "The unsettled total counts all other units since the fresh state
        // and stays at 65,535."
        if !settled {
            self.unsettled = self.unsettled.saturating_add(1);
        }
        Answer {
            ended,
            ssf,
            tsf,
            ais,
            rdi,
            defects: [uneq, tim, plm, remote],
            causes,
            settled,
        }
    }
}

/// The sink fed one unit: the new state and the answer, or the refusal, in the
/// order "8, 4, 5, 1, 3", 20 and 21 "in the place of 5". "A refusal returns its
/// number and the old state. Nothing lent is written."
#[inline(always)]
pub fn sink(
    shape: Shape,
    s: &Sink,
    expected: &Expected,
    unit: &[u8],
    held: &mut [u8],
    done: &mut [u8],
    note: Note,
) -> Result<(Sink, Answer), Refusal> {
    // 8: "a state number outside its range, or a held count other than the one
    // above"
    if !s.well_formed(shape) {
        return Err(Refusal::of(8));
    }
    // 4: "expected ... label 00 or FF"
    if expected.label == 0x00 || expected.label == 0xFF {
        return Err(Refusal::of(4));
    }
    // 5, 20, 21: the expected trace
    if let Some(refusal) = trace_fault(&expected.trace) {
        return Err(refusal);
    }
    // 1: "unit not 2358 bytes"
    if unit.len() != shape.unit() {
        return Err(Refusal::of(1));
    }
    // 3: "a ... held or done buffer not 2349 bytes"
    if held.len() != shape.container() || done.len() != shape.container() {
        return Err(Refusal::of(3));
    }

    let mut after = s.clone();
    // "H1 Y Y H2"
    let word = Word::of(u16::from_be_bytes([unit[0], unit[shape.step]]));
    let taken = after.pointer.read(shape, word);
    coverage::word(shape, &s.pointer, word, taken, &after.pointer, note);
    let mut ended = Vec::new();
    match after.pointer.state {
        // "A unit that ends in alarm or lost has SSF and hands back nothing."
        Pointer::Alarm | Pointer::Lost => {
            after.clear();
            coverage::cleared(s, note);
        }
        Pointer::Normal(offset) => {
            let places = cut(shape, &mut after, offset, taken, unit, held, done);
            coverage::cut(s, taken, &places, &after, note);
            for place in places {
                let container = place.container(shape, unit, done);
                let before = after.clone();
                ended.push(after.examine(shape, container, place, expected));
                coverage::container(shape, &before, container, &after, note);
            }
        }
    }
    let answer = after.answer(ended, expected);
    coverage::end(&after, expected, &answer, note);
    Ok((after, answer))
}
