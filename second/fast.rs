//! The core of the second program once more, made as fast as plain Rust at
//! release allows: the sink, the container source, the unit source, the payload
//! call and parity; and the spreadsheet. The rules, with the paper's words, stand
//! in second/rules; here are none that are not there. For every call answers,
//! states and buffers are the same, and the tests below ask both.
//!
//! Its core is the rival of the base and stays so: AU-4 alone, by the base rules. A
//! later request changes it only where that costs nothing. So it knows a
//! refusal's number and not the places: with these each call would take longer.
//! The spreadsheet is one request's alone.
//!
//! States are changed in place, nothing is allocated, bytes go by
//! `copy_from_slice`, and parity is taken 32 bytes at a time. A sink at rest
//! that is fed a plain unit, as nearly all are, has a way of its own.

// A program that takes this file as a module need not use all of it.
#![allow(dead_code)]
#![forbid(unsafe_code)]

use crate::second::{
    self, decrement_word, increment_word, inverted, plain_word, Asked, ContainerSource, Expected, Given, Pointer,
    PointerReader, Sink, Taken, UnitSource, Watch, AU4, LONGEST_CATALOGUE, LONGEST_SHEET_LINE, MOST_LINES, RECORD_LENGTH, ROWS,
};

const ROW_LENGTH: usize = AU4.columns;
const CONTAINER_LENGTH: usize = AU4.container();
const PAYLOAD_LENGTH: usize = AU4.payload();
const UNIT_LENGTH: usize = AU4.unit();

type Container = [u8; CONTAINER_LENGTH];
type Payload = [u8; PAYLOAD_LENGTH];
type Unit = [u8; UNIT_LENGTH];

const HEAD_LENGTH: usize = UNIT_LENGTH - CONTAINER_LENGTH;
const STEP: usize = AU4.step;
const LAST_VALUE: u16 = AU4.last_value();
const LAST_PLACE: u8 = 15;
const MOST_WITHOUT: u8 = 48;

// ---------------------------------------------------------------------------
// Bytes
// ---------------------------------------------------------------------------

/// The eight bytes from this place on.
#[inline(always)]
fn eight(bytes: &[u8], from: usize) -> u64 {
    let mut word = [0; 8];
    word.copy_from_slice(&bytes[from..from + 8]);
    u64::from_le_bytes(word)
}

/// Parity of eight bytes.
#[inline(always)]
fn fold_eight(word: u64) -> u8 {
    let word = word ^ (word >> 32);
    let word = word ^ (word >> 16);
    (word ^ (word >> 8)) as u8
}

/// How many bytes are folded at a time: two vectors of the least x86-64.
const FOLD: usize = 32;

/// Parity of eight bytes or more.
#[inline(always)]
fn fold(bytes: &[u8]) -> u8 {
    let mut sums = [0; FOLD];
    for chunk in bytes.chunks_exact(FOLD) {
        for (sum, byte) in sums.iter_mut().zip(chunk) {
            *sum ^= byte;
        }
    }
    let sum = sums.iter().fold(0, |sum, byte| sum ^ byte);

    // What is left: eight at a time, then the last ones out of the last eight.
    let rest = &bytes[bytes.len() - bytes.len() % FOLD..];
    let mut words = 0;
    for word in rest.chunks_exact(8) {
        words ^= eight(word, 0);
    }
    let left = bytes.len() % 8;
    if left > 0 {
        words ^= eight(bytes, bytes.len() - 8) >> (64 - 8 * left);
    }
    sum ^ fold_eight(words)
}

/// The same for a length that is known beforehand, so that no loop is left.
#[inline(never)]
fn fold_all<const LENGTH: usize>(bytes: &[u8; LENGTH]) -> u8 {
    fold(bytes)
}

/// Parity of what follows the head of a unit: that of the whole unit, which
/// begins at a better place in memory, without that of the head.
#[inline(always)]
fn fold_behind_head(unit: &Unit) -> u8 {
    fold_all(unit) ^ fold_eight(eight(unit, 0)) ^ unit[8]
}

pub fn parity(bytes: &[u8]) -> u8 {
    match <&Container>::try_from(bytes) {
        Ok(container) => fold_all(container),
        Err(_) if bytes.len() >= 8 => fold(bytes),
        Err(_) => bytes.iter().fold(0, |sum, byte| sum ^ byte),
    }
}

/// Copies, in halves where it is much: above 2048 bytes the C library may
/// leave its vector loop for a string move, which is the slower one here.
#[inline(always)]
fn copy(from: &[u8], to: &mut [u8]) {
    if to.len() > 2048 {
        let half = to.len() / 2;
        let (from_first, from_second) = from.split_at(half);
        let (to_first, to_second) = to.split_at_mut(half);
        to_first.copy_from_slice(from_first);
        to_second.copy_from_slice(from_second);
    } else {
        to.copy_from_slice(from);
    }
}

/// The 260 payload bytes of a row. Up to 256 bytes a copy has no loop, and the
/// other four are one word.
#[inline(always)]
fn copy_row(from: &[u8], to: &mut [u8]) {
    const PIECE: usize = 256;
    to[..PIECE].copy_from_slice(&from[..PIECE]);
    to[PIECE..ROW_LENGTH - 1].copy_from_slice(&from[PIECE..ROW_LENGTH - 1]);
}

// ---------------------------------------------------------------------------
// Label and trace
// ---------------------------------------------------------------------------

/// The top bit of eight bytes.
const TOP: u64 = u64::from_le_bytes([0x80; 8]);

#[inline(always)]
fn label_good(label: u8) -> bool {
    label != 0x00 && label != 0xFF
}

/// Whether all 15 characters are from 20 to 7E and one is no space: eight at a
/// time, one of them twice. Only others than these have their top bit set when 1
/// is added or 20 taken away; those before the first of them carry nothing into
/// it. Spaces alone leave nothing when 20 is taken away.
#[inline(always)]
fn characters_good(trace: &[u8; 15]) -> bool {
    const ONE: u64 = u64::from_le_bytes([0x01; 8]);
    const SPACE: u64 = u64::from_le_bytes([0x20; 8]);
    let (one, other) = (eight(trace, 0), eight(trace, 7));
    let over = one.wrapping_sub(SPACE) | other.wrapping_sub(SPACE);
    (over | one.wrapping_add(ONE) | other.wrapping_add(ONE)) & TOP == 0 && over != 0
}

/// The number of characters that are not good: the first that is below or above
/// decides.
#[cold]
fn in_trace(trace: &[u8; 15]) -> u8 {
    match trace.iter().find(|character| !(0x20..=0x7E).contains(*character)) {
        Some(0x00..=0x1F) => 5,
        Some(_) => 20,
        None => 21,
    }
}

#[inline(always)]
fn same(one: &[u8; 15], other: &[u8; 15]) -> bool {
    (eight(one, 0) ^ eight(other, 0)) | (eight(one, 7) ^ eight(other, 7)) == 0
}

/// The start byte of a message. With x^7 = x^3 + 1 the squares hold too, x^14 =
/// x^6 + 1 and so on up to x^112 = x^48 + 1, so what stands from such a power
/// up is brought down all at once.
fn start_byte(characters: &[u8; 15]) -> u8 {
    const BELOW_56: u64 = (1 << 56) - 1;
    // 128 bits: 80, then the characters.
    let upper = 0x80 << 56 | eight(characters, 0).swap_bytes() >> 8;
    let lower = eight(characters, 7).swap_bytes();
    // From x^112 up stand 16 bits.
    let high = upper >> 48;
    let lower = lower ^ high ^ (high << 48);
    // From x^56 up stand 56 bits, after them 24.
    let high = (upper & ((1 << 48) - 1)) << 8 | lower >> 56;
    let upper = high >> 40;
    let lower = (lower & BELOW_56) ^ high ^ (high << 24);
    let high = upper << 8 | lower >> 56;
    let rest = (lower & BELOW_56) ^ high ^ (high << 24);
    // "times x^7": seven more.
    let rest = rest << 7;
    let high = rest >> 56;
    let mut rest = (rest & BELOW_56) ^ high ^ (high << 24);
    // x^28, x^14, x^7.
    for power in [28, 14, 7] {
        for _ in 0..2 {
            let high = rest >> power;
            rest = (rest & ((1 << power) - 1)) ^ high ^ (high << (power / 7 * 3));
        }
    }
    0x80 | rest as u8
}

// ---------------------------------------------------------------------------
// Sources and payload call
// ---------------------------------------------------------------------------

/// As in second.rs; a refused call changes neither the state nor the container.
pub fn container_source(
    s: &mut ContainerSource,
    g: &Given,
    trace: &[u8; 15],
    payload: &[u8],
    container: &mut [u8],
) -> Result<(), u8> {
    if s.place > LAST_PLACE {
        return Err(8);
    }
    if !label_good(g.label) {
        return Err(4);
    }
    if !characters_good(trace) {
        return Err(in_trace(trace));
    }
    let payload = <&Payload>::try_from(payload).map_err(|_| 2)?;
    let container = <&mut Container>::try_from(container).map_err(|_| 3)?;
    if g.violations > 8 {
        return Err(6);
    }

    let j1 = match s.place {
        0 => start_byte(trace),
        place => trace[usize::from(place) - 1],
    };
    let g1 = (g.violations << 4) | (u8::from(g.remote) << 3);
    let column = [j1, s.parity, g.label, g1, g.f2, g.h4, g.f3, g.k3, g.n1];
    for row in 0..ROWS {
        container[row * ROW_LENGTH] = column[row];
        copy_row(&payload[row * (ROW_LENGTH - 1)..], &mut container[row * ROW_LENGTH + 1..]);
    }
    s.place = (s.place + 1) & LAST_PLACE;
    s.parity = fold_all(payload) ^ column.iter().fold(0, |sum, byte| sum ^ byte);
    Ok(())
}

/// As in second.rs.
pub fn payload_call(container: &[u8], ais: bool, payload: &mut [u8]) -> Result<(), u8> {
    let container = <&Container>::try_from(container).map_err(|_| 3)?;
    let payload = <&mut Payload>::try_from(payload).map_err(|_| 2)?;
    if ais {
        payload.fill(0xFF);
        return Ok(());
    }
    for row in 0..ROWS {
        copy_row(&container[row * ROW_LENGTH + 1..], &mut payload[row * (ROW_LENGTH - 1)..]);
    }
    Ok(())
}

/// How much of a container the units before have carried.
#[inline(always)]
fn carried_before(offset: u16) -> usize {
    if offset == 0 {
        0
    } else {
        CONTAINER_LENGTH - STEP * usize::from(offset)
    }
}

#[inline(always)]
fn incremented(offset: u16) -> u16 {
    if offset == LAST_VALUE {
        0
    } else {
        offset + 1
    }
}

#[inline(always)]
fn decremented(offset: u16) -> u16 {
    if offset == 0 {
        LAST_VALUE
    } else {
        offset - 1
    }
}

/// As in second.rs: how many ended. A refused call changes neither the state
/// nor the unit.
pub fn unit_source(
    s: &mut UnitSource,
    asked: Asked,
    current: &[u8],
    next: &[u8],
    unit: &mut [u8],
) -> Result<u8, u8> {
    if s.offset > LAST_VALUE || s.wait > 3 {
        return Err(8);
    }
    let current = <&Container>::try_from(current).map_err(|_| 3)?;
    let next = <&Container>::try_from(next).map_err(|_| 3)?;
    let unit = <&mut Unit>::try_from(unit).map_err(|_| 1)?;
    if asked != Asked::Nothing && s.wait < 3 {
        return Err(7);
    }

    let offset = s.offset;
    let (word, first) = match asked {
        Asked::Nothing => {
            s.wait = 3.min(s.wait + 1);
            (plain_word(offset), HEAD_LENGTH)
        }
        Asked::Increment => {
            s.wait = 0;
            s.offset = incremented(offset);
            unit[HEAD_LENGTH..HEAD_LENGTH + STEP].copy_from_slice(&[0x00; STEP]);
            (increment_word(offset), HEAD_LENGTH + STEP)
        }
        Asked::Decrement => {
            s.wait = 0;
            s.offset = decremented(offset);
            (decrement_word(offset), HEAD_LENGTH - STEP)
        }
    };
    let [h1, h2] = word.to_be_bytes();
    unit[..HEAD_LENGTH].copy_from_slice(&[h1, 0x9B, 0x9B, h2, 0xFF, 0xFF, 0x00, 0x00, 0x00]);

    let carrying = &mut unit[first..];
    let rest = &current[carried_before(offset)..];
    if rest.len() > carrying.len() {
        // Only by an increment at 0.
        let length = carrying.len();
        copy(&rest[..length], carrying);
        return Ok(0);
    }
    let (ending, beginning) = carrying.split_at_mut(rest.len());
    copy(rest, ending);
    if beginning.is_empty() {
        return Ok(1);
    }
    copy(&next[..beginning.len()], beginning);
    Ok(if beginning.len() == CONTAINER_LENGTH { 2 } else { 1 })
}

// ---------------------------------------------------------------------------
// Sink: answers, numbers in range
// ---------------------------------------------------------------------------

/// What is said of a container that ended.
#[derive(Clone, Copy, Debug, PartialEq, Eq)]
pub struct Ended {
    pub columns: u8,
    pub returned: u8,
}

/// What the sink answers for a unit.
#[derive(Clone, Copy, Debug, PartialEq, Eq)]
pub struct Answer {
    /// The container that ended in the done buffer; where two end, the first.
    pub done: Option<Ended>,
    /// The container that is a part of the unit, with its place there.
    pub part: Option<(u16, Ended)>,
    /// The rest, the bits named below.
    pub bits: u16,
}

pub const SSF: u16 = 1 << 0;
pub const TSF: u16 = 1 << 1;
pub const AIS: u16 = 1 << 2;
pub const RDI: u16 = 1 << 3;
pub const D_UNEQ: u16 = 1 << 4;
pub const D_TIM: u16 = 1 << 5;
pub const D_PLM: u16 = 1 << 6;
pub const D_RDI: u16 = 1 << 7;
pub const C_AIS: u16 = 1 << 8;
pub const C_LOP: u16 = 1 << 9;
pub const C_SSF: u16 = 1 << 10;
pub const C_UNEQ: u16 = 1 << 11;
pub const C_TIM: u16 = 1 << 12;
pub const C_RDI: u16 = 1 << 13;
pub const C_PLM: u16 = 1 << 14;
pub const SETTLED: u16 = 1 << 15;

impl Answer {
    /// The same answer as second.rs gives it.
    pub fn as_second(&self) -> second::Answer {
        let is = |bit: u16| self.bits & bit != 0;
        let done = self.done.map(|one| (second::Place::Done, one));
        let part = self.part.map(|(from, one)| (second::Place::Unit(usize::from(from)), one));
        let mut ended = Vec::new();
        for (place, one) in done.into_iter().chain(part) {
            ended.push(second::Ended {
                place,
                columns: one.columns,
                returned: one.returned,
            });
        }
        second::Answer {
            ended,
            ssf: is(SSF),
            tsf: is(TSF),
            ais: is(AIS),
            rdi: is(RDI),
            defects: [D_UNEQ, D_TIM, D_PLM, D_RDI].map(is),
            causes: [C_AIS, C_LOP, C_SSF, C_UNEQ, C_TIM, C_RDI, C_PLM].map(is),
            settled: is(SETTLED),
        }
    }
}

/// The bit, where it is so.
#[inline(always)]
fn bit(is: bool, bit: u16) -> u16 {
    u16::from(is) * bit
}

/// Every number in its range, and the held count the one of the state.
#[inline(always)]
fn well_formed(s: &Sink) -> bool {
    let p = &s.pointer;
    let held = match p.state {
        Pointer::Normal(offset) if offset > LAST_VALUE => return false,
        Pointer::Normal(offset) => carried_before(offset),
        Pointer::Alarm | Pointer::Lost => 0,
    };
    // What is added brings each end of a range to 15. That is all ones, so all
    // are up to it just where all their ones together are.
    let to_15 = |count: u8, most: u8| u32::from(count) + u32::from(15 - most);
    let all = to_15(p.alarm_words | p.run | p.wait | s.message_run, 3)
        | to_15(p.enabled_words, 8)
        | to_15(p.invalid_words, 8)
        | to_15(s.label_run, 5)
        | to_15(s.uneq.run, 5)
        | to_15(s.remote.run, 5)
        | to_15(s.place, LAST_PLACE)
        // These two are brought to 63 and 1023, and without the lower ones to 15.
        | (u32::from(s.without) + u32::from(63 - MOST_WITHOUT)) >> 2
        | (u32::from(p.run_value) + u32::from(1023 - LAST_VALUE)) >> 6;
    usize::from(s.held) == held && all <= 15
}

/// Whether the sink is settled and all its numbers stand where they come to
/// rest, but for those of the message and for run and wait; the value of the
/// run is this offset, the state's. Such a state is well formed.
#[inline(always)]
fn at_rest(s: &Sink, expected: &Expected, offset: u16) -> bool {
    let p = &s.pointer;
    // In one word, which is one comparison.
    let defects = u64::from_le_bytes([
        u8::from(s.plm),
        u8::from(s.uneq.last),
        u8::from(s.uneq.stands),
        s.uneq.run,
        u8::from(s.remote.last),
        u8::from(s.remote.stands),
        s.remote.run,
        u8::from(s.tim),
    ]);
    offset <= LAST_VALUE
        && usize::from(s.held) == carried_before(offset)
        && p.run_value == offset
        && (p.run | p.wait) <= 3
        && [p.alarm_words, p.enabled_words, p.invalid_words] == [0, 0, 0]
        && defects == u64::from_le_bytes([0, 0, 0, 5, 0, 0, 5, 0])
        && [s.label, s.label_run] == [expected.label, 5]
        && s.accepted_label == Some(expected.label)
        && match &s.accepted_trace {
            Some(accepted) => same(accepted, &expected.trace),
            None => false,
        }
        && s.place <= LAST_PLACE
        && s.message_run <= 3
        && s.without <= MOST_WITHOUT
}

// ---------------------------------------------------------------------------
// Sink: the pointer word
// ---------------------------------------------------------------------------

/// Bit n is set where the NDF code n is of the kind.
const NORMAL_NDF: u16 = 1 << 0b0110 | 1 << 0b1110 | 1 << 0b0010 | 1 << 0b0100 | 1 << 0b0111;
const ENABLED_NDF: u16 = 1 << 0b1001 | 1 << 0b0001 | 1 << 0b1101 | 1 << 0b1011 | 1 << 0b1000;

#[inline(always)]
fn is_kind(word: u16, kind: u16) -> bool {
    word & 0x0C00 == 0x0800 && kind >> (word >> 12) & 1 == 1
}

/// Reads one word, in a state that is well formed. The plain one comes first:
/// rules 1 to 3 do not take it.
#[inline(always)]
fn read(p: &mut PointerReader, word: u16) -> Taken {
    let value = word & 0x03FF;
    let normal_word = is_kind(word, NORMAL_NDF);
    if normal_word && p.state == Pointer::Normal(value) {
        alike(p, value);
        p.alarm_words = 0;
        p.enabled_words = 0;
        p.invalid_words = 0;
        p.wait = 3.min(p.wait + 1);
        return Taken::Plain;
    }
    read_other(p, word, value, normal_word)
}

#[inline(always)]
fn alike(p: &mut PointerReader, value: u16) {
    if p.run > 0 && p.run_value == value {
        p.run = 3.min(p.run + 1);
    } else {
        p.run = 1;
        p.run_value = value;
    }
}

/// A word that is not plain.
fn read_other(p: &mut PointerReader, word: u16, value: u16, normal_word: bool) -> Taken {
    let in_range = value <= LAST_VALUE;
    if normal_word && in_range {
        alike(p, value);
    } else {
        p.run = 0;
        p.run_value = 0;
    }
    let (alarm_row, enabled_row, invalid_row) = (p.alarm_words, p.enabled_words, p.invalid_words);
    p.alarm_words = 0;
    p.enabled_words = 0;
    p.invalid_words = 0;
    let wait = p.wait;
    p.wait = 3.min(wait + 1);

    // 1
    if word == 0xFFFF {
        p.alarm_words = 3.min(alarm_row + 1);
        if p.alarm_words >= 3 {
            p.state = Pointer::Alarm;
        }
        return Taken::AlarmWord;
    }
    // 2
    if in_range && is_kind(word, ENABLED_NDF) {
        p.enabled_words = 8.min(enabled_row + 1);
        if p.state != Pointer::Lost {
            if p.enabled_words >= 8 {
                p.state = Pointer::Lost;
            } else {
                p.state = Pointer::Normal(value);
                p.wait = 0;
            }
        }
        return Taken::NewData;
    }
    // 3; not normal at this value already, or the word were plain.
    if p.run >= 3 {
        p.state = Pointer::Normal(value);
        return Taken::Found;
    }
    if normal_word {
        match p.state {
            // 4
            Pointer::Normal(offset) => {
                if wait >= 3 {
                    let (i, d) = inverted(value, offset);
                    if i >= 3 && d <= 2 {
                        p.state = Pointer::Normal(incremented(offset));
                        p.wait = 0;
                        return Taken::Increment;
                    }
                    if d >= 3 && i <= 2 {
                        p.state = Pointer::Normal(decremented(offset));
                        p.wait = 0;
                        return Taken::Decrement;
                    }
                }
            }
            // 5
            Pointer::Alarm | Pointer::Lost => {
                if in_range {
                    return Taken::Waiting;
                }
            }
        }
    }
    // 6
    p.invalid_words = 8.min(invalid_row + 1);
    if p.invalid_words >= 8 {
        p.state = Pointer::Lost;
    }
    Taken::Invalid
}

// ---------------------------------------------------------------------------
// Sink: containers, defects, actions, causes
// ---------------------------------------------------------------------------

/// Columns and violations returned; the parity of this container is kept.
#[inline(always)]
fn ended(s: &mut Sink, b3: u8, g1: u8, sum: u8) -> Ended {
    let columns = match s.parity {
        Some(last) => b3 ^ last,
        None => 0x00,
    };
    s.parity = Some(sum);
    let returned = g1 >> 4;
    Ended {
        columns,
        returned: if returned > 8 { 0 } else { returned },
    }
}

#[inline(always)]
fn see(watch: &mut Watch, says: bool) {
    watch.run = if watch.run > 0 && watch.last == says {
        5.min(watch.run + 1)
    } else {
        1
    };
    watch.last = says;
    if watch.run >= 5 {
        watch.stands = says;
    }
}

/// One container that ended, with its parity.
#[inline(always)]
fn examine(s: &mut Sink, container: &Container, sum: u8, expected: &Expected) -> Ended {
    let column = |row: usize| container[row * ROW_LENGTH];
    let (j1, b3, c2, g1) = (column(0), column(1), column(2), column(3));
    let one = ended(s, b3, g1, sum);

    if s.label_run > 0 && s.label == c2 {
        s.label_run = 5.min(s.label_run + 1);
    } else {
        s.label_run = 1;
        s.label = c2;
    }
    if s.label_run >= 5 {
        s.accepted_label = Some(c2);
    }
    s.plm = match s.accepted_label {
        Some(label) => label != expected.label,
        None => false,
    };
    see(&mut s.uneq, c2 == 0x00);
    see(&mut s.remote, g1 & 0x08 != 0);
    message(s, j1, expected);
    one
}

#[inline(always)]
fn message(s: &mut Sink, j1: u8, expected: &Expected) {
    if j1 & 0x80 != 0 {
        if s.place > 0 {
            s.message_run = 0;
        }
        s.message[0] = j1;
        s.place = 1;
    } else if s.place == 0 {
        s.message_run = 0;
    } else {
        s.message[usize::from(s.place & LAST_PLACE)] = j1;
        s.place = (s.place + 1) & LAST_PLACE;
        if s.place == 0 && whole_message(s, expected) {
            return;
        }
    }
    if s.without >= MOST_WITHOUT - 1 {
        s.without = MOST_WITHOUT;
        s.tim = true;
        s.message_run = 0;
    } else {
        s.without += 1;
    }
}

/// Whether it is a good one.
fn whole_message(s: &mut Sink, expected: &Expected) -> bool {
    let mut characters = [0; 15];
    characters.copy_from_slice(&s.message[1..]);
    // The top bits are 0 but in a state that no call leaves.
    let tops = (eight(&characters, 0) | eight(&characters, 7)) & TOP;
    if tops != 0 || s.message[0] != start_byte(&characters) {
        s.message_run = 0;
        return false;
    }
    if same(&s.characters, &characters) {
        s.message_run = 3.min(s.message_run + 1);
    } else {
        s.message_run = 1;
        s.characters = characters;
    }
    s.without = 0;
    if s.message_run >= 3 {
        s.accepted_trace = Some(characters);
        s.tim = !same(&characters, &expected.trace);
    }
    true
}

/// Actions, causes and settled; counts the unit where it is not.
#[inline(always)]
fn finish(s: &mut Sink, expected: &Expected) -> u16 {
    let bits = match s.pointer.state {
        Pointer::Normal(_) => {
            let (uneq, tim, plm, remote) = (s.uneq.stands, s.tim, s.plm, s.remote.stands);
            if uneq | tim | plm | remote {
                let tsf = uneq | tim;
                let monitored = expected.monitored;
                bit(tsf, TSF | RDI)
                    | bit(tsf | plm, AIS)
                    | bit(uneq, D_UNEQ)
                    | bit(tim, D_TIM)
                    | bit(plm, D_PLM)
                    | bit(remote, D_RDI)
                    | bit(uneq & monitored, C_UNEQ)
                    | bit(tim & !uneq & monitored, C_TIM)
                    | bit(remote & !tsf & monitored & expected.rdi_reported, C_RDI)
                    | bit(plm & !tsf, C_PLM)
            } else if s.accepted_label == Some(expected.label) && s.accepted_trace == Some(expected.trace) {
                return SETTLED;
            } else {
                0
            }
        }
        // Cleared: no defect stands.
        Pointer::Alarm => {
            SSF | TSF
                | AIS
                | RDI
                | bit(expected.ais_reported, C_AIS)
                | bit(expected.monitored & expected.ssf_reported, C_SSF)
        }
        Pointer::Lost => SSF | TSF | AIS | RDI | C_LOP | bit(expected.monitored & expected.ssf_reported, C_SSF),
    };
    s.unsettled = s.unsettled.saturating_add(1);
    bits
}

// ---------------------------------------------------------------------------
// Sink: the call
// ---------------------------------------------------------------------------

/// As in second.rs; a refused call changes neither the state nor a buffer.
pub fn sink(
    s: &mut Sink,
    expected: &Expected,
    unit: &[u8],
    held: &mut [u8],
    done: &mut [u8],
) -> Result<Answer, u8> {
    let length = unit.len();
    let lent = (
        label_good(expected.label) && characters_good(&expected.trace),
        <&Unit>::try_from(unit),
        <&mut Container>::try_from(held),
        <&mut Container>::try_from(done),
    );
    let (unit, held, done) = match lent {
        (true, Ok(unit), Ok(held), Ok(done)) => (unit, held, done),
        _ => return Err(refusal(s, expected, length)),
    };

    let word = u16::from_be_bytes([unit[0], unit[3]]);
    if let Pointer::Normal(offset) = s.pointer.state {
        if word == plain_word(offset) && at_rest(s, expected, offset) {
            if let Some(answer) = feed_at_rest(s, expected, unit, held, done) {
                return Ok(answer);
            }
        }
    }
    if !well_formed(s) {
        return Err(8);
    }
    Ok(feed(s, expected, word, unit, held, done))
}

/// The number of a call that is not right in what is expected or in lengths.
#[cold]
fn refusal(s: &Sink, expected: &Expected, unit_length: usize) -> u8 {
    if !well_formed(s) {
        8
    } else if !label_good(expected.label) {
        4
    } else if !characters_good(&expected.trace) {
        in_trace(&expected.trace)
    } else if unit_length != UNIT_LENGTH {
        1
    } else {
        3
    }
}

/// A plain unit for a sink at rest. None, and nothing changed, where the
/// container that ends has another label or tells of a remote defect.
#[inline(always)]
fn feed_at_rest(
    s: &mut Sink,
    expected: &Expected,
    unit: &Unit,
    held: &mut Container,
    done: &mut Container,
) -> Option<Answer> {
    let quiet = |c2: u8, g1: u8| c2 == expected.label && g1 & 0x08 == 0;
    let mut answer = Answer {
        done: None,
        part: None,
        bits: SETTLED,
    };
    let count = usize::from(s.held);
    let j1;
    if count == 0 {
        let column = |row: usize| unit[HEAD_LENGTH + row * ROW_LENGTH];
        let (b3, g1) = (column(1), column(3));
        if !quiet(column(2), g1) {
            return None;
        }
        j1 = column(0);
        answer.part = Some((HEAD_LENGTH as u16, ended(s, b3, g1, fold_behind_head(unit))));
    } else {
        let column = |row: usize| match row * ROW_LENGTH {
            place if place < count => held[place],
            place => unit[HEAD_LENGTH + place - count],
        };
        let (b3, g1) = (column(1), column(3));
        if !quiet(column(2), g1) {
            return None;
        }
        j1 = column(0);
        let (begun, continued) = done.split_at_mut(count);
        let (ending, beginning) = unit[HEAD_LENGTH..].split_at(continued.len());
        copy(&held[..count], begun);
        copy(ending, continued);
        copy(beginning, &mut held[..count]);
        answer.done = Some(ended(s, b3, g1, fold_all(done)));
    }
    if s.pointer.run < 3 {
        s.pointer.run += 1;
    }
    if s.pointer.wait < 3 {
        s.pointer.wait += 1;
    }
    // The accepted trace stays the expected one where it sets no dTIM.
    message(s, j1, expected);
    if s.tim {
        answer.bits = finish(s, expected);
    }
    Some(answer)
}

/// Any unit for any sink that is well formed.
#[inline(never)]
fn feed(
    s: &mut Sink,
    expected: &Expected,
    word: u16,
    unit: &Unit,
    held: &mut Container,
    done: &mut Container,
) -> Answer {
    let mut in_done = None;
    let mut part = None;
    let taken = read(&mut s.pointer, word);
    if let Pointer::Normal(offset) = s.pointer.state {
        let first = match taken {
            Taken::Increment => HEAD_LENGTH + STEP,
            Taken::Decrement => HEAD_LENGTH - STEP,
            _ => HEAD_LENGTH,
        };
        let count = usize::from(s.held);
        let mut at = first;
        if taken == Taken::NewData || taken == Taken::Found {
            s.parity = None;
            at = first + STEP * usize::from(offset);
        } else if count > 0 {
            let (begun, continued) = done.split_at_mut(count);
            at = first + continued.len();
            copy(&held[..count], begun);
            copy(&unit[first..at], continued);
            in_done = Some(examine(s, done, fold_all(done), expected));
        }
        if let Some(bytes) = unit.get(at..at + CONTAINER_LENGTH) {
            if let Ok(container) = <&Container>::try_from(bytes) {
                let sum = if at == HEAD_LENGTH { fold_behind_head(unit) } else { fold_all(container) };
                part = Some((at as u16, examine(s, container, sum, expected)));
                at += CONTAINER_LENGTH;
            }
        }
        let begun = &unit[at..];
        s.held = begun.len() as u16;
        if !begun.is_empty() {
            copy(begun, &mut held[..begun.len()]);
        }
    } else {
        *s = Sink {
            pointer: s.pointer,
            without: MOST_WITHOUT,
            unsettled: s.unsettled,
            ..Sink::fresh()
        };
    }
    Answer {
        done: in_done,
        part,
        bits: finish(s, expected),
    }
}

// ---------------------------------------------------------------------------
// The spreadsheet
// ---------------------------------------------------------------------------

type Record = [u8; RECORD_LENGTH];

/// A buffer for the text of the longest catalogue.
pub type Text = [u8; 23_552];

/// What a hex digit in either case stands for; above 15 where it is none.
const HEX: [u8; 256] = {
    let mut table = [0xFF; 256];
    let mut value = 0;
    while value < 16 {
        table[b"0123456789ABCDEF"[value] as usize] = value as u8;
        table[b"0123456789abcdef"[value] as usize] = value as u8;
        value += 1;
    }
    table
};

/// A decimal number of at most so many digits and the byte that must stand behind
/// it; the number, and where what follows begins.
#[inline(always)]
fn decimal(bytes: &[u8], most_digits: usize, behind: u8) -> Option<(u16, usize)> {
    let (mut at, mut sum) = (0, 0);
    loop {
        let byte = *bytes.get(at)?;
        let digit = byte.wrapping_sub(b'0');
        if digit > 9 {
            return (byte == behind && at > 0).then_some((sum, at + 1));
        }
        if at == most_digits {
            return None;
        }
        sum = sum * 10 + u16::from(digit);
        at += 1;
    }
}

/// The record of the line with which these bytes begin, and where the next line
/// begins; none where the line has a fault. A line without one has 43 bytes at
/// most, so that no length is asked for.
#[inline(always)]
fn read_line(bytes: &[u8]) -> Option<(Record, usize)> {
    let mut record = [b' '; RECORD_LENGTH];
    record[..2].copy_from_slice(&[0x5A, 0x4D]);
    let (circuit, mut at) = decimal(bytes, 4, b',')?;
    record[2..4].copy_from_slice(&circuit.to_be_bytes());
    let [high, low, b',', b'"', ..] = bytes[at..] else {
        return None;
    };
    let (high, low) = (HEX[usize::from(high)], HEX[usize::from(low)]);
    if (high | low) > 15 {
        return None;
    }
    record[4] = high << 4 | low;
    at += 4;
    let mut place = 5;
    loop {
        let character = *bytes.get(at)?;
        at += 1;
        if character == b'"' {
            match bytes.get(at)? {
                b'"' => at += 1,
                b',' => break,
                _ => return None,
            }
        }
        if character == b'\n' || place == 20 {
            return None;
        }
        record[place] = character;
        place += 1;
    }
    at += 1;
    let (flags, length) = decimal(&bytes[at..], 2, b'\n')?;
    record[20] = flags as u8;
    Some((record, at + length))
}

/// The fault of the line with which these bytes begin, where it has one.
#[cold]
fn line_fault(bytes: &[u8]) -> u8 {
    let Some(end) = bytes.iter().take(LONGEST_SHEET_LINE + 1).position(|byte| *byte == b'\n') else {
        return 15;
    };
    let line = &bytes[..=end];
    let Some((_, at)) = decimal(line, 4, b',') else {
        return 15;
    };
    let [high, low, b',', ref trace @ ..] = line[at..] else {
        return 15;
    };
    if (HEX[usize::from(high)] | HEX[usize::from(low)]) > 15 {
        return 15;
    }
    // The comma behind the trace is the first that stands in no quotes. What stands
    // behind a quote that closes is this comma, or a quote that opens again.
    let quoted = trace[0] == b'"';
    let mut inside = false;
    let behind = trace.iter().position(|byte| {
        inside ^= quoted && *byte == b'"';
        !inside && (*byte == b',' || quoted && *byte != b'"')
    });
    let flags = behind.filter(|at| trace[*at] == b',').and_then(|at| decimal(&trace[at + 1..], 2, b'\n'));
    if flags.is_none() {
        15
    } else if quoted {
        17
    } else {
        16
    }
}

/// The number of a record's fault by itself, 0 where it has none.
#[inline(always)]
fn record_fault(record: &Record) -> u8 {
    let circuit = u16::from_be_bytes([record[2], record[3]]);
    let mut trace = [0; 15];
    trace.copy_from_slice(&record[5..20]);
    if record[..2] != [0x5A, 0x4D] {
        10
    } else if circuit == 0 || circuit > 9999 {
        11
    } else if !label_good(record[4]) {
        4
    } else if !characters_good(&trace) {
        in_trace(&trace)
    } else if record[20] > 15 {
        12
    } else {
        0
    }
}

/// The two halves of a record's trace, which have one character in common.
#[inline(always)]
fn halves(record: &Record) -> (u64, u64) {
    (eight(record, 5), eight(record, 12))
}

/// Whether two of these records, at most `MOST`, have one trace. Each has a number
/// that is made of its trace: those of all earlier records are compared with that
/// of a later one without a branch, and only where one is alike are the traces.
fn repeated<'a, const MOST: usize>(records: impl Iterator<Item = &'a Record> + Clone) -> bool {
    let mut numbers = [0u32; MOST];
    for (later, record) in records.clone().enumerate() {
        let (first, second) = halves(record);
        let sum = first.wrapping_mul(0x9E37_79B9_7F4A_7C15).wrapping_add(second.wrapping_mul(0xC2B2_AE3D_27D4_EB4F));
        let number = (sum >> 32) as u32;
        let alike = numbers[..later].iter().fold(false, |alike, earlier| alike | (*earlier == number));
        if alike && records.clone().take(later).any(|earlier| halves(earlier) == (first, second)) {
            return true;
        }
        numbers[later] = number;
    }
    false
}

/// The number of records, or the number of the refusal.
pub fn import(text: &[u8], catalogue: &mut [u8; LONGEST_CATALOGUE]) -> Result<usize, u8> {
    let ended = text.iter().filter(|byte| **byte == b'\n').count();
    if ended > MOST_LINES || (ended == MOST_LINES && text.last() != Some(&b'\n')) {
        return Err(18);
    }
    // A line that no LF ends is refused before its record is kept.
    match ended {
        0..=8 => import_most::<8>(text, catalogue),
        9..=64 => import_most::<64>(text, catalogue),
        _ => import_most::<MOST_LINES>(text, catalogue),
    }
}

/// The same of so many lines at the most. The records are kept until nothing can
/// be refused any more.
#[inline(always)]
fn import_most<const MOST: usize>(text: &[u8], catalogue: &mut [u8; LONGEST_CATALOGUE]) -> Result<usize, u8> {
    let mut records = [[0; RECORD_LENGTH]; MOST];
    let (mut rest, mut count, mut fault) = (text, 0, 0);
    while !rest.is_empty() {
        let Some((record, length)) = read_line(rest) else {
            return Err(line_fault(rest));
        };
        if fault == 0 {
            fault = record_fault(&record);
        }
        records[count] = record;
        count += 1;
        rest = &rest[length..];
    }
    let records = &records[..count];
    if fault != 0 {
        return Err(fault);
    }
    if repeated::<MOST>(records.iter()) {
        return Err(13);
    }
    for (to, record) in catalogue.chunks_exact_mut(RECORD_LENGTH).zip(records) {
        to.copy_from_slice(record);
    }
    Ok(count)
}

/// A number of at most four digits, without leading zeros; where what follows
/// begins.
#[inline(always)]
fn put_decimal(text: &mut Text, mut at: usize, number: u16) -> usize {
    for power in [1000, 100, 10] {
        if number >= power {
            text[at] = b'0' + (number / power % 10) as u8;
            at += 1;
        }
    }
    text[at] = b'0' + (number % 10) as u8;
    at + 1
}

/// The length of the text, or the number of the refusal.
pub fn export(catalogue: &[u8], text: &mut Text) -> Result<usize, u8> {
    if catalogue.len() % RECORD_LENGTH != 0 || catalogue.len() > LONGEST_CATALOGUE {
        return Err(9);
    }
    let records = || catalogue.chunks_exact(RECORD_LENGTH).map(|record| <&Record>::try_from(record).expect("a record"));
    if let Some(fault) = records().map(record_fault).find(|fault| *fault != 0) {
        return Err(fault);
    }
    if repeated::<MOST_LINES>(records()) {
        return Err(13);
    }
    const DIGITS: &[u8; 16] = b"0123456789ABCDEF";
    let mut at = 0;
    for record in records() {
        at = put_decimal(text, at, u16::from_be_bytes([record[2], record[3]]));
        let label = record[4];
        text[at..at + 5].copy_from_slice(&[b',', DIGITS[usize::from(label >> 4)], DIGITS[usize::from(label & 15)], b',', b'"']);
        at += 5;
        for character in &record[5..20] {
            text[at] = *character;
            at += 1;
            if *character == b'"' {
                text[at] = b'"';
                at += 1;
            }
        }
        text[at..at + 2].copy_from_slice(b"\",");
        at = put_decimal(text, at + 2, u16::from(record[20]));
        text[at] = b'\n';
        at += 1;
    }
    Ok(at)
}

// ---------------------------------------------------------------------------
// Both cores asked
// ---------------------------------------------------------------------------

#[cfg(test)]
mod tests {
    use super::*;
    use crate::second::coverage::{Counts, Note, NAMES};
    use crate::second::Word;

    /// Numbers without pattern.
    struct Dice(u64);

    impl Dice {
        fn next(&mut self) -> u64 {
            self.0 ^= self.0 << 13;
            self.0 ^= self.0 >> 7;
            self.0 ^= self.0 << 17;
            self.0.wrapping_mul(0x2545_F491_4F6C_DD1D) >> 11
        }

        fn below(&mut self, end: u64) -> u64 {
            self.next() % end
        }

        /// Once in so many.
        fn once_in(&mut self, many: u64) -> bool {
            self.below(many) == 0
        }

        fn byte(&mut self) -> u8 {
            self.next() as u8
        }

        fn bool(&mut self) -> bool {
            self.once_in(2)
        }

        fn of<T: Copy>(&mut self, some: &[T]) -> T {
            some[self.below(some.len() as u64) as usize]
        }

        fn fill(&mut self, bytes: &mut [u8]) {
            for chunk in bytes.chunks_mut(6) {
                let word = self.next().to_le_bytes();
                chunk.copy_from_slice(&word[..chunk.len()]);
            }
        }

        fn some_bytes(&mut self, length: usize) -> Vec<u8> {
            let mut bytes = vec![0; length];
            self.fill(&mut bytes);
            bytes
        }

        fn offset(&mut self) -> u16 {
            let any = self.below(783) as u16;
            self.of(&[0, 0, 1, 2, 260, 261, 400, 521, 522, 523, 781, 782, any, any])
        }

        /// A length that is nearly always the right one.
        fn length(&mut self, right: usize) -> usize {
            if self.once_in(60) {
                self.of(&[0, 1, 8, right - 1, right + 1, 4096])
            } else {
                right
            }
        }

        fn label(&mut self) -> u8 {
            let any = self.byte();
            self.of(&[0x12, 0x12, 0x12, 0x34, 0x00, 0x01, 0xFF, any])
        }

        fn trace(&mut self) -> [u8; 15] {
            self.of(&TRACES)
        }

        fn given(&mut self) -> Given {
            Given {
                label: self.label(),
                f2: self.byte(),
                h4: self.byte(),
                f3: self.byte(),
                k3: self.byte(),
                n1: self.byte(),
                violations: self.of(&[0, 1, 5, 8, 8, 9, 15]),
                remote: self.bool(),
            }
        }

        fn expected(&mut self) -> Expected {
            let mut trace = self.trace();
            if self.once_in(20) {
                // One character or two, or spaces but for none, one or two.
                if self.bool() {
                    trace = [b' '; 15];
                }
                for _ in 0..self.below(3) {
                    trace[self.below(15) as usize] = self.of(&[0x1F, 0x20, 0x21, 0x7E, 0x7F, 0x80, 0xFF, 0x00]);
                }
            }
            Expected {
                label: if self.once_in(30) { self.label() } else { 0x12 },
                trace,
                monitored: self.bool(),
                rdi_reported: self.bool(),
                ssf_reported: self.bool(),
                ais_reported: self.bool(),
            }
        }

        fn watch(&mut self) -> Watch {
            Watch {
                last: self.bool(),
                run: self.of(&[0, 1, 4, 4, 5, 5]),
                stands: self.bool(),
            }
        }

        fn pointer(&mut self) -> PointerReader {
            let offset = self.offset();
            let other = self.offset();
            PointerReader {
                state: self.of(&[Pointer::Normal(offset), Pointer::Normal(offset), Pointer::Alarm, Pointer::Lost]),
                alarm_words: self.of(&[0, 0, 1, 2, 2, 3]),
                enabled_words: self.of(&[0, 0, 3, 6, 7, 8]),
                invalid_words: self.of(&[0, 0, 3, 6, 7, 8]),
                run: self.of(&[0, 1, 2, 2, 3]),
                run_value: self.of(&[offset, offset, other]),
                wait: self.of(&[0, 1, 2, 3, 3, 3]),
            }
        }

        /// The bytes of a message, some of them wrong.
        fn message(&mut self) -> [u8; 16] {
            let mut trace = self.trace();
            if self.once_in(8) {
                trace = self.of(&[[0x20; 15], [0x1F; 15]]);
            }
            if self.once_in(6) {
                trace[self.below(15) as usize] |= 0x80;
            }
            let mut message = [start_byte(&trace); 16];
            message[1..].copy_from_slice(&trace);
            if self.once_in(6) {
                message[self.below(16) as usize] ^= 1 << self.below(8);
            }
            message
        }

        /// Any state with its numbers in range.
        fn sink(&mut self) -> Sink {
            let pointer = self.pointer();
            let any = self.byte();
            let label = self.label();
            let trace = self.trace();
            let accepted = self.trace();
            Sink {
                pointer,
                held: held(&pointer),
                parity: self.of(&[None, Some(any), Some(any)]),
                label,
                label_run: self.of(&[0, 1, 3, 4, 4, 5]),
                accepted_label: self.of(&[None, Some(label), Some(0x12), Some(0x34), Some(0x00)]),
                plm: self.bool(),
                uneq: self.watch(),
                remote: self.watch(),
                place: self.of(&[0, 1, 7, 14, 15, 15]),
                message: self.message(),
                characters: trace,
                message_run: self.of(&[0, 1, 2, 2, 3, 3]),
                accepted_trace: self.of(&[None, Some(trace), Some(accepted)]),
                tim: self.bool(),
                without: self.of(&[0, 1, 46, 47, 47, 48, 48]),
                unsettled: self.of(&[0, 77, 65_534, 65_535]),
            }
        }

        /// A state at rest under these settings.
        fn sink_at_rest(&mut self, expected: &Expected) -> Sink {
            let offset = self.offset();
            let mut s = self.sink();
            s.pointer = PointerReader {
                state: Pointer::Normal(offset),
                alarm_words: 0,
                enabled_words: 0,
                invalid_words: 0,
                run: self.of(&[1, 2, 3]),
                run_value: offset,
                wait: self.of(&[0, 1, 2, 3]),
            };
            s.held = held(&s.pointer);
            s.label = expected.label;
            s.label_run = 5;
            s.accepted_label = Some(expected.label);
            s.plm = false;
            s.uneq = QUIET;
            s.remote = QUIET;
            s.accepted_trace = Some(expected.trace);
            s.tim = false;
            s
        }

        /// One number or value changed, out of its range too.
        fn change(&mut self, s: &mut Sink) {
            let any = self.byte();
            let trace = self.trace();
            let value = self.of(&[0, 1, 400, 782, 783, 1023, 65_535]);
            match self.below(30) {
                0 => s.pointer.state = self.of(&[Pointer::Alarm, Pointer::Lost, Pointer::Normal(value)]),
                1 => s.pointer.alarm_words = self.of(&[1, 2, 3, 4, 255]),
                2 => s.pointer.enabled_words = self.of(&[1, 7, 8, 9, 255]),
                3 => s.pointer.invalid_words = self.of(&[1, 7, 8, 9, 255]),
                4 => s.pointer.run = self.of(&[0, 4, 16, 255]),
                5 => s.pointer.run_value = value,
                6 => s.pointer.wait = self.of(&[4, 16, 255]),
                7 => s.held = self.of(&[0, 3, 1149, 2346, 2349, 65_535, s.held ^ 1]),
                8 => s.parity = None,
                9 => s.label = self.label(),
                10 => s.label_run = self.of(&[0, 1, 4, 5, 6, 255]),
                11 => s.accepted_label = self.of(&[None, Some(any)]),
                12 => s.plm = !s.plm,
                13 => s.uneq.last = !s.uneq.last,
                14 => s.uneq.run = self.of(&[0, 1, 4, 6, 255]),
                15 => s.uneq.stands = !s.uneq.stands,
                16 => s.remote.last = !s.remote.last,
                17 => s.remote.run = self.of(&[0, 1, 4, 6, 255]),
                18 => s.remote.stands = !s.remote.stands,
                19 => s.place = self.of(&[0, 1, 15, 16, 255]),
                20 => self.fill(&mut s.message),
                21 => s.message_run = self.of(&[0, 3, 4, 64, 255]),
                22 => s.accepted_trace = self.of(&[None, Some(trace)]),
                23 => s.tim = !s.tim,
                24 => s.without = self.of(&[47, 48, 49, 63, 64, 255]),
                25 => s.unsettled = self.of(&[0, 65_534, 65_535]),
                26 => {
                    // An offset out of range with the count that would belong
                    // to it.
                    s.pointer.state = Pointer::Normal(783);
                    s.pointer.run_value = 783;
                    s.held = 0;
                }
                27 => s.characters = trace,
                28 => {
                    if let Some(accepted) = &mut s.accepted_trace {
                        accepted[self.below(15) as usize] ^= 1 << self.below(8);
                    }
                }
                _ => s.message[self.below(16) as usize] ^= 0x80,
            }
        }

        /// A word of every kind, most often one that means something to it.
        fn word(&mut self, p: &PointerReader) -> u16 {
            let offset = match p.state {
                Pointer::Normal(offset) => offset,
                Pointer::Alarm | Pointer::Lost => p.run_value,
            };
            let (other, any) = (self.offset(), self.next() as u16);
            let ndf = self.below(16) as u16;
            let word = self.of(&[
                plain_word(offset),
                plain_word(offset),
                plain_word(offset),
                plain_word(p.run_value),
                plain_word(other),
                increment_word(offset),
                decrement_word(offset),
                0xFFFF,
                0x9800 | other,
                0x9800 | offset,
                0x0800 | other,
                ndf << 12 | 0x0800 | offset,
                ndf << 12 | any & 0x0FFF,
                any,
            ]);
            if self.once_in(8) {
                word ^ 1 << self.below(16)
            } else {
                word
            }
        }
    }

    const TRACES: [[u8; 15]; 3] = [*b"03E5           ", *b"03E5          x", *b" ~ CIRCUIT 7 ~ "];
    const QUIET: Watch = Watch {
        last: false,
        run: 5,
        stands: false,
    };

    fn held(p: &PointerReader) -> u16 {
        match p.state {
            Pointer::Normal(offset) => carried_before(offset) as u16,
            Pointer::Alarm | Pointer::Lost => 0,
        }
    }

    /// One of the two sinks: its state and its buffers.
    #[derive(Clone, PartialEq)]
    struct Side {
        s: Sink,
        held: Vec<u8>,
        done: Vec<u8>,
    }

    /// Feeds both and compares all there is, of a refusal its number; the answer
    /// of the two.
    fn both(
        plain: &mut Side,
        fast: &mut Side,
        expected: &Expected,
        unit: &[u8],
        note: Note,
    ) -> Result<second::Answer, u8> {
        let before = plain.clone();
        let said = second::sink(AU4, &plain.s, expected, unit, &mut plain.held, &mut plain.done, note);
        let said = said.map_err(|refusal| refusal.number).map(|(after, answer)| {
            plain.s = after;
            answer
        });
        let fast_said = sink(&mut fast.s, expected, unit, &mut fast.held, &mut fast.done);
        assert_eq!(said, fast_said.map(|answer| answer.as_second()), "{:?} {expected:?}", before.s);
        assert_eq!(plain.s, fast.s, "after {:?} {expected:?}", before.s);
        assert!(plain.held == fast.held, "held buffer after {:?}", before.s);
        assert!(plain.done == fast.done, "done buffer after {:?}", before.s);
        if said.is_err() {
            assert!(*fast == before);
        }
        said
    }

    #[test]
    fn parity_of_every_length_at_every_place() {
        let mut dice = Dice(1);
        let bytes = dice.some_bytes(2500);
        for length in (0..200).chain(2330..2370) {
            for from in 0..32 {
                let part = &bytes[from..from + length];
                assert_eq!(parity(part), second::parity(part), "{length} from {from}");
            }
        }
        let unit = <&Unit>::try_from(&bytes[3..3 + UNIT_LENGTH]).unwrap();
        assert_eq!(fold_behind_head(unit), second::parity(&unit[HEAD_LENGTH..]));
    }

    #[test]
    fn start_bytes_and_characters() {
        let mut dice = Dice(2);
        let mut characters = [0; 15];
        // It is linear, so one bit at a time says all.
        for bit in 0..=120 {
            characters = [0; 15];
            if bit < 120 {
                characters[bit / 8] = 1 << (bit % 8);
            }
            assert_eq!(start_byte(&characters), second::start_byte(&characters));
        }
        for _ in 0..2000 {
            dice.fill(&mut characters);
            assert_eq!(start_byte(&characters), second::start_byte(&characters));
        }
        let ask = |trace: &[u8; 15]| {
            let fault = second::trace_fault(trace).map(|refusal| refusal.number);
            assert_eq!(characters_good(trace), fault.is_none());
            assert_eq!(fault.unwrap_or(21), in_trace(trace));
            fault
        };
        assert_eq!(ask(&[0x20; 15]), Some(21));
        for around in [0x20, 0x41, 0x7E] {
            for place in 0..15 {
                for byte in 0..=255 {
                    let mut trace = [around; 15];
                    trace[place] = byte;
                    ask(&trace);
                    // A second one beside it.
                    trace[(place + 1) % 15] = dice.of(&[0x00, 0x1F, 0x7F, 0x80, 0xDF, 0xFF]);
                    assert!(matches!(ask(&trace), Some(5 | 20)));
                }
            }
        }
    }

    #[test]
    fn sources_and_payload_call() {
        let mut dice = Dice(3);
        let mut fast_containers = ContainerSource::fresh();
        let mut fast_units = UnitSource::fresh();
        let mut made = [0; 3];
        for _ in 0..6000 {
            // Where it went on from, or anywhere.
            if dice.once_in(10) {
                fast_containers.place = dice.of(&[0, 1, 14, 15, 16, 255]);
            }
            let plain_containers = fast_containers;
            let given = dice.given();
            let trace = dice.expected().trace;
            let length = dice.length(PAYLOAD_LENGTH);
            let payload = dice.some_bytes(length);
            let length = dice.length(CONTAINER_LENGTH);
            let mut container = dice.some_bytes(length);
            let mut fast_container = container.clone();
            let said = second::container_source(AU4, plain_containers, given, &trace, &payload, &mut container);
            let said = said.map_err(|refusal| refusal.number);
            let fast_said = container_source(&mut fast_containers, &given, &trace, &payload, &mut fast_container);
            assert_eq!(said.map(|_| ()), fast_said);
            assert_eq!(said.unwrap_or(plain_containers), fast_containers);
            assert!(container == fast_container);
            made[0] += u32::from(said.is_ok());
            fast_containers.place = fast_containers.place.min(LAST_PLACE);

            if dice.once_in(10) {
                fast_units.offset = dice.of(&[0, 1, 2, 781, 782, 783, 65_535]);
                fast_units.wait = dice.of(&[0, 2, 3, 3, 3, 4, 255]);
            }
            let plain_units = fast_units;
            let asked = dice.of(&[Asked::Nothing, Asked::Nothing, Asked::Increment, Asked::Decrement]);
            let length = dice.length(CONTAINER_LENGTH);
            let next = dice.some_bytes(length);
            let length = dice.length(UNIT_LENGTH);
            let mut unit = dice.some_bytes(length);
            let mut fast_unit = unit.clone();
            let said = second::unit_source(AU4, plain_units, asked, &container, &next, &mut unit);
            let said = said.map_err(|refusal| refusal.number);
            let fast_said = unit_source(&mut fast_units, asked, &container, &next, &mut fast_unit);
            assert_eq!(said.map(|(ended, _)| ended), fast_said);
            assert_eq!(said.map_or(plain_units, |(_, after)| after), fast_units);
            assert!(unit == fast_unit);
            made[1] += u32::from(said.is_ok());
            if fast_units.offset > LAST_VALUE || fast_units.wait > 3 {
                fast_units = UnitSource::fresh();
            }

            let length = dice.length(PAYLOAD_LENGTH);
            let mut into = dice.some_bytes(length);
            let mut fast_into = into.clone();
            let ais = dice.bool();
            let said = second::payload_call(AU4, &container, ais, &mut into);
            let said = said.map_err(|refusal| refusal.number);
            assert_eq!(said, payload_call(&container, ais, &mut fast_into));
            assert!(into == fast_into);
            made[2] += u32::from(said.is_ok());
        }
        assert!(made.iter().all(|count| *count > 2000), "{made:?}");
    }

    /// Calls that have nothing to do with each other: any state, and states at
    /// rest with nothing or one thing changed. All the cases that the rules
    /// have are met.
    #[test]
    fn single_calls() {
        let mut dice = Dice(4);
        let mut counts = Counts::new();
        let mut refused = [0; 22];
        let (mut rested, mut steady) = (0, 0);
        for call in 0..30_000 {
            let expected = dice.expected();
            let mut s = if call % 2 == 0 { dice.sink() } else { dice.sink_at_rest(&expected) };
            if dice.once_in(3) {
                dice.change(&mut s);
            }
            let word = dice.word(&s.pointer);
            let length = dice.length(UNIT_LENGTH);
            let mut unit = dice.some_bytes(length);
            let length = dice.length(CONTAINER_LENGTH);
            let mut plain = Side {
                held: dice.some_bytes(length),
                done: vec![0; dice.length(CONTAINER_LENGTH)],
                s,
            };
            if unit.len() >= 4 {
                unit[0] = (word >> 8) as u8;
                unit[3] = word as u8;
            }
            // What would end, with a column 1 that means something.
            let mut pointer = plain.s.pointer;
            let taken = if well_formed(&plain.s) { pointer.read(AU4, Word::of(word)) } else { Taken::Invalid };
            let first = match taken {
                Taken::Increment => 12,
                Taken::Decrement => 6,
                _ => 9,
            };
            let count = usize::from(plain.s.held);
            let mut places = Vec::new();
            if count > 0 && count <= CONTAINER_LENGTH {
                places.push((true, first));
                places.push((false, first + CONTAINER_LENGTH - count));
            } else if let (Taken::NewData | Taken::Found, Pointer::Normal(offset)) = (taken, pointer.state) {
                places.push((false, first + 3 * usize::from(offset)));
            } else {
                places.push((false, first));
            }
            let mut place = usize::from(plain.s.place % 16);
            for (from_held, at) in places {
                let (any, bits) = (dice.byte(), dice.byte());
                let good = plain.s.message[place];
                let j1 = dice.of(&[good, good, good, good, any, 0x41, 0x85]);
                let b3 = plain.s.parity.unwrap_or(any) ^ dice.of(&[0, 0, 0x11, bits, 0xFF]);
                let c2 = dice.of(&[expected.label, expected.label, plain.s.label, 0x00, any]);
                let g1 = dice.of(&[0x00, 0x00, 0x30, 0x08, bits]);
                for (row, byte) in [j1, b3, c2, g1].into_iter().enumerate() {
                    let to = row * ROW_LENGTH;
                    if from_held && to < count {
                        if let Some(held) = plain.held.get_mut(to) {
                            *held = byte;
                        }
                    } else if let Some(carried) = unit.get_mut(at + to - if from_held { count } else { 0 }) {
                        *carried = byte;
                    }
                }
                place = (place + 1) % 16;
            }

            let mut fast = plain.clone();
            let was = plain.s.clone();
            match both(&mut plain, &mut fast, &expected, &unit, &mut |name| counts.note(name)) {
                Ok(answer) => {
                    if let Pointer::Normal(offset) = was.pointer.state {
                        let at_rest = word == plain_word(offset) && at_rest(&was, &expected, offset);
                        rested += u32::from(at_rest);
                        steady += u32::from(at_rest && answer.settled);
                    }
                }
                Err(number) => refused[usize::from(number)] += 1,
            }
        }
        for number in [1, 3, 4, 5, 8, 20, 21] {
            assert!(refused[number] > 100, "{refused:?}");
        }
        assert!(rested > 1500 && steady > 800, "{rested} {steady}");
        let text = counts.text();
        for name in NAMES.iter().take_while(|name| **name != "container.made") {
            assert!(!text.contains(&format!("{name} 0\n")), "{name} was not met");
        }
    }

    /// Units one after another from the sources, good ones, damaged ones,
    /// refused ones, over good times and bad.
    /// Asks both for the import of a text; the number of the refusal, 0 for none.
    fn both_import(text: &[u8]) -> u8 {
        let want = second::import(text);
        let before: [u8; LONGEST_CATALOGUE] = [0xEE; LONGEST_CATALOGUE];
        let mut made = before;
        let got = import(text, &mut made);
        let shown = String::from_utf8_lossy(text);
        let bytes = want.as_deref().unwrap_or(&[]);
        assert!(made[..bytes.len()] == *bytes && made[bytes.len()..] == before[bytes.len()..], "{shown:?}");
        assert_eq!(got, want.as_ref().map(|made| made.len() / RECORD_LENGTH).map_err(|refusal| refusal.number), "{shown:?}");
        got.err().unwrap_or(0)
    }

    /// The same of export.
    fn both_export(catalogue: &[u8]) -> u8 {
        let want = second::export(catalogue);
        let before: Text = [0xEE; 23_552];
        let mut made = before;
        let got = export(catalogue, &mut made);
        let bytes = want.as_deref().unwrap_or(&[]);
        assert!(made[..bytes.len()] == *bytes && made[bytes.len()..] == before[bytes.len()..], "{catalogue:?}");
        assert_eq!(got, want.as_ref().map(Vec::len).map_err(|refusal| refusal.number), "{catalogue:?}");
        got.err().unwrap_or(0)
    }

    #[test]
    fn spreadsheets() {
        let mut dice = Dice(77);
        let mut met = [0; 22];
        // Each byte changed, left out and put in.
        for good in ["7,1f,\"a\"\"b\",15\n", "0120,E9,\",\",03\n9,aB,\"\"\"\",0\n", "1,12,ab,0\n", "1,12,\"1234567890123456\",0\n"] {
            for at in 0..good.len() {
                for byte in 0..=255 {
                    let mut text = good.as_bytes().to_vec();
                    text[at] = byte;
                    both_import(&text);
                    text.insert(at, good.as_bytes()[at]);
                    both_import(&text);
                }
                both_import(&good.as_bytes()[..at]);
                both_import(&good.as_bytes()[at..]);
            }
        }
        // Fields of every kind.
        for _ in 0..60_000 {
            let mut text = Vec::new();
            let lines = dice.below(5);
            // Any, or one in so many others that are good.
            let many = dice.of(&[1, 4, 12]);
            let mut field = |good: &'static str, any: &[&'static str]| if dice.once_in(many) { dice.of(any) } else { good };
            for k in 0..lines {
                let own = ["\"A\"", "\"B  \"", "\"C,\"\"\"", "\"\"\"D1234567890123\""][k as usize];
                let fields = [
                    field("1", &["0012", "9999", "0", "", "12345", "1a"]),
                    field("12", &["aF", "0E", "00", "fF", "1", "1g", "123", ""]),
                    field(own, &["\"A  \"", "", "A", "\"A", "\"\"", "\"A\"B\"", "\"A\"\"", "\"12345678901234567\"", "\"\u{1F}\"", "\"\u{7F}\""]),
                    field("0", &["15", "09", "16", "", "100", "0\r", "x"]),
                ];
                text.extend(fields.join(",").bytes());
                text.extend(field("\n", &["\n", "", "\n\n"]).bytes());
            }
            met[usize::from(both_import(&text))] += 1;
        }
        // Lengths of a line, and numbers of lines.
        for length in 70..90 {
            for (open, close) in [("1,12,\"", "\",0"), ("1,12,", ",0"), ("1,12,\"", "\",")] {
                let line = [open, &"x".repeat(length - open.len() - close.len()), close, "\n"].concat();
                both_import(line.as_bytes());
                both_import(&line.as_bytes()[..length]);
            }
        }
        for count in [511, 512, 513, 514] {
            let text: String = (1..=count).map(|k| format!("{k},12,\"{k}\",0\n")).collect();
            for more in ["", "x", "\n", "1,12,\"1\",0\n"] {
                met[usize::from(both_import(format!("{text}{more}").as_bytes()))] += 1;
            }
            if let Ok(mut catalogue) = second::import(text.as_bytes()) {
                both_export(&catalogue);
                let at = catalogue.len() - RECORD_LENGTH;
                catalogue.copy_within(5..20, at + 5);
                both_export(&catalogue);
            }
        }
        for number in [0, 4, 5, 11, 12, 13, 15, 16, 17, 18, 20, 21] {
            assert!(met[number] > 9, "{number} {met:?}");
        }
        // Catalogues, most of them good but for one byte or none.
        let good: Vec<u8> = (1..=4u8)
            .flat_map(|k| {
                let mut record: Record = *b"\x5A\x4D\x00\x07\x12\"a\"\",          \x0F";
                record[3] = k;
                record[5 + usize::from(k)] = b'~';
                record
            })
            .collect();
        let mut met = [0; 22];
        for _ in 0..20_000 {
            let mut catalogue = good[..RECORD_LENGTH * dice.below(5) as usize].to_vec();
            if !catalogue.is_empty() && dice.bool() {
                let at = dice.below(catalogue.len() as u64) as usize;
                let any = dice.byte();
                catalogue[at] = dice.of(&[0x00, 0x0F, 0x10, 0x20, 0x22, 0x27, 0x7F, 0xFF, any]);
            }
            if dice.once_in(20) {
                catalogue.pop();
            }
            if dice.once_in(20) {
                catalogue.extend_from_within(..catalogue.len().min(RECORD_LENGTH));
            }
            met[usize::from(both_export(&catalogue))] += 1;
        }
        for number in [0, 4, 5, 9, 10, 11, 12, 13, 20] {
            assert!(met[number] > 3, "{number} {met:?}");
        }
        // Every number of a circuit.
        for circuit in 0..=u16::MAX {
            let mut record = good[..RECORD_LENGTH].to_vec();
            record[2..4].copy_from_slice(&circuit.to_be_bytes());
            both_export(&record);
        }
    }

    #[test]
    fn long_runs() {
        let mut dice = Dice(5);
        let (mut units, mut settled, mut failed, mut handed, mut refused) = (0, 0, 0, 0, 0);
        while units < 24_000 {
            let mut containers = ContainerSource::fresh();
            let mut source = UnitSource {
                offset: dice.offset(),
                wait: 3,
            };
            let start = Side {
                s: Sink::fresh(),
                held: dice.some_bytes(CONTAINER_LENGTH),
                done: dice.some_bytes(CONTAINER_LENGTH),
            };
            let (mut plain, mut fast) = (start.clone(), start);
            let mut given = Given {
                label: 0x12,
                violations: 0,
                remote: false,
                ..dice.given()
            };
            let mut sent = TRACES[0];
            let mut expected = Expected {
                label: 0x12,
                trace: TRACES[0],
                ..dice.expected()
            };
            let mut queue: Vec<Vec<u8>> = Vec::new();
            let mut unit = vec![0; UNIT_LENGTH];
            let damage = dice.of(&[0, 200, 30, 8, 3]);
            let mut ones = 0;
            for _ in 0..400 {
                units += 1;
                // Settings change seldom.
                if damage > 0 && dice.once_in(100) {
                    given.label = dice.of(&[0x12, 0x34, 0x01]);
                    given.remote = dice.bool();
                    given.violations = dice.of(&[0, 3, 8]);
                    sent = dice.trace();
                    expected = Expected {
                        label: dice.of(&[0x12, 0x12, 0x34]),
                        trace: dice.of(&[sent, TRACES[0]]),
                        ..dice.expected()
                    };
                }
                while queue.len() < 2 {
                    let mut container = vec![0; CONTAINER_LENGTH];
                    let payload = dice.some_bytes(PAYLOAD_LENGTH);
                    container_source(&mut containers, &given, &sent, &payload, &mut container).unwrap();
                    queue.push(container);
                }
                let asked = if source.wait == 3 && dice.once_in(9) {
                    dice.of(&[Asked::Increment, Asked::Decrement])
                } else {
                    Asked::Nothing
                };
                let ended = unit_source(&mut source, asked, &queue[0], &queue[1], &mut unit).unwrap();
                queue.drain(..usize::from(ended));
                if damage > 0 && dice.once_in(damage) {
                    match dice.below(5) {
                        0 => unit[dice.below(UNIT_LENGTH as u64) as usize] ^= dice.byte(),
                        1 => ones = dice.below(6),
                        2 => {
                            let word = dice.word(&plain.s.pointer);
                            unit[0] = (word >> 8) as u8;
                            unit[3] = word as u8;
                        }
                        3 => {
                            // Another offset, told by new data or found.
                            source.offset = dice.offset();
                            if dice.bool() {
                                unit[0] = 0x98 | (source.offset >> 8) as u8;
                                unit[3] = source.offset as u8;
                            }
                        }
                        _ => {
                            // Refused; the unit follows in the next call.
                            let short = &unit[..dice.length(UNIT_LENGTH - 1).min(UNIT_LENGTH - 1)];
                            assert_eq!(both(&mut plain, &mut fast, &expected, short, &mut |_| {}), Err(1));
                            refused += 1;
                        }
                    }
                }
                if ones > 0 {
                    ones -= 1;
                    unit.fill(0xFF);
                }
                if let Ok(answer) = both(&mut plain, &mut fast, &expected, &unit, &mut |_| {}) {
                    settled += u32::from(answer.settled);
                    failed += u32::from(answer.ssf);
                    handed += answer.ended.len();
                } else {
                    refused += 1;
                }
            }
        }
        let enough = settled > 4000 && failed > 1000 && handed > 12_000 && refused > 100;
        assert!(enough, "{settled} {failed} {handed} {refused} of {units}");
    }
}
