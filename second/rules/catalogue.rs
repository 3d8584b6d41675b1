//! The circuit catalogue: its check, the lookup and the listing.

use super::refusal::Refusal;
use super::trace::trace_fault;

/// "records of 21 bytes"
pub const RECORD_LENGTH: usize = 21;
/// "at most 512"
pub const MOST_RECORDS: usize = 512;
/// "above 10,752" is too long.
pub const LONGEST_CATALOGUE: usize = RECORD_LENGTH * MOST_RECORDS;

/// "A two-byte mark before each record, 5A 4D"
pub(super) const MARK: [u8; 2] = [0x5A, 0x4D];

/// What a record says behind its mark: "circuit number", "label", "15 trace
/// characters", "flags".
#[derive(Debug, Clone, PartialEq, Eq)]
pub struct Record {
    pub circuit: u16,
    pub label: u8,
    pub trace: [u8; 15],
    pub flags: u8,
}

/// The mark and the fields of one record's 21 bytes.
fn take_apart(bytes: &[u8; RECORD_LENGTH]) -> ([u8; 2], Record) {
    let mark = [bytes[0], bytes[1]];
    // "circuit number (2 bytes, high first ...)"
    let circuit = u16::from_be_bytes([bytes[2], bytes[3]]);
    let label = bytes[4];
    let mut trace = [0; 15];
    trace.copy_from_slice(&bytes[5..20]);
    let flags = bytes[20];
    (
        mark,
        Record {
            circuit,
            label,
            trace,
            flags,
        },
    )
}

/// The refusal of one record by itself, if it has one: "10, 11, 4, 5, 12", the
/// first in that order, 20 and 21 "in the place of 5".
fn record_fault(mark: [u8; 2], record: &Record) -> Option<Refusal> {
    // 10: "wrong mark"
    if mark != MARK {
        return Some(Refusal::of(10));
    }
    // 11: "circuit number 0 or above 9999"
    if record.circuit == 0 || record.circuit > 9999 {
        return Some(Refusal::of(11));
    }
    // 4: "listed label 00 or FF"
    if record.label == 0x00 || record.label == 0xFF {
        return Some(Refusal::of(4));
    }
    // 5, 20, 21: the listed trace
    if let Some(refusal) = trace_fault(&record.trace) {
        return Some(refusal);
    }
    // 12: "flags above 15"
    if record.flags > 15 {
        return Some(Refusal::of(12));
    }
    None
}

/// What the check of a catalogue answers: the number of records of a good one
/// or its refusal, and "how many pairs of traces it compared".
#[derive(Debug, Clone, PartialEq, Eq)]
pub struct Checked {
    pub answer: Result<usize, Refusal>,
    pub pairs: usize,
}

/// All records of a file in their order, or the refusal of its length or of one
/// record by itself: "9, then record by record 10, 11, 4, 5, 12 with the record's
/// place from 1".
fn listed(bytes: &[u8]) -> Result<Vec<Record>, Refusal> {
    // 9: "catalogue length no multiple of 21, or above 10,752"
    if bytes.len() % RECORD_LENGTH != 0 || bytes.len() > LONGEST_CATALOGUE {
        return Err(Refusal::of(9));
    }

    // "record by record"
    let mut all = Vec::new();
    for (index, chunk) in bytes.chunks_exact(RECORD_LENGTH).enumerate() {
        let mut record_bytes = [0; RECORD_LENGTH];
        record_bytes.copy_from_slice(chunk);
        let (mark, record) = take_apart(&record_bytes);
        if let Some(refusal) = record_fault(mark, &record) {
            return Err(refusal.in_record(index + 1));
        }
        all.push(record);
    }
    // "An empty file is a good catalogue of none."
    Ok(all)
}

/// 13: "names the earliest later record that repeats a trace, with the first
/// record that has it". All 15 characters count, spaces too. And the pairs that
/// were compared, "later record by later record, stopping at the first repeat",
/// which is one of them.
fn repeat(all: &[Record]) -> (Option<Refusal>, usize) {
    let mut pairs = 0;
    for later in 0..all.len() {
        for first in 0..later {
            pairs += 1;
            if all[first].trace == all[later].trace {
                let refusal = Refusal {
                    number: 13,
                    places: vec![later + 1, first + 1],
                };
                return (Some(refusal), pairs);
            }
        }
    }
    (None, pairs)
}

/// All records of a good catalogue in their order, or its refusal: those of
/// `listed`, "then 13".
pub(super) fn records(bytes: &[u8]) -> Result<Vec<Record>, Refusal> {
    let all = listed(bytes)?;
    match repeat(&all) {
        (Some(refusal), _) => Err(refusal),
        (None, _) => Ok(all),
    }
}

/// The number of records of a good catalogue, or its refusal; and the pairs
/// compared.
pub fn catalogue_check(bytes: &[u8]) -> Checked {
    match listed(bytes) {
        // "A catalogue refused before that reports 0."
        Err(refusal) => Checked {
            answer: Err(refusal),
            pairs: 0,
        },
        Ok(all) => {
            let (refused, pairs) = repeat(&all);
            Checked {
                answer: refused.map_or(Ok(all.len()), Err),
                pairs,
            }
        }
    }
}

/// "Lookup gives the first record with the number." "Lookup checks the
/// catalogue first; any number not in it is 14."
pub fn lookup(bytes: &[u8], circuit: u32) -> Result<Record, Refusal> {
    for record in records(bytes)? {
        if u32::from(record.circuit) == circuit {
            return Ok(record);
        }
    }
    // 14: "circuit not listed"
    Err(Refusal::of(14))
}

/// The text of the listing program for this catalogue.
pub fn listing(bytes: &[u8]) -> Vec<u8> {
    let mut text = Vec::new();
    match records(bytes) {
        Ok(good) => {
            text.extend_from_slice(b"circuit label trace flags\n");
            for record in good {
                // "number decimal, label two capital hex digits, trace as it
                // stands, flags decimal"
                text.extend_from_slice(format!("{} {:02X} [", record.circuit, record.label).as_bytes());
                text.extend_from_slice(&record.trace);
                text.extend_from_slice(format!("] {}\n", record.flags).as_bytes());
            }
        }
        Err(refusal) => {
            // "A refused file prints one line: its number, then the place (13:
            // later, then first; 9: none)."
            text.extend_from_slice(format!("{refusal}\n").as_bytes());
        }
    }
    text
}
