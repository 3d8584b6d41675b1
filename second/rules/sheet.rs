//! The spreadsheet: comma-separated text into a catalogue, and back. The words in
//! quotation marks are those of the request for it ("02").

use super::catalogue::{catalogue_check, records, Record, MARK, MOST_RECORDS, RECORD_LENGTH};
use super::refusal::Refusal;

/// "At most 512 lines"
pub const MOST_LINES: usize = MOST_RECORDS;
/// "of at most 80 bytes"
pub const LONGEST_SHEET_LINE: usize = 80;
/// "17 trace longer than 15"
const TRACE_LENGTH: usize = 15;

/// The lines of a text, each with whether an LF ends it: "LF ends every line and
/// is not in the 80". What stands behind the last LF is a line too.
fn lines(text: &[u8]) -> Vec<(&[u8], bool)> {
    let mut all = Vec::new();
    let mut rest = text;
    while !rest.is_empty() {
        match rest.iter().position(|byte| *byte == b'\n') {
            Some(end) => {
                all.push((&rest[..end], true));
                rest = &rest[end + 1..];
            }
            None => {
                all.push((rest, false));
                rest = &[];
            }
        }
    }
    all
}

/// What stands before the first comma, and what behind it; none where there is no
/// comma.
fn to_comma(bytes: &[u8]) -> Option<(&[u8], &[u8])> {
    let end = bytes.iter().position(|byte| *byte == b',')?;
    Some((&bytes[..end], &bytes[end + 1..]))
}

/// A decimal number of one digit or more, at most so many: "Number has one to
/// four digits, flags one or two".
fn decimal(field: &[u8], most_digits: usize) -> Option<u16> {
    if field.is_empty() || field.len() > most_digits {
        return None;
    }
    let mut sum = 0;
    for digit in field {
        match digit {
            b'0'..=b'9' => sum = sum * 10 + u16::from(digit - b'0'),
            _ => return None,
        }
    }
    Some(sum)
}

/// "hex in either case"
fn hex_digit(character: u8) -> Option<u8> {
    match character {
        b'0'..=b'9' => Some(character - b'0'),
        b'A'..=b'F' => Some(character - b'A' + 10),
        b'a'..=b'f' => Some(character - b'a' + 10),
        _ => None,
    }
}

/// "label as two hex digits"
fn two_hex_digits(field: &[u8]) -> Option<u8> {
    match field {
        [high, low] => Some(hex_digit(*high)? * 16 + hex_digit(*low)?),
        _ => None,
    }
}

/// The third field.
enum Trace {
    /// "trace in double quotes": its characters, each doubled quote made one.
    Quoted(Vec<u8>),
    /// "A trace field that opens without a quote"
    Unquoted,
}

/// The trace with which these bytes begin, and what stands behind the comma that
/// follows it; none where it does not end, or no comma follows.
fn trace_field(bytes: &[u8]) -> Option<(Trace, &[u8])> {
    let [b'"', inside @ ..] = bytes else {
        // It "runs to the next comma".
        let (_, behind) = to_comma(bytes)?;
        return Some((Trace::Unquoted, behind));
    };
    let mut characters = Vec::new();
    let mut rest = inside;
    loop {
        match rest {
            // "a doubled quote inside stands for one"
            [b'"', b'"', behind @ ..] => {
                characters.push(b'"');
                rest = behind;
            }
            // One alone closes it.
            [b'"', b',', behind @ ..] => return Some((Trace::Quoted(characters), behind)),
            [b'"', ..] | [] => return None,
            [character, behind @ ..] => {
                characters.push(*character);
                rest = behind;
            }
        }
    }
}

/// The record of one line, or the number of its refusal: "line by line 15, 16,
/// 17".
fn line_record(line: &[u8], ended: bool) -> Result<Record, u8> {
    // 15: "too long"; and one that no LF ends.
    if line.len() > LONGEST_SHEET_LINE || !ended {
        return Err(15);
    }
    // 15: "line malformed", which it is unless it is "number, label as two hex
    // digits, trace in double quotes, flags". The trace without its quotes is 16
    // and not 15.
    let fields = || {
        let (number, rest) = to_comma(line)?;
        let (label, rest) = to_comma(rest)?;
        let (trace, flags) = trace_field(rest)?;
        Some((decimal(number, 4)?, two_hex_digits(label)?, trace, decimal(flags, 2)?))
    };
    let (circuit, label, trace, flags) = fields().ok_or(15)?;
    // 16: "trace unquoted"
    let Trace::Quoted(characters) = trace else {
        return Err(16);
    };
    // 17: "trace longer than 15"
    if characters.len() > TRACE_LENGTH {
        return Err(17);
    }
    // "Short traces are padded with spaces."
    let mut trace = [b' '; TRACE_LENGTH];
    trace[..characters.len()].copy_from_slice(&characters);
    // Two digits are at most 99.
    Ok(Record { circuit, label, trace, flags: flags as u8 })
}

/// The 21 bytes of a record.
fn put_together(record: &Record) -> [u8; RECORD_LENGTH] {
    let mut bytes = [0; RECORD_LENGTH];
    bytes[..2].copy_from_slice(&MARK);
    bytes[2..4].copy_from_slice(&record.circuit.to_be_bytes());
    bytes[4] = record.label;
    bytes[5..20].copy_from_slice(&record.trace);
    bytes[20] = record.flags;
    bytes
}

/// The catalogue of a text, or its refusal: "18 first, then line by line 15, 16,
/// 17, and last 01's catalogue order over the result".
pub fn import(text: &[u8]) -> Result<Vec<u8>, Refusal> {
    let lines = lines(text);
    // 18: "more than 512 lines"; "each names the line", the first that is too many
    if lines.len() > MOST_LINES {
        return Err(Refusal::at(18, MOST_LINES + 1));
    }
    let mut catalogue = Vec::new();
    for (index, (line, ended)) in lines.into_iter().enumerate() {
        let record = line_record(line, ended).map_err(|number| Refusal::at(number, index + 1))?;
        catalogue.extend_from_slice(&put_together(&record));
    }
    // "The result is a catalogue"
    catalogue_check(&catalogue).answer?;
    Ok(catalogue)
}

/// The text of a catalogue, or the refusal of its check.
pub fn export(catalogue: &[u8]) -> Result<Vec<u8>, Refusal> {
    let mut text = Vec::new();
    for record in records(catalogue)? {
        // "Export writes no leading zeros, capital hex"
        text.extend_from_slice(format!("{},{:02X},\"", record.circuit, record.label).as_bytes());
        // "and all 15 characters"
        for character in record.trace {
            text.push(character);
            if character == b'"' {
                text.push(character);
            }
        }
        text.extend_from_slice(format!("\",{}\n", record.flags).as_bytes());
    }
    Ok(text)
}
