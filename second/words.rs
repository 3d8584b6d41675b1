//! The lines of a script, the words of a line, and the numbers, bytes and
//! traces that words are. What the words ask for stands in bench.rs.
//!
//! Written from the bench's paper alone.

use std::io::{self, BufRead, ErrorKind};

/// A line of more bytes before its LF is not understood.
pub const LONGEST_LINE: usize = 100_000;

/// The bytes at the very start of a script that are dropped.
pub const MARK: &[u8] = b"\xEF\xBB\xBF";

/// Takes the next line, without its LF, into `line`; false where there is none.
/// It waits for no byte behind the LF. Of a line that is too long one byte more
/// than the longest is kept, so that no line takes all the room there is.
pub fn next_line(input: &mut impl BufRead, line: &mut Vec<u8>) -> io::Result<bool> {
    line.clear();
    let mut begun = false;
    loop {
        let read = match input.fill_buf() {
            Err(error) if error.kind() == ErrorKind::Interrupted => continue,
            read => read?,
        };
        if read.is_empty() {
            // "a last line needs no LF"
            return Ok(begun);
        }
        begun = true;
        let end = read.iter().position(|byte| *byte == b'\n');
        let part = &read[..end.unwrap_or(read.len())];
        let room = LONGEST_LINE + 1 - line.len();
        line.extend_from_slice(&part[..part.len().min(room)]);
        let used = part.len() + usize::from(end.is_some());
        input.consume(used);
        if end.is_some() {
            return Ok(true);
        }
    }
}

/// The words of a line, its number counted from 1; none where it is too long or
/// a quote in it is not as it should be.
pub fn words(line: &[u8], count: usize) -> Option<Vec<&[u8]>> {
    if line.len() > LONGEST_LINE {
        return None;
    }
    let mut rest = line;
    if count == 1 {
        rest = rest.strip_prefix(MARK).unwrap_or(rest);
    }
    rest = rest.strip_suffix(b"\r").unwrap_or(rest);

    let mut words = Vec::new();
    loop {
        let length = match rest {
            [] | [b'#', ..] => return Some(words),
            [b' ', behind @ ..] => {
                rest = behind;
                continue;
            }
            [b'"', ..] => quoted(rest)?,
            _ => rest.iter().position(|byte| *byte == b' ').unwrap_or(rest.len()),
        };
        let (word, behind) = rest.split_at(length);
        words.push(word);
        rest = behind;
    }
}

/// How long the quoted word is with which these bytes begin, both quotes
/// counted: it ends with the first quote that is not doubled, and behind that
/// comes a blank or nothing.
fn quoted(bytes: &[u8]) -> Option<usize> {
    let mut at = 1;
    loop {
        match bytes[at..] {
            [b'"', b'"', ..] => at += 2,
            [b'"'] | [b'"', b' ', ..] => return Some(at + 1),
            [b'"', ..] | [] => return None,
            _ => at += 1,
        }
    }
}

/// One to nine decimal digits, at most `most`.
pub fn number(word: &[u8], most: u32) -> Option<u32> {
    if word.is_empty() || word.len() > 9 {
        return None;
    }
    let mut sum = 0;
    for digit in word {
        if !digit.is_ascii_digit() {
            return None;
        }
        sum = sum * 10 + u32::from(digit - b'0');
    }
    (sum <= most).then_some(sum)
}

/// "two hex digits, in either case where they are read"
fn digit(character: u8) -> Option<u8> {
    match character {
        b'0'..=b'9' => Some(character - b'0'),
        b'A'..=b'F' => Some(character - b'A' + 10),
        b'a'..=b'f' => Some(character - b'a' + 10),
        _ => None,
    }
}

/// Bytes, two hex digits each.
pub fn bytes(word: &[u8]) -> Option<Vec<u8>> {
    if word.len() % 2 != 0 {
        return None;
    }
    word.chunks_exact(2)
        .map(|pair| Some(digit(pair[0])? * 16 + digit(pair[1])?))
        .collect()
}

/// One byte.
pub fn byte(word: &[u8]) -> Option<u8> {
    match bytes(word)?[..] {
        [one] => Some(one),
        _ => None,
    }
}

/// "a trace is 30 hex digits, or at most fifteen characters in double quotes,
/// padded with spaces, `""` standing for one quote".
pub fn trace(word: &[u8]) -> Option<[u8; 15]> {
    let [b'"', inside @ .., b'"'] = word else {
        return bytes(word)?.try_into().ok();
    };
    let mut characters = Vec::new();
    let mut left = inside.iter();
    while let Some(character) = left.next() {
        characters.push(*character);
        if *character == b'"' {
            // Its second.
            left.next();
        }
    }
    let mut trace = [b' '; 15];
    trace.get_mut(..characters.len())?.copy_from_slice(&characters);
    Some(trace)
}
