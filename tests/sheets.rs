//! The spreadsheets of a random script: texts to import, good ones and such as
//! have something wrong near the border of each rule, and catalogues to export.

use super::{quoted, shuffle, Script, MARK};
use crate::random::Random;
use crate::second;

/// What is done with a spreadsheet.
#[derive(Clone, Copy)]
enum Sheet {
    Wrong(Wrong),
    TwoWrong,
    Repeat(Option<Wrong>),
    Changed,
    Good,
    Export,
    WrongExport,
    Bare,
    Long(usize),
    Far(bool),
}

/// Those that are left for a script, and numbers for them: the rest of a script is
/// the same with them as without.
pub struct Spreadsheets {
    r: Random,
    left: Vec<Sheet>,
    /// By which what is to come in turn is chosen, one further in every second
    /// script.
    turn: usize,
}

impl Spreadsheets {
    /// Each script has one half of all that can be wrong, and the next the other.
    /// Those that are long are few.
    pub fn new(seed: u64) -> Self {
        let mut r = Random(!seed);
        let turn = (seed / 2) as usize;
        let mut left: Vec<Sheet> = WRONG.into_iter().skip(seed as usize % 2).step_by(2).map(Sheet::Wrong).collect();
        left.extend([Sheet::TwoWrong; 7]);
        left.extend([Sheet::Repeat(None), Sheet::Repeat(Some(EACH_NUMBER[turn % 3])), Sheet::Repeat(Some(IN_RECORD[turn % 7]))]);
        left.extend([Sheet::Changed; 5]);
        left.extend([Sheet::Good; 3]);
        left.extend([Sheet::Export; 4]);
        left.extend([Sheet::WrongExport, Sheet::Bare]);
        if seed % 2 == 0 {
            left.push(Sheet::Long(turn % 12));
        }
        if seed % 12 == 7 {
            left.push(Sheet::Far(seed % 24 == 7));
        }
        shuffle(&mut r, &mut left);
        Spreadsheets { r, left, turn }
    }
}

/// A line of a spreadsheet: its fields, the trace with its quotes, and what ends it.
#[derive(Clone)]
struct SheetLine {
    fields: Vec<Vec<u8>>,
    end: Vec<u8>,
}

impl SheetLine {
    fn bytes(&self) -> Vec<u8> {
        [&self.fields.join(&b','), &self.end[..]].concat()
    }
}

/// This byte at this place of a field, or at its end where it is shorter.
fn put(field: &mut Vec<u8>, at: usize, byte: u8) {
    match field.get_mut(at) {
        Some(there) => *there = byte,
        None => field.push(byte),
    }
}

/// What can be wrong with a line of a spreadsheet, or only just not.
#[derive(Clone, Copy)]
enum Wrong {
    NumberEmpty,
    NumberLong,
    NumberOther,
    NumberZero,
    LabelEmpty,
    LabelOfOne,
    LabelOfThree,
    LabelFirst,
    LabelSecond,
    LabelRefused,
    FlagsEmpty,
    FlagsLong,
    FlagsOther,
    FlagsRefused,
    Unquoted,
    UnquotedEmpty,
    UnquotedLong,
    UnquotedOdd,
    UnquotedComma,
    UnquotedEnd,
    TooLong,
    TooLongHalved,
    LongOfOneKind,
    Empty,
    Blanks,
    Below,
    Above,
    NotClosed,
    DoubledEnd,
    QuoteAlone,
    QuoteInside,
    BehindQuote,
    NothingBehindQuote,
    LineFeed,
    LongLine,
    LongUnquotedLine,
    FewerFields,
    MoreFields,
    Swapped,
    NoComma,
    EmptyLine,
    Blank,
    Return,
    Open,
    OnlyReturn,
    Mark,
    NumberSigned,
    FlagsHex,
    QuotedOther,
}

const WRONG: [Wrong; 49] = [
    Wrong::NumberEmpty,
    Wrong::NumberLong,
    Wrong::NumberOther,
    Wrong::NumberZero,
    Wrong::LabelEmpty,
    Wrong::LabelOfOne,
    Wrong::LabelOfThree,
    Wrong::LabelFirst,
    Wrong::LabelSecond,
    Wrong::LabelRefused,
    Wrong::FlagsEmpty,
    Wrong::FlagsLong,
    Wrong::FlagsOther,
    Wrong::FlagsRefused,
    Wrong::Unquoted,
    Wrong::UnquotedEmpty,
    Wrong::UnquotedLong,
    Wrong::UnquotedOdd,
    Wrong::UnquotedComma,
    Wrong::UnquotedEnd,
    Wrong::TooLong,
    Wrong::TooLongHalved,
    Wrong::LongOfOneKind,
    Wrong::Empty,
    Wrong::Blanks,
    Wrong::Below,
    Wrong::Above,
    Wrong::NotClosed,
    Wrong::DoubledEnd,
    Wrong::QuoteAlone,
    Wrong::QuoteInside,
    Wrong::BehindQuote,
    Wrong::NothingBehindQuote,
    Wrong::LineFeed,
    Wrong::LongLine,
    Wrong::LongUnquotedLine,
    Wrong::FewerFields,
    Wrong::MoreFields,
    Wrong::Swapped,
    Wrong::NoComma,
    Wrong::EmptyLine,
    Wrong::Blank,
    Wrong::Return,
    Wrong::Open,
    Wrong::OnlyReturn,
    Wrong::Mark,
    Wrong::NumberSigned,
    Wrong::FlagsHex,
    Wrong::QuotedOther,
];

/// Those that are no fault of the line: the catalogue refuses them.
const IN_RECORD: [Wrong; 7] = [
    Wrong::NumberZero,
    Wrong::LabelRefused,
    Wrong::FlagsRefused,
    Wrong::Empty,
    Wrong::Blanks,
    Wrong::Below,
    Wrong::Above,
];

/// Those that are 15 and leave the trace as it is.
const BESIDE_TRACE: [Wrong; 10] = [
    Wrong::NumberEmpty,
    Wrong::NumberLong,
    Wrong::NumberOther,
    Wrong::LabelOfOne,
    Wrong::LabelOfThree,
    Wrong::LabelSecond,
    Wrong::FlagsEmpty,
    Wrong::FlagsLong,
    Wrong::MoreFields,
    Wrong::Return,
];

/// One that is 15, one that is 16 and one that is 17.
const EACH_NUMBER: [Wrong; 3] = [Wrong::FlagsOther, Wrong::Unquoted, Wrong::TooLong];

impl Script {
    /// The one of a list whose turn it is.
    fn in_turn<T: Copy>(&self, list: &[T]) -> T {
        list[self.sheets.turn % list.len()]
    }

    /// The characters of a trace that nothing refuses, without the spaces that
    /// are padded or with some of them. Those of different `k` are different.
    fn characters(&mut self, k: usize) -> Vec<u8> {
        let name = format!("{k}");
        let n = match self.r.below(6) {
            0 => name.len(),
            1 => 14,
            2 | 3 => 15,
            _ => self.among(name.len(), 15),
        };
        let kind = self.r.below(4);
        let mut characters: Vec<u8> = (0..n)
            .map(|_| match kind {
                0 => self.of(b"\"\", a"),
                1 => self.of(b" ,;'aF0~!"),
                2 => self.of(b"\"\"\"\"\"x"),
                _ => 0x20 + self.r.below(0x5F) as u8,
            })
            .collect();
        // the number at the start, the end or between, and no digit besides
        for c in &mut characters {
            if c.is_ascii_digit() {
                *c = b'-';
            }
        }
        let at = self.of(&[0, n - name.len(), (n - name.len()) / 2]);
        characters[at..at + name.len()].copy_from_slice(name.as_bytes());
        characters
    }

    /// One line that nothing refuses, with these characters in its trace.
    fn sheet_line(&mut self, characters: &[u8]) -> SheetLine {
        let number = match self.r.below(6) {
            0 => self.among(1, 9),
            1 => self.among(10, 99),
            2 => self.among(100, 999),
            _ => self.among(1, 9999),
        };
        let number = match self.r.below(4) {
            0 => format!("{number:0width$}", width = self.among(1, 4)),
            _ => number.to_string(),
        };
        let label = self.legal_label();
        let label = match self.r.below(4) {
            0 | 1 => format!("{label:02X}"),
            2 => format!("{label:02x}"),
            _ => self.of(&["aF", "Fa", "bC", "0d", "E9", "12"]).to_string(),
        };
        let flags = self.flags();
        let flags = if self.chance(4) { format!("{flags:02}") } else { flags.to_string() };
        SheetLine { fields: vec![number.into(), label.into(), quoted(characters), flags.into()], end: b"\n".to_vec() }
    }

    /// So many lines that nothing refuses.
    fn sheet(&mut self, n: usize) -> Vec<SheetLine> {
        (0..n)
            .map(|k| {
                let characters = self.characters(k);
                self.sheet_line(&characters)
            })
            .collect()
    }

    /// Something wrong in a line that has its four fields, whatever is wrong with
    /// them already; nothing in one that has them no more.
    fn spoil(&mut self, line: &mut SheetLine, wrong: Wrong) {
        if line.fields.len() != 4 {
            return;
        }
        let any = self.r.byte();
        let n = self.among(1, 20);
        let long: Vec<u8> = (0..15 + n).map(|_| self.of(b"aF0-~, ")).collect();
        let bare: Vec<u8> = long.iter().map(|c| if *c == b',' { b';' } else { *c }).collect();
        let short = &bare[..self.among(1, 15)];
        let other = self.of(&[b'-', b'+', b'.', b'A', b'"', 0x00, any]);
        let beside_digits = self.in_turn(&[0x2F, 0x3A, b' ', other]);
        let beside_hex = self.in_turn(&[0x2F, 0x3A, 0x40, 0x47, 0x60, 0x67]);
        let trace = &mut line.fields[2];
        match wrong {
            Wrong::NumberEmpty => line.fields[0].clear(),
            Wrong::NumberLong => line.fields[0] = self.of(&["10000", "00001", "99999", "01234", "00000", "123456"]).into(),
            Wrong::NumberOther => {
                let at = self.r.below(line.fields[0].len().max(1));
                put(&mut line.fields[0], at, beside_digits);
            }
            Wrong::NumberZero => line.fields[0] = self.in_turn(&["0", "00", "000", "0000"]).into(),
            Wrong::LabelEmpty => line.fields[1].clear(),
            Wrong::LabelOfOne => drop(line.fields[1].pop()),
            Wrong::LabelOfThree => line.fields[1].push(b'0'),
            Wrong::LabelFirst => put(&mut line.fields[1], 0, beside_hex),
            Wrong::LabelSecond => put(&mut line.fields[1], 1, beside_hex),
            Wrong::LabelRefused => line.fields[1] = self.in_turn(&["00", "FF", "ff", "fF"]).into(),
            Wrong::FlagsEmpty => line.fields[3].clear(),
            Wrong::FlagsLong => line.fields[3] = self.of(&["000", "001", "015", "100", "999"]).into(),
            Wrong::FlagsOther => {
                let at = self.r.below(line.fields[3].len().max(1));
                put(&mut line.fields[3], at, beside_digits);
            }
            Wrong::FlagsRefused => line.fields[3] = self.in_turn(&["16", "99", "17", "20"]).into(),
            Wrong::Unquoted => *trace = short.to_vec(),
            Wrong::UnquotedEmpty => trace.clear(),
            Wrong::UnquotedLong => *trace = bare,
            Wrong::UnquotedOdd => {
                let (before, behind): (&[u8], &[u8]) =
                    self.in_turn(&[(b"", b"\""), (b" \"", b"\""), (b"\r", b""), (b"a\"", b"\""), (b"", b"\r"), (b"'", b"'")]);
                *trace = [before, &bare[..4], behind].concat();
            }
            Wrong::UnquotedComma => *trace = [&short[..1], b",", short].concat(),
            Wrong::UnquotedEnd => {
                line.fields.pop();
                line.fields[2] = self.of(&[short, b"", b"03E5"]).to_vec();
            }
            Wrong::TooLong => *trace = quoted(&long[..self.of(&[16, 16, 15 + n])]),
            Wrong::TooLongHalved => {
                let mut characters = long[..self.of(&[14, 15, 16, 16, 16, 16, 17.min(15 + n)]).min(15 + n)].to_vec();
                for _ in 0..self.among(1, 4) {
                    let at = self.r.below(characters.len());
                    characters[at] = b'"';
                }
                *trace = quoted(&characters);
            }
            Wrong::LongOfOneKind => {
                let (character, n) = self.in_turn(&[(b' ', 16), (b'"', 16), (b'x', 16), (b'"', 15), (b' ', 17), (b'x', 15)]);
                let mut characters = vec![character; n];
                if character == b'x' {
                    // behind the fifteenth it is not looked at
                    characters[n - 1] = self.of(&[0x00, 0x80]);
                }
                *trace = quoted(&characters);
            }
            Wrong::Empty => *trace = b"\"\"".to_vec(),
            Wrong::Blanks => *trace = quoted(&b" ".repeat(self.of(&[1, 2, 14, 15, 15]))),
            Wrong::Below | Wrong::Above => {
                let mut characters = short.to_vec();
                if self.chance(2) {
                    characters[0] = b'"';
                }
                let wrong = match (wrong, self.r.below(3)) {
                    (Wrong::Below, 0) => b'\r',
                    (Wrong::Below, 1) => self.of(&[0x00, 0x1F, 0x09]),
                    // an LF would be another line
                    (Wrong::Below, _) => self.of(&[0x0B, 0x1E, any % 0x0A]),
                    (_, 0) => any | 0x80,
                    (_, _) => self.of(&[0x7F, 0x80, 0xFF]),
                };
                characters.insert(self.r.below(characters.len().min(14)) + 1, wrong);
                characters.truncate(15);
                if self.chance(3) {
                    let at = self.r.below(characters.len());
                    characters[at] = self.of(&[0x00, 0x7F]);
                }
                *trace = quoted(&characters);
            }
            Wrong::NotClosed => drop(trace.pop()),
            Wrong::DoubledEnd => *trace = self.of(&[&b"\"b\"\""[..], b"\"b\"\"", b"\"\"\"", b"\"\"\"", b"\"\"\"\"\"", b"\"a\"\"b\"\""]).to_vec(),
            Wrong::QuoteAlone => {
                line.fields[2] = b"\"".to_vec();
                if self.chance(2) {
                    line.fields.pop();
                }
            }
            Wrong::QuoteInside => *trace = self.of(&[&b"\"a\"b\"c\""[..], b"\"\"b\"", b"\"a\"b\"", b"\"a,\"b\",c\"", b"\"a\"\"\"b\"\"\"c\""]).to_vec(),
            Wrong::BehindQuote => trace.push(self.of(&[b' ', b' ', b'x', b';', b'\r', b'0', b'\'', any & 0x7F | 0x40])),
            Wrong::NothingBehindQuote => {
                line.fields.pop();
                if self.chance(3) {
                    line.fields[2].push(self.of(b"0 ;"));
                }
            }
            Wrong::LineFeed => {
                let at = self.r.below(trace.len().max(1));
                trace.insert(at, b'\n');
            }
            Wrong::LongLine | Wrong::LongUnquotedLine => {
                let want = self.in_turn(&[79, 80, 81, 82]);
                trace.clear();
                let inside = want - line.bytes().len() + line.end.len();
                line.fields[2] = match wrong {
                    // of characters, or of quotes, half as many when two are one
                    Wrong::LongLine => {
                        let pairs = if self.chance(2) { 0 } else { inside / 2 - 1 };
                        [b"\"", &b"x".repeat(inside - 2 - 2 * pairs)[..], &b"\"".repeat(2 * pairs)[..], b"\""].concat()
                    }
                    _ => b"x".repeat(inside),
                };
                if self.chance(6) {
                    // as many bytes, and malformed too
                    let field = self.of(&[0, 1, 3]);
                    line.fields[field].fill(b'x');
                }
            }
            Wrong::FewerFields => {
                let n = self.among(1, 3);
                line.fields.remove(self.r.below(4));
                line.fields.truncate(n);
            }
            Wrong::MoreFields => {
                let (at, what) = self.in_turn(&[(4, &b""[..]), (4, b"0"), (3, b""), (4, b"\"\""), (2, b""), (0, b"")]);
                line.fields.insert(at, what.to_vec());
            }
            Wrong::Swapped => {
                let (a, b) = self.of(&[(0, 1), (0, 2), (1, 2), (2, 3), (0, 3)]);
                line.fields.swap(a, b);
            }
            Wrong::NoComma => {
                // two fields with another character between, or none
                let at = self.r.below(3);
                let other = line.fields.remove(at + 1);
                let between: &[u8] = self.of(&[b"", b";", b" ", b"."]);
                line.fields[at].extend_from_slice(between);
                line.fields[at].extend_from_slice(&other);
            }
            Wrong::EmptyLine => line.fields = vec![Vec::new()],
            Wrong::OnlyReturn => {
                line.fields = vec![b"\r".to_vec()];
                if self.chance(2) {
                    line.end.clear();
                }
            }
            Wrong::Blank => {
                let field = self.r.below(4);
                let at = self.of(&[0, line.fields[field].len()]);
                line.fields[field].insert(at, b' ');
            }
            Wrong::Return => line.end = b"\r\n".to_vec(),
            Wrong::Open => line.end.clear(),
            Wrong::NumberSigned => line.fields[0] = self.in_turn(&["+7", "-7", "7.", "+700"]).into(),
            Wrong::FlagsHex => line.fields[3] = self.in_turn(&["F", "a", "0F", "0x"]).into(),
            Wrong::QuotedOther => {
                let field = self.in_turn(&[0, 1, 3]);
                line.fields[field] = quoted(&line.fields[field]);
            }
            // the bytes that are dropped before a script
            Wrong::Mark => drop(line.fields[0].splice(..0, MARK.iter().copied())),
        }
    }

    /// A text with something wrong in one of its lines: in the last where it is
    /// what ends it, at times with more behind, which is then in the same line.
    fn wrong_sheet(&mut self, wrong: Wrong) {
        let n = self.among(1, 4);
        let mut lines = self.sheet(n);
        let at = match wrong {
            Wrong::Open | Wrong::OnlyReturn if self.r.below(5) > 0 => n - 1,
            Wrong::Mark => 0,
            _ => self.r.below(n),
        };
        // What is 16 or 17 in the line that no LF ends.
        match (wrong, self.sheets.turn % 3) {
            (Wrong::Open, 0) => self.spoil(&mut lines[at], Wrong::Unquoted),
            (Wrong::Open, 1) => self.spoil(&mut lines[at], Wrong::TooLong),
            _ => {}
        }
        self.spoil(&mut lines[at], wrong);
        self.import(&lines);
    }

    /// Two things wrong, in one line or in two.
    fn two_wrong(&mut self) {
        let n = self.among(2, 4);
        let mut lines = self.sheet(n);
        let kind = self.r.below(6);
        let (mut first, mut second) = match kind {
            // each of 15, 16, 17 before another, in the next line
            0 | 1 => (self.of(&EACH_NUMBER), self.of(&EACH_NUMBER)),
            // the catalogue's before them
            2 => (self.of(&IN_RECORD), self.of(&EACH_NUMBER)),
            // two of the catalogue's
            3 => (self.of(&IN_RECORD), self.of(&IN_RECORD)),
            _ => (self.of(&WRONG), self.of(&WRONG)),
        };
        let a = self.r.below(n - 1);
        let b = match kind {
            2 if self.chance(2) => a,
            0..=3 => self.among(a + 1, n - 1),
            4 => a,
            _ => self.r.below(n),
        };
        if kind == 4 && self.chance(2) {
            // 16 or 17 in a line that is 15 too
            first = self.of(&[Wrong::Unquoted, Wrong::TooLong, Wrong::UnquotedEmpty, Wrong::TooLongHalved]);
            second = self.of(&BESIDE_TRACE);
        }
        self.spoil(&mut lines[a], first);
        self.spoil(&mut lines[b], second);
        self.import(&lines);
    }

    /// A trace once more, as it was written or with other spaces behind it; and
    /// something else wrong in a line behind both.
    fn sheet_repeat(&mut self, wrong: Option<Wrong>) {
        let n = self.among(2, 5);
        let mut lines = self.sheet(n);
        let later = self.among(1, n - 1);
        let first = self.r.below(later);
        let characters = self.of(&[&b"LINE 7"[..], b"\"", b"a, b", b"x", b"12345678901234"]);
        for (k, at) in [first, later].into_iter().enumerate() {
            let spaces = if k == 0 || self.chance(2) { 0 } else { self.among(0, 15 - characters.len()) };
            lines[at].fields[2] = quoted(&[characters, &b" ".repeat(spaces)].concat());
        }
        if let Some(wrong) = wrong {
            let characters = self.characters(n);
            let mut line = self.sheet_line(&characters);
            self.spoil(&mut line, wrong);
            lines.push(line);
        }
        self.import(&lines);
    }

    /// A good text with one byte changed, left out or put in, or cut off.
    fn changed_sheet(&mut self) {
        let n = self.among(1, 2);
        let mut text = Self::sheet_text(&self.sheet(n));
        let at = self.r.below(text.len());
        let any = self.r.byte();
        let byte = self.of(&[b'"', b',', b'\n', b'\r', b' ', b'0', b'9', b'A', b'f', any, any]);
        match self.r.below(6) {
            0 | 1 => text[at] = byte,
            2 => drop(text.remove(at)),
            3 => text.insert(at, byte),
            4 => text.truncate(at),
            _ => text.insert(at, text[at]),
        }
        self.import_text(&text);
    }

    /// A good text or a few, as it stands and as export writes what it gives.
    fn good_sheet(&mut self) {
        let n = self.of(&[0, 1, 1, 2, 3, 5]);
        let mut lines = self.sheet(n);
        if n > 0 {
            // traces that are a case of their own
            let own = self.of(&[
                &b"\""[..], b"\"\"", b"a", b"\"a", b"a\"", b"a\"\"b", b"a\",b", b",", b" a", b"a ", b"\",12,\"", b"12345678901234",
                b"12345678901234\"", b"\"\"\"\"\"\"\"\"\"\"\"\"\"\"\"", b"03E5",
            ]);
            let at = self.r.below(n);
            lines[at].fields[2] = quoted(own);
        }
        let text = Self::sheet_text(&lines);
        self.import_text(&text);
        if let Ok(catalogue) = second::import(&text) {
            self.export(&catalogue);
            if let (true, Ok(text)) = (self.chance(2), second::export(&catalogue)) {
                self.import_text(&text);
            }
        }
    }

    /// A catalogue, good or with a fault, into text; and a good one back.
    fn export_some(&mut self) {
        let n = self.r.below(5);
        let mut bytes = self.records(n);
        for at in (0..bytes.len()).step_by(21) {
            match self.r.below(6) {
                0 => bytes[at + 5 + self.r.below(15)] = b'"',
                1 => bytes[at + 5] = self.of(b"\" ,"),
                2 => bytes[at + 19] = b'"',
                3 => bytes[at + 5..at + 20].fill(b'"'),
                4 => bytes[at + 2..at + 4].copy_from_slice(&(self.of(&[1, 10, 99, 100, 1000]) as u16).to_be_bytes()),
                _ => {}
            }
        }
        if n > 0 && self.chance(2) {
            let at = 21 * self.r.below(n);
            match self.r.below(8) {
                kind @ 0..=4 => self.fault(&mut bytes, at, kind),
                5 => bytes[at + 5..at + 20].fill(b' '),
                6 => Self::repeat(&mut bytes, 1, n),
                _ => bytes.truncate(21 * n - self.among(1, 20)),
            }
        }
        self.export(&bytes);
        if let (true, Ok(text)) = (self.chance(2), second::export(&bytes)) {
            self.import_text(&text);
        }
    }

    /// A catalogue with a fault, each kind in turn.
    fn export_wrong(&mut self) {
        let n = self.among(2, 4);
        let mut bytes = self.records(n);
        let at = 21 * self.r.below(n);
        match self.sheets.turn % 9 {
            kind @ 0..=2 => self.fault(&mut bytes, at, kind),
            3 => bytes[at + 5 + self.r.below(15)] = self.of(&[0x00, 0x0A, 0x0D, 0x1F]),
            4 => bytes[at + 5 + self.r.below(15)] = self.of(&[0x7F, 0x80, 0xFF]),
            5 => bytes[at + 5..at + 20].fill(b' '),
            6 => self.fault(&mut bytes, at, 4),
            7 => Self::repeat(&mut bytes, 1, n),
            _ => bytes.truncate(21 * n - self.among(1, 20)),
        }
        self.export(&bytes);
    }

    /// Lines that are short, so that many are not too many bytes.
    fn many_lines(n: usize) -> Vec<SheetLine> {
        (0..n)
            .map(|k| {
                let fields = vec![b"1".to_vec(), b"12".to_vec(), quoted(&[0x21 + (k / 90) as u8, 0x21 + (k % 90) as u8]), b"0".to_vec()];
                SheetLine { fields, end: b"\n".to_vec() }
            })
            .collect()
    }

    /// A text of as many lines as there may be, or one more or less, in one of many
    /// ways.
    fn long_sheet(&mut self, kind: usize) {
        let n = match kind {
            0..=6 => 512,
            7 | 8 => 511,
            9 => 515,
            10 => 513,
            _ => 514,
        };
        let mut lines = Self::many_lines(n);
        let mut behind: &[u8] = b"";
        match kind {
            0 => {}
            1 => behind = self.of(&[b"1", b"\r", b"1,12,\"ab\",0"]),
            2 => self.spoil(&mut lines[511], Wrong::Open),
            3 => self.spoil(&mut lines[511], Wrong::Unquoted),
            4 => self.spoil(&mut lines[511], Wrong::TooLong),
            5 => self.spoil(&mut lines[511], Wrong::FlagsEmpty),
            6 => lines[511].fields[2] = lines[self.r.below(511)].fields[2].clone(),
            7 => behind = b"1,12,\"ab\",0",
            8 => behind = b"\n",
            9 | 10 => {}
            _ => {
                for wrong in EACH_NUMBER {
                    let at = self.r.below(n);
                    self.spoil(&mut lines[at], wrong);
                }
            }
        }
        let text = [&Self::sheet_text(&lines)[..], behind].concat();
        self.import_text(&text);
        if let (0, Ok(catalogue)) = (kind, second::import(&text)) {
            self.export(&catalogue);
        }
    }

    /// Empty lines, about as many as there may be, and what may stand in the first
    /// and behind them.
    fn bare_lines(&mut self) {
        let (first, n, behind): (usize, usize, &[u8]) =
            self.in_turn(&[(0, 512, b"x"), (0, 513, b""), (0, 511, b"x"), (81, 514, b""), (0, 512, b""), (100, 512, b"x")]);
        self.import_text(&[&b"x".repeat(first)[..], &b"\n".repeat(n), behind].concat());
    }

    /// More bytes than there are in any good text: lines of just 80, or no LF at
    /// all.
    fn far_sheet(&mut self, lines: bool) {
        let text = if lines {
            let line = [b"1,12,", &b"x".repeat(73)[..], b",0\n"].concat();
            line.repeat(513)
        } else {
            b"x".repeat(self.among(41_473, 49_000))
        };
        self.import_text(&text);
    }

    fn sheet_text(lines: &[SheetLine]) -> Vec<u8> {
        lines.iter().flat_map(SheetLine::bytes).collect()
    }

    fn import(&mut self, lines: &[SheetLine]) {
        self.import_text(&Self::sheet_text(lines));
    }

    fn import_text(&mut self, text: &[u8]) {
        self.say(&format!("import{}", Self::behind(text)));
    }

    fn export(&mut self, bytes: &[u8]) {
        self.say(&format!("export{}", Self::behind(bytes)));
    }

    /// Plays the next spreadsheet, with numbers of its own; false where none is
    /// left.
    pub(super) fn next_sheet(&mut self) -> bool {
        let Some(sheet) = self.sheets.left.pop() else {
            return false;
        };
        std::mem::swap(&mut self.r, &mut self.sheets.r);
        match sheet {
            Sheet::Wrong(wrong) => self.wrong_sheet(wrong),
            Sheet::TwoWrong => self.two_wrong(),
            Sheet::Repeat(wrong) => self.sheet_repeat(wrong),
            Sheet::Changed => self.changed_sheet(),
            Sheet::Good => self.good_sheet(),
            Sheet::Export => self.export_some(),
            Sheet::WrongExport => self.export_wrong(),
            Sheet::Bare => self.bare_lines(),
            Sheet::Long(kind) => self.long_sheet(kind),
            Sheet::Far(lines) => self.far_sheet(lines),
        }
        std::mem::swap(&mut self.r, &mut self.sheets.r);
        true
    }
}
