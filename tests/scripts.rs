//! Random scripts for the bench, the same for the same seed: what `script SEED UNITS` prints, and what the fault load plays.
//!
//! Each line goes through the second program's bench as it is written, so that
//! the next can be chosen by where source and sink stand. Most lines say in one
//! of many ways what they say: blanks, small digits, comments, a CR.

use crate::bench::words::{self, LONGEST_LINE, MARK};
use crate::bench::{hex, Bench, Command};
use crate::random::Random;
use crate::second::{self, Asked, Pointer};

// The path is said, since some of the programs that take this file as a module
// stand beside it and some elsewhere.
#[path = "sheets.rs"]
mod sheets;

use sheets::Spreadsheets;

const NORMAL: [u16; 5] = [0b0110, 0b1110, 0b0010, 0b0100, 0b0111];
const ENABLED: [u16; 5] = [0b1001, 0b0001, 0b1101, 0b1011, 0b1000];
const NEITHER: [u16; 6] = [0b0000, 0b0011, 0b0101, 0b1010, 0b1100, 0b1111];
const I_BITS: [u16; 5] = [1 << 9, 1 << 7, 1 << 5, 1 << 3, 1 << 1];
const D_BITS: [u16; 5] = [1 << 8, 1 << 6, 1 << 4, 1 << 2, 1];
/// A script ends after so many lines for each unit that it should have, whatever
/// became of them.
const LINES_A_UNIT: usize = 100;

/// How the lines of a script are dressed.
#[derive(Clone, Copy)]
enum Dress {
    /// Not at all.
    Plain,
    /// Some, in every way.
    Some,
    /// Each with a CR, and some in other ways.
    Returns,
}

struct Script {
    r: Random,
    sheets: Spreadsheets,
    path: Bench,
    text: Vec<u8>,
    lines: usize,
    dress: Dress,
    sinks: usize,
    /// Whether the last unit ended settled.
    settled: bool,
    label: u8,
    trace: [u8; 15],
}

/// The kinds of words of a row.
#[derive(Clone, Copy)]
enum Kind {
    Plain,
    Source,
    Other,
    Alike,
    Inverted,
    NewData,
    Ones,
    Invalid,
}

impl Script {
    /// One line, dressed in some way, and what the bench makes of it.
    fn say(&mut self, line: impl AsRef<[u8]>) {
        let line = self.dressed(line.as_ref());
        self.put(&line);
    }

    /// One line just as it is.
    fn put(&mut self, line: &[u8]) {
        self.text.extend_from_slice(line);
        self.text.push(b'\n');
        self.lines += 1;
        let line = if self.lines == 1 { &self.text[..self.text.len() - 1] } else { line };
        for command in self.path.commands(line, self.lines, &mut |_| {}).unwrap_or_default() {
            let said = self.path.play(&command, &mut |_| {});
            match command {
                Command::Fresh => self.settled = false,
                Command::Sink if said.starts_with("ok") => {
                    self.sinks += 1;
                    self.settled = said.contains(" settled=1 ");
                }
                _ => {}
            }
        }
    }

    /// The same line with more blanks, other digits, a comment or a CR.
    fn dressed(&mut self, line: &[u8]) -> Vec<u8> {
        let mut text = Vec::new();
        let one_in = match self.dress {
            Dress::Plain => return line.to_vec(),
            Dress::Some => 4,
            Dress::Returns => 8,
        };
        let some = self.chance(one_in);
        match words::words(line, 2) {
            Some(words) if some && !words.is_empty() => {
                text.resize(self.of(&[0, 0, 1, 3]), b' ');
                let digits = self.r.below(3);
                for (k, word) in words.iter().enumerate() {
                    if k > 0 {
                        let blanks = self.of(&[1, 1, 1, 2, 5]);
                        text.resize(text.len() + blanks, b' ');
                    }
                    for byte in *word {
                        // the digits that are letters, and none in quotes
                        let letter = k > 0 && word[0] != b'"' && (b'A'..=b'F').contains(byte);
                        let small = letter && (digits == 1 || digits == 2 && self.chance(2));
                        text.push(if small { byte.to_ascii_lowercase() } else { *byte });
                    }
                }
                let behind: &[u8] = self.of(&[
                    b"", b"", b"", b"", b" ", b"    ", b" # a comment", b" #", b"   ## sink", b" #\"", b" # \"03E5\" \xE9\t\0", b" #x\r#",
                ]);
                text.extend_from_slice(behind);
            }
            _ => text.extend_from_slice(line),
        }
        if matches!(self.dress, Dress::Returns) || some && self.chance(4) {
            text.push(b'\r');
        }
        text
    }

    fn chance(&mut self, one_in: usize) -> bool {
        self.r.below(one_in) == 0
    }

    fn of<T: Copy>(&mut self, list: &[T]) -> T {
        list[self.r.below(list.len())]
    }

    /// Among `from` to `to`, both of them.
    fn among(&mut self, from: usize, to: usize) -> usize {
        from + self.r.below(to - from + 1)
    }

    fn state(&self) -> Pointer {
        self.path.sink.pointer.state
    }

    /// The sink's offset, or the source's where it has none.
    fn offset(&self) -> u16 {
        match self.state() {
            Pointer::Normal(offset) => offset,
            _ => self.path.units.offset,
        }
    }

    /// A value of every kind, mostly in range.
    fn value(&mut self) -> u16 {
        match self.r.below(12) {
            0 => 0,
            1 => 1,
            2 => 521,
            3 => 522,
            4 => 781,
            5 => 782,
            6 => self.path.units.offset,
            7 => self.offset(),
            _ => self.r.below(783) as u16,
        }
    }

    fn word(&mut self, ndf: u16, ss: u16, value: u16) {
        self.say(&format!("word {:04X}", (ndf << 12) | (ss << 10) | value));
    }

    /// A unit of the source without adjustment.
    fn source(&mut self) {
        self.say("src -");
    }

    fn good(&mut self, n: usize) {
        if n > 0 && self.chance(3) {
            self.say(format!("run {n}"));
            return;
        }
        for _ in 0..n {
            self.source();
            self.say("sink");
        }
    }

    /// A byte of the line made this one.
    fn set(&mut self, place: usize, want: u8) {
        let with = self.path.line[place] ^ want;
        if with != 0 || self.chance(20) {
            self.say(&format!("xor {place} {with:02X}"));
        }
    }

    /// Where a row's first byte of a container stands, for an offset.
    fn place(offset: u16, row: usize) -> usize {
        9 + (3 * usize::from(offset) + 261 * row) % 2349
    }

    fn source_place(&self, row: usize) -> usize {
        Self::place(self.path.units.offset, row)
    }

    /// A trace that nothing refuses.
    fn trace(&mut self) -> [u8; 15] {
        let mut t = [b' '; 15];
        match self.r.below(8) {
            0 | 1 => t[..4].copy_from_slice(b"03E5"),
            2 | 3 => {
                for c in &mut t {
                    *c = 0x20 + self.r.below(0x5F) as u8;
                }
            }
            4 => {
                // what has a meaning outside quotes, or inside
                let n = self.r.below(16);
                for c in &mut t[..n] {
                    *c = self.of(b"\"\"\" # #aF0");
                }
            }
            5 => {}
            _ => {
                let name = format!("LINE {}", self.r.below(4));
                t[..name.len()].copy_from_slice(name.as_bytes());
            }
        }
        if t == [b' '; 15] {
            return self.spaces_but_one();
        }
        t
    }

    /// A good trace with as many spaces as one can have.
    fn spaces_but_one(&mut self) -> [u8; 15] {
        let mut t = [b' '; 15];
        let at = self.r.below(15);
        t[self.of(&[0, at, at, 14])] = self.of(b"!~A0\"#");
        t
    }

    /// The same but for one character, and as good.
    fn nearly(trace: [u8; 15], place: usize) -> [u8; 15] {
        let mut t = trace;
        t[place] = if t[place] == b'x' { b'y' } else { b'x' };
        t
    }

    /// The characters of a good message that no source sends.
    fn unsent(&mut self) -> [u8; 15] {
        self.of(&[[b' '; 15], [b' '; 15], [0x00; 15], [0x7F; 15]])
    }

    /// A character below the good ones, or above.
    fn wrong_character(&mut self) -> u8 {
        let any = self.r.byte();
        match self.r.below(2) {
            0 => self.of(&[0x00, 0x1F, any % 0x20]),
            _ => self.of(&[0x7F, 0x80, 0xFF, any | 0x80]),
        }
    }

    /// A trace that is refused: spaces alone, or one character or more below or
    /// above, at any place, among spaces or others.
    fn wrong_trace(&mut self) -> [u8; 15] {
        let (good, spaces) = (self.trace(), [b' '; 15]);
        let (mut t, n) = match self.r.below(8) {
            0 | 1 => return spaces,
            2 => (spaces, 1),
            3..=5 => (good, 1),
            6 => (good, 2),
            _ => (good, self.among(2, 15)),
        };
        for _ in 0..n {
            let at = self.r.below(15);
            t[self.of(&[at, at, at, at, 0, 14])] = self.wrong_character();
        }
        t
    }

    fn legal_label(&mut self) -> u8 {
        match self.r.below(4) {
            0 => self.of(&[0x01, 0x02, 0x12, 0x13, 0xFE]),
            _ => 1 + self.r.below(254) as u8,
        }
    }

    /// A trace's word: its digits, or its characters in quotes.
    fn written(&mut self, trace: &[u8; 15]) -> Vec<u8> {
        // An LF would end the line.
        if self.chance(2) || trace.contains(&b'\n') {
            return hex(trace).into_bytes();
        }
        let needed = 15 - trace.iter().rev().take_while(|c| **c == b' ').count();
        let length = self.of(&[needed, needed, needed, 15, (needed + 15) / 2]);
        quoted(&trace[..length])
    }

    fn tx(&mut self, label: u8, trace: [u8; 15], violations: usize, remote: bool) {
        let word = self.written(&trace);
        self.tx_word(label, &word, &format!("{violations} {}", u8::from(remote)));
    }

    fn rx(&mut self, label: u8, trace: [u8; 15], flags: usize) {
        let word = self.written(&trace);
        self.rx_word(label, &word, &flags.to_string());
    }

    fn tx_word(&mut self, label: u8, trace: &[u8], behind: &str) {
        self.say([format!("tx {label:02X} ").as_bytes(), trace, b" ", behind.as_bytes()].concat());
    }

    fn rx_word(&mut self, label: u8, trace: &[u8], behind: &str) {
        self.say([format!("rx {label:02X} ").as_bytes(), trace, b" ", behind.as_bytes()].concat());
    }

    fn flags(&mut self) -> usize {
        self.r.below(16)
    }

    /// The settings that were, with other flags.
    fn other_flags(&mut self) {
        let flags = self.flags();
        let e = self.path.expected;
        self.rx(e.label, e.trace, flags);
    }

    /// Both ends with the script's label and trace, lengths as they should be.
    fn agree(&mut self) {
        let flags = if self.chance(2) { 15 } else { self.flags() };
        let (label, trace) = (self.label, self.trace);
        self.tx(label, trace, 0, false);
        self.rx(label, trace, flags);
        if self.path.held.len() != 2349 || self.path.done.len() != 2349 {
            self.say("lens 2349 2349");
        }
    }

    /// Good units until one ends settled, 90 at most.
    fn settle(&mut self) {
        self.agree();
        for k in 0..90 {
            if self.settled && k > 1 {
                break;
            }
            self.good(1);
        }
    }

    // -- episodes --------------------------------------------------------

    /// 80 units or more with what is expected, adjustments among them.
    fn long_good(&mut self) {
        self.label = self.legal_label();
        self.trace = self.trace();
        self.agree();
        let n = self.among(80, 100);
        let every = self.among(4, 30);
        for k in 0..n {
            let asked = if k > 3 && k % every == 0 && self.path.units.wait == 3 {
                self.of(&["src i", "src d"])
            } else {
                "src -"
            };
            self.say(asked);
            self.say("sink");
            if self.chance(25) {
                self.payload();
            }
        }
    }

    fn payload(&mut self) {
        let asked = self.of(&["payload 0", "payload 0", "payload 1", "payload 00", "payload 000000001"]);
        self.say(asked);
    }

    /// A row of words of one kind.
    fn row(&mut self) {
        let kind = self.of(&[
            Kind::Plain,
            Kind::Source,
            Kind::Other,
            Kind::Alike,
            Kind::Alike,
            Kind::Inverted,
            Kind::NewData,
            Kind::NewData,
            Kind::Ones,
            Kind::Ones,
            Kind::Invalid,
            Kind::Invalid,
            Kind::Invalid,
        ]);
        let n = match kind {
            _ if self.chance(6) => self.among(1, 10),
            Kind::Ones => self.of(&[1, 2, 2, 3, 3, 4, 5]),
            Kind::NewData | Kind::Invalid => self.of(&[1, 2, 4, 7, 7, 7, 8, 10]),
            _ => self.among(1, 5),
        };
        self.words(kind, n);
    }

    fn words(&mut self, kind: Kind, n: usize) {
        let value = self.value();
        let one_fault = if self.chance(3) { Some(self.r.below(9)) } else { None };
        for _ in 0..n {
            self.source();
            match kind {
                Kind::Source => {}
                Kind::Plain => {
                    let (ndf, offset) = (self.of(&NORMAL), self.offset());
                    self.word(ndf, 2, offset);
                }
                Kind::Other => {
                    let (ndf, value) = (self.of(&NORMAL), self.value());
                    self.word(ndf, 2, value);
                }
                Kind::Alike => {
                    let ndf = self.of(&NORMAL);
                    self.word(ndf, 2, value);
                }
                Kind::Inverted => self.inverted(),
                Kind::NewData => {
                    let ndf = self.of(&ENABLED);
                    let value = if self.chance(3) { self.value() } else { value };
                    self.word(ndf, 2, value);
                }
                Kind::Ones => self.say("word FFFF"),
                Kind::Invalid => {
                    let fault = one_fault.unwrap_or_else(|| self.r.below(9));
                    self.invalid(fault);
                }
            }
            self.say("sink");
        }
    }

    /// A word inverted against the sink's offset: three bits or more of one
    /// kind, few of the other, or nearly so.
    fn inverted(&mut self) {
        let offset = self.offset();
        let (most, fewest) = if self.chance(2) { (I_BITS, D_BITS) } else { (D_BITS, I_BITS) };
        let (a, b) = self.of(&[(5, 0), (5, 0), (4, 0), (4, 1), (5, 1), (5, 2), (4, 2), (3, 0), (3, 1), (3, 2), (2, 0), (2, 2), (3, 3), (5, 3)]);
        let mut value = offset;
        for (bits, count) in [(most, a), (fewest, b)] {
            let from = self.r.below(5);
            for k in 0..count {
                value ^= bits[(from + k) % 5];
            }
        }
        let ndf = if self.chance(3) { self.of(&NORMAL) } else { 0b0110 };
        self.word(ndf, 2, value);
    }

    fn invalid(&mut self, fault: usize) {
        let any = self.r.below(1024) as u16;
        let beyond = 783 + self.r.below(241) as u16;
        let value = self.value();
        let wrong_ss = self.of(&[0, 1, 3]);
        match fault {
            0 => {
                let ndf = self.of(&NEITHER);
                self.word(ndf, 2, value);
            }
            1 => {
                let ndf = self.of(&NEITHER);
                let (ss, value) = if ndf == 15 && any == 1023 { (0, any) } else { (wrong_ss, any) };
                self.word(ndf, ss, value);
            }
            2 => {
                let ndf = self.of(&NORMAL);
                self.word(ndf, wrong_ss, any);
            }
            3 => {
                let ndf = self.of(&ENABLED);
                self.word(ndf, 2, beyond);
            }
            4 => {
                let (ndf, value) = (self.of(&ENABLED), self.of(&[any, beyond]));
                self.word(ndf, wrong_ss, value);
            }
            5 | 6 => {
                let ndf = self.of(&NORMAL);
                self.word(ndf, 2, beyond);
            }
            7 => {
                // an alarm word but for one bit or both of SS
                let word = self.of(&[0xFBFF, 0xF7FF, 0xF3FF, 0xFFFE, 0xFDFF, 0xFF7F, 0xFEFF]);
                self.say(&format!("word {word:04X}"));
            }
            _ => {
                // one bit of each kind against the offset
                let offset = self.offset();
                let value = offset ^ self.of(&I_BITS) ^ self.of(&D_BITS);
                self.word(0b0110, 2, value);
            }
        }
    }

    /// Any word at all.
    fn any_words(&mut self) {
        for _ in 0..self.among(4, 16) {
            self.source();
            let ndf = self.r.below(16) as u16;
            let ss = if self.chance(4) { self.r.below(4) as u16 } else { 2 };
            let value = if self.chance(5) { self.r.below(1024) as u16 } else { self.value() };
            self.word(ndf, ss, value);
            self.say("sink");
        }
    }

    /// A failed section.
    fn ones(&mut self) {
        let n = self.of(&[1, 2, 3, 3, 4, 6, 10]);
        for _ in 0..n {
            self.source();
            self.say("ones");
            self.say("sink");
        }
        let n = self.of(&[0, 1, 2, 3, 5]);
        self.good(n);
    }

    /// Alarm, and a way out of it or to lost.
    fn through_alarm(&mut self) {
        let n = self.among(3, 4);
        self.words(Kind::Ones, n);
        if self.chance(3) {
            // eight in a row, those of rule 5 but out of range among them
            for _ in 0..8 {
                self.source();
                let fault = self.of(&[5, 5, 0, 3]);
                self.invalid(fault);
                self.say("sink");
            }
            return;
        }
        let (kind, n) = self.of(&[
            (Kind::Invalid, 7),
            (Kind::Invalid, 8),
            (Kind::Invalid, 8),
            (Kind::Invalid, 9),
            (Kind::NewData, 1),
            (Kind::NewData, 7),
            (Kind::NewData, 8),
            (Kind::Alike, 2),
            (Kind::Alike, 3),
            (Kind::Source, 3),
            (Kind::Other, 2),
        ]);
        self.words(kind, n);
        let n = self.of(&[0, 1, 2]);
        self.words(Kind::Ones, n);
    }

    /// Lost, or nearly, then what changes nothing there.
    fn through_lost(&mut self) {
        let (kind, n) = self.of(&[
            (Kind::Invalid, 7),
            (Kind::Invalid, 8),
            (Kind::Invalid, 10),
            (Kind::NewData, 7),
            (Kind::NewData, 8),
            (Kind::NewData, 10),
        ]);
        if self.path.sink.pointer.state == Pointer::Lost {
            self.good(3);
        }
        self.words(kind, n);
        match self.r.below(3) {
            0 => {
                // out of range
                self.source();
                self.invalid(5);
                self.say("sink");
            }
            1 => self.words(Kind::NewData, 1),
            _ => {}
        }
        let (kind, n) = self.of(&[
            (Kind::Invalid, 3),
            (Kind::NewData, 3),
            (Kind::Ones, 2),
            (Kind::Ones, 4),
            (Kind::Other, 2),
            (Kind::Alike, 3),
        ]);
        self.words(kind, n);
    }

    /// Legal adjustments of the source one after the other, and refused ones.
    fn walk(&mut self) {
        self.good(4);
        for _ in 0..self.among(3, 7) {
            let offset = self.path.units.offset;
            // about 0 mostly
            let asked = match offset {
                2..=400 if self.r.below(3) > 0 => "src d",
                401..=781 if self.r.below(3) > 0 => "src i",
                _ => self.of(&["src i", "src d"]),
            };
            self.say(asked);
            self.say("sink");
            for _ in 0..self.of(&[3, 3, 3, 4]) {
                if self.chance(5) {
                    let early = self.of(&["src i", "src d"]);
                    self.say(early);
                    if self.chance(4) {
                        // the unit before once more
                        self.say("sink");
                    }
                }
                self.good(1);
            }
        }
    }

    /// Adjustments by words, from every kind of offset, in time or too early.
    fn adjust(&mut self) {
        let value = self.value();
        let (ndf, by_new_data) = if self.chance(2) { (self.of(&ENABLED), 1) } else { (self.of(&NORMAL), 3) };
        for _ in 0..by_new_data {
            self.source();
            self.word(ndf, 2, value);
            self.say("sink");
        }
        for _ in 0..self.among(3, 6) {
            let between = self.of(&[0, 1, 2, 2, 3, 3, 3, 4]);
            self.words(Kind::Plain, between);
            self.words(Kind::Inverted, 1);
        }
    }

    /// One unit with a container begun at the sink's offset, its overhead as
    /// said. `asked` adjusts; the B3 gets so many violations.
    fn craft(&mut self, offset: u16, asked: Asked, j1: u8, mask: u8, c2: u8, g1: u8) {
        self.source();
        let (word, after, first) = match asked {
            Asked::Nothing => (second::plain_word(offset), offset, 9),
            Asked::Increment => (second::increment_word(offset), (offset + 1) % 783, 12),
            Asked::Decrement => (second::decrement_word(offset), (offset + 782) % 783, 6),
        };
        self.say(&format!("word {word:04X}"));
        self.set(Self::place(after, 0), j1);
        self.set(Self::place(after, 2), c2);
        self.set(Self::place(after, 3), g1);
        // B3: of the container begun before, or of the one begun here.
        let held = usize::from(self.path.sink.held);
        let before = if 3 * usize::from(after) + 261 >= 2349 {
            self.path.sink.parity
        } else if held > 0 {
            let rest = &self.path.line[first..first + 2349 - held];
            Some(second::parity(&self.path.held[..held]) ^ second::parity(rest))
        } else {
            self.path.sink.parity
        };
        let b3 = before.unwrap_or(0) ^ mask;
        self.set(Self::place(after, 1), b3);
        self.say("sink");
    }

    /// A path of its own at any offset: the overhead is written by hand.
    fn crafted(&mut self) {
        self.agree();
        let value = self.of(&[1, 2, 260, 521, 522, 523, 696, 697, 780, 781, 782, self.path.units.offset]);
        let value = if self.chance(3) { self.value() } else { value };
        self.source();
        if matches!(self.state(), Pointer::Lost) || self.chance(2) {
            self.word(0b0110, 2, value);
            self.say("sink");
            self.words_at(value, 2);
        } else {
            let ndf = self.of(&ENABLED);
            self.word(ndf, 2, value);
            self.say("sink");
        }
        let mut characters = self.path.expected.trace;
        if self.chance(4) {
            characters[14] ^= 1;
        }
        if self.chance(6) {
            characters[self.r.below(15)] = self.r.below(0x80) as u8; // any with top bit 0
        }
        if self.chance(2) {
            characters = self.unsent();
        }
        let mut message = vec![second::start_byte(&characters)];
        message.extend_from_slice(&characters);
        let n = self.of(&[10, 20, 35, 36, 52]);
        let mut label = self.path.expected.label;
        for k in 0..n {
            let offset = match self.state() {
                Pointer::Normal(offset) => offset,
                _ => return,
            };
            let asked = if k % 4 == 3 && self.path.sink.pointer.wait == 3 && self.chance(3) {
                self.of(&[Asked::Increment, Asked::Decrement])
            } else {
                Asked::Nothing
            };
            let any = self.r.byte();
            let mask = self.of(&[0, 0, 0, 0x10, 0x81, 0x7F, 0xFF, any, any]);
            if self.chance(12) {
                label = self.of(&[0x00, 0xFF, self.path.expected.label, self.path.expected.label]);
            }
            let g1 = if self.chance(3) { self.r.byte() } else { 0 };
            self.craft(offset, asked, message[k % 16], mask, label, g1);
        }
    }

    fn words_at(&mut self, value: u16, n: usize) {
        for _ in 0..n {
            self.source();
            self.word(0b0110, 2, value);
            self.say("sink");
        }
    }

    /// Labels, remote bits, violations sent for 1 to 8 containers and changed,
    /// causes asked for with many flags.
    fn overhead(&mut self) {
        for _ in 0..self.among(2, 5) {
            let e = self.path.expected.label;
            let any = self.r.byte();
            let label = self.of(&[0x00, 0x00, 0xFF, e ^ 0x10, any, e, e]);
            let remote = self.chance(2);
            let n = self.of(&[1, 2, 3, 4, 4, 5, 5, 6, 7, 8]);
            for _ in 0..n {
                self.source();
                let at = self.source_place(2);
                self.set(at, label);
                let returned = self.r.below(16) as u8;
                let ignored = self.r.byte() & 7;
                let at = self.source_place(3);
                self.set(at, (returned << 4) | (u8::from(remote) << 3) | ignored);
                if self.chance(3) {
                    let at = self.source_place(1);
                    let with = self.of(&[0x01, 0x03, 0x07, 0x0F, 0x1F, 0x3F, 0x7F, 0xFF, 0x80, 0xA5]);
                    self.say(&format!("xor {at} {with:02X}"));
                }
                if self.chance(2) {
                    self.other_flags();
                }
                self.say("sink");
            }
        }
    }

    /// Four against a defect that stands or does not, and the fifth as before.
    fn four(&mut self) {
        let e = self.path.expected.label;
        let (on, off) = self.of(&[(0x00, e), (e ^ 0x40, e), (0x00, 0x77)]);
        let both = self.chance(2);
        for (label, n) in [(off, 2), (on, 4), (off, 1), (on, 5), (off, 4), (on, 1), (off, 5)] {
            for _ in 0..n {
                self.source();
                let at = self.source_place(2);
                self.set(at, label);
                let at = self.source_place(3);
                self.set(at, if both && label == on { 0x08 } else { 0x00 });
                if self.chance(3) {
                    self.other_flags();
                }
                self.say("sink");
            }
        }
    }

    /// The same by the source's own settings.
    fn sent(&mut self) {
        for _ in 0..self.among(1, 4) {
            let label = if self.chance(2) { self.label } else { self.legal_label() };
            let trace = if self.chance(4) { self.trace() } else { self.trace };
            let violations = self.r.below(9);
            let remote = self.chance(2);
            self.tx(label, trace, violations, remote);
            let n = self.among(1, 8);
            self.good(n);
        }
    }

    /// Settings that the source refuses, and units asked for meanwhile.
    fn refused_source(&mut self) {
        let (label, trace) = (self.label, self.trace);
        for _ in 0..self.among(5, 9) {
            let wrong = self.wrong_trace();
            match self.r.below(6) {
                0 => {
                    let label = self.of(&[0x00, 0xFF]);
                    self.tx(label, trace, 0, false);
                }
                1 | 2 => self.tx(label, wrong, 0, false),
                3 => {
                    let violations = self.of(&[9, 15, 16, 255]);
                    let trace = self.of(&[trace, wrong, wrong]);
                    self.tx(label, trace, violations, true);
                }
                _ => {
                    let (label, trace, violations) = self.of(&[(0x00, wrong, 9), (0xFF, trace, 9), (0x00, wrong, 0), (0xFF, wrong, 0)]);
                    self.tx(label, trace, violations, true);
                }
            }
            for _ in 0..self.among(1, 3) {
                let asked = self.of(&["src -", "src i", "src d"]);
                self.say(asked);
                if self.chance(3) {
                    self.say("sink");
                }
            }
        }
        self.tx(label, trace, 0, false);
        if self.chance(3) {
            // an empty queue and a wrong setting, then one after the other
            self.say("fresh");
            self.tx(0xFF, trace, 0, false);
            self.say("src -");
            self.tx(label, trace, 0, false);
        }
        self.good(1);
    }

    /// Bytes damaged anywhere.
    fn damage(&mut self) {
        for _ in 0..self.among(2, 8) {
            self.source();
            for _ in 0..self.among(1, 4) {
                let at = if self.chance(3) { self.r.below(12) } else { self.r.below(2358) };
                let with = self.r.byte();
                if at != 0 && at != 3 || self.chance(3) {
                    self.say(&format!("xor {at} {with:02X}"));
                }
            }
            if self.chance(3) {
                let at = self.source_place(1);
                let with = self.r.byte();
                self.say(&format!("xor {at} {with:02X}"));
            }
            self.say("sink");
        }
    }

    /// Bits of a byte: one for the most part, any, or all.
    fn bits(&mut self) -> u8 {
        let (one, any) = (1 << self.r.below(8), self.r.byte());
        self.of(&[one, one, one, one, any, 0xFF])
    }

    /// Bits of the source's unit turned over: those of a B3, or of a byte of the
    /// payload close behind J1.
    fn hit(&mut self, b3: bool, with: u8) {
        let at = if b3 { 0 } else { 1 + self.r.below(20) };
        let place = 9 + (3 * usize::from(self.path.units.offset) + 261 * usize::from(b3) + at) % 2349;
        self.say(&format!("xor {place} {with:02X}"));
    }

    /// Columns violated in one container or in two, one after the other: by a
    /// byte of the payload, or by B3, which shows twice.
    fn columns(&mut self) {
        let agreed = Pointer::Normal(self.path.units.offset);
        if self.state() != agreed {
            self.agree();
            self.good(4);
        }
        for _ in 0..self.among(2, 4) {
            let (with, other) = (self.bits(), self.bits());
            let hits = self.of(&[(true, with, 0), (true, with, 0), (false, with, 0), (false, with, with), (false, with, other), (false, with, other)]);
            let (b3, first, then) = hits;
            for with in [first, then] {
                self.source();
                if with != 0 {
                    self.hit(b3, with);
                }
                self.say("sink");
            }
            let n = self.among(1, 2);
            self.good(n);
        }
    }

    /// Two containers that end in one unit, each with columns of its own, or the
    /// one alone, or neither.
    fn columns_of_two(&mut self) {
        self.say("fresh");
        self.agree();
        self.good(3);
        for _ in 0..2 {
            self.say("src i");
            self.say("sink");
            let (one, other) = (self.bits(), self.bits());
            // a byte shows in the container behind its own
            let (first, second) = self.of(&[(one, 0), (one, 0), (0, one), (0, one), (one, other), (one, other), (one, one), (0, 0)]);
            for with in [0, first, second] {
                self.source();
                if with != 0 {
                    self.hit(false, with);
                }
                self.say("sink");
            }
            self.say("src d");
            self.say("sink");
            self.good(3);
        }
    }

    /// The place in its message of the J1 that the next unit brings, where
    /// source and sink agree.
    fn coming(&self) -> usize {
        let begun = usize::from(self.offset() != 0);
        (usize::from(self.path.sink.place) + begun) % 16
    }

    /// Messages cut, wrong and stray.
    fn messages(&mut self) {
        for _ in 0..self.among(16, 40) {
            let coming = self.coming();
            self.source();
            let with = match coming {
                0 if self.chance(4) => 0x80,
                15 if self.chance(2) => self.of(&[0x80, 0x80, 0x01]),
                1..=14 if self.chance(20) => self.of(&[0x80, 0x80, 0x01, 0x20, 0x7F]),
                _ => 0,
            };
            if with != 0 {
                let at = self.source_place(0);
                self.say(&format!("xor {at} {with:02X}"));
            }
            self.say("sink");
        }
    }

    /// Up to the end of a message, that one good.
    fn to_the_end_of_a_message(&mut self) {
        for _ in 0..40 {
            if matches!(self.state(), Pointer::Normal(_)) && self.path.sink.without == 0 {
                break;
            }
            self.good(1);
        }
    }

    /// Each of n messages wrong in one byte, or cut.
    fn wrong_messages(&mut self, n: usize) {
        for _ in 0..n {
            // not at its ends: the first J1 may be the second of its message
            let which = self.among(1, 13);
            for k in 0..16 {
                self.source();
                if k == which {
                    let at = self.source_place(0);
                    let with = self.of(&[0x80, 0x01, 0x04]);
                    self.say(&format!("xor {at} {with:02X}"));
                }
                self.say("sink");
            }
        }
    }

    // -- what follows a settled path -----------------------------------------

    /// 48 containers without a good message, and 47.
    fn without_messages(&mut self) {
        self.settle();
        let counts = self.of(&[[3, 2], [2, 3]]);
        for n in counts {
            self.to_the_end_of_a_message();
            self.wrong_messages(n);
            self.good(17);
        }
    }

    /// 48 without, where a message that is not the expected one set dTIM.
    fn without_the_right_one(&mut self) {
        self.settle();
        let e = self.path.expected;
        let flags = self.flags();
        self.rx(e.label, Self::nearly(e.trace, 14), flags);
        // a message after three of its kind
        for _ in 0..66 {
            if self.path.sink.tim {
                break;
            }
            self.good(1);
        }
        self.to_the_end_of_a_message();
        self.wrong_messages(3);
        self.good(17);
        if self.chance(2) {
            self.agree();
            self.good(34);
        }
    }

    /// The script's trace is one that it was not.
    fn another_trace(&mut self) {
        let before = self.trace;
        while self.trace == before {
            self.trace = self.trace();
        }
    }

    /// Another trace sent, or expected, for long.
    fn other_trace(&mut self) {
        self.settle();
        self.another_trace();
        let (label, trace) = (self.label, self.trace);
        let flags = self.flags();
        match self.r.below(4) {
            0 => self.tx(label, trace, 0, false),
            1 | 2 => self.rx(label, trace, flags),
            _ => {
                self.tx(label, trace, 0, false);
                self.good(20);
                self.rx(label, trace, flags);
            }
        }
        // The fourth message at the latest ends in the 79th, the fifth in the 95th.
        let n = self.of(&[36, 100, 100]);
        self.good(n);
    }

    /// Traces that change between two messages, each sent once or more.
    fn traces(&mut self) {
        self.agree();
        self.good(4);
        for n in [self.among(1, 3), 3, self.among(1, 2), self.among(1, 4)] {
            while self.path.containers.place != 0 {
                self.good(1);
            }
            self.another_trace();
            let (label, trace) = (self.label, self.trace);
            self.tx(label, trace, 0, false);
            if self.chance(3) {
                let flags = self.flags();
                self.rx(label, trace, flags);
            }
            // the next start byte goes out with these
            self.good(16 * n);
        }
    }

    /// Expected values changed where a unit ends no container.
    fn between_containers(&mut self) {
        self.settle();
        for _ in 0..2 {
            let (label, trace) = (self.label, self.trace);
            let flags = self.flags();
            let other = if label == 0x55 { 0x56 } else { 0x55 };
            match self.r.below(5) {
                0 => self.rx(label, Self::nearly(trace, 0), flags),
                1 | 2 => {
                    // dPLM by the setting, then not
                    self.rx(other, trace, flags);
                    self.good(2);
                    self.rx(label, trace, flags);
                }
                _ => self.rx(other, trace, flags),
            }
            if self.path.units.offset == 0 && self.path.units.wait == 3 && self.chance(2) {
                self.say("src i");
            } else {
                self.source();
                let ndf = self.of(&ENABLED);
                let value = match self.path.units.offset {
                    0 => self.of(&[1, 521, 782]),
                    offset => offset,
                };
                self.word(ndf, 2, value);
            }
            self.say("sink");
            self.rx(label, trace, flags);
            self.good(4);
        }
    }

    /// Defects one by one and together over a settled trace, and their causes.
    fn defects(&mut self) {
        self.settle();
        let e = self.path.expected.label;
        for _ in 0..2 {
            let label = self.of(&[e, 0x00, e ^ 0x21]);
            let remote = self.r.below(3) > 0;
            for k in 0..self.of(&[5, 7, 10]) {
                self.source();
                let at = self.source_place(2);
                self.set(at, label);
                let at = self.source_place(3);
                self.set(at, if remote { 0x08 } else { 0x00 });
                if k >= 4 {
                    let flags = self.of(&[1, 2, 3, 3, 0, 15]);
                    let e = self.path.expected;
                    self.rx(e.label, e.trace, flags);
                }
                self.say("sink");
            }
        }
        if self.chance(2) {
            self.ones();
        }
    }

    /// Defects standing, or runs under way, and then a clearing.
    fn cleared(&mut self) {
        if self.chance(2) {
            self.settle();
        } else {
            self.agree();
            self.good(6);
        }
        let n = self.of(&[1, 1, 2, 2, 5]);
        let label = self.of(&[0x00, 0x00, 0x77]);
        for _ in 0..n {
            self.source();
            let at = self.source_place(2);
            self.set(at, label);
            let at = self.source_place(3);
            self.set(at, 0x08);
            self.say("sink");
        }
        // three words that clear, the label kept up
        let kind = self.of(&[Kind::Ones, Kind::Ones, Kind::Ones, Kind::NewData]);
        let n = if matches!(kind, Kind::Ones) { 3 } else { 8 };
        for _ in 0..n {
            self.source();
            let at = self.source_place(2);
            self.set(at, label);
            let at = self.source_place(3);
            self.set(at, 0x08);
            if matches!(kind, Kind::Ones) {
                self.say("word FFFF");
            } else {
                let (ndf, offset) = (self.of(&ENABLED), self.path.units.offset);
                self.word(ndf, 2, offset);
            }
            self.other_flags();
            self.say("sink");
        }
        // and kept up behind it
        for _ in 0..self.among(3, 9) {
            self.source();
            let at = self.source_place(2);
            self.set(at, label);
            let at = self.source_place(3);
            self.set(at, 0x08);
            self.say("sink");
        }
    }

    /// A message that goes on behind a clearing where it stood before, or
    /// begins there at once, and two more.
    fn resumed(&mut self) {
        self.say("fresh");
        self.agree();
        let characters = if self.chance(2) { self.unsent() } else { self.path.expected.trace };
        let mut message = vec![second::start_byte(&characters)];
        message.extend_from_slice(&characters);
        self.good(2);
        // At offset 0 a container ends in the unit that it begins in.
        let before = self.of(&[16, 20, 32, 37, 7]);
        let mut sent = 0;
        let mut left = before + 40;
        while left > 0 {
            left -= 1;
            self.source();
            if sent == before - 2 && matches!(self.state(), Pointer::Normal(_)) {
                // three alarm words, of which two are read as containers
                for k in 0..3 {
                    if k > 0 {
                        self.source();
                    }
                    self.say("word FFFF");
                    self.set(9, message[sent % 16]);
                    self.say("sink");
                    sent += usize::from(k < 2);
                }
                // found again with the third
                self.good(2);
                self.source();
            }
            self.set(9, message[sent % 16]);
            self.say("sink");
            sent += 1;
        }
    }

    // -- calls that are refused, and the rest ----------------------------------

    fn lengths(&mut self) {
        let (label, trace) = (self.label, self.trace);
        for _ in 0..self.among(8, 16) {
            let faults = match self.r.below(4) {
                0 => self.of(&[1, 2, 4, 8, 8, 8, 8]),
                1 => self.of(&[3, 5, 9, 6, 10, 12, 12]),
                // a trace and a length
                2 => self.of(&[6, 6, 10, 10, 14]),
                _ => self.r.below(16),
            };
            self.source();
            let label = if faults & 1 != 0 { self.of(&[0x00, 0xFF]) } else { label };
            let flags = self.flags();
            let trace = if faults & 2 != 0 { self.wrong_trace() } else { trace };
            self.rx(label, trace, flags);
            if faults & 4 != 0 {
                let n = self.of(&[0, 1, 3, 4, 2349, 2357, 2359, 4096]);
                self.say(&format!("len {n}"));
            }
            if faults & 8 != 0 {
                let n = self.of(&[0, 1, 2340, 2348, 2350, 2358, 4096]);
                let (held, done) = self.of(&[(n, 2349), (2349, n), (n, n)]);
                self.say(&format!("lens {held} {done}"));
            } else if self.path.held.len() != 2349 || self.path.done.len() != 2349 {
                self.say("lens 2349 2349");
            }
            if self.chance(3) {
                self.word(0b0110, 2, 0);
            }
            if self.chance(3) {
                let (h, d) = (self.r.byte(), self.r.byte());
                self.say(&format!("fill {h:02X} {d:02X}"));
            }
            self.say("sink");
            if self.chance(6) {
                self.payload();
            }
        }
        // a line of the right length again, with whatever it holds
        if self.path.line.len() != 2358 && self.chance(2) {
            self.say("len 2358");
        }
        self.agree();
        self.say("sink");
    }

    fn fill(&mut self) {
        let (h, d) = (self.r.byte(), self.r.byte());
        self.say(&format!("fill {h:02X} {d:02X}"));
        self.good(2);
    }

    fn fresh(&mut self) {
        self.say("fresh");
        if self.chance(2) {
            self.payload();
            self.say("sink");
        }
        let n = self.among(1, 5);
        self.good(n);
    }

    fn settings(&mut self) {
        let label = if self.chance(2) { self.label } else { self.legal_label() };
        let trace = if self.chance(2) { self.trace } else { self.trace() };
        let flags = self.flags();
        self.rx(label, trace, flags);
        let n = self.among(1, 6);
        self.good(n);
    }

    fn show(&mut self) {
        if self.chance(2) {
            let n = self.r.below(8);
            self.say(&format!("len {n}"));
        }
        self.say("show");
        if self.chance(2) {
            self.good(1);
            self.payload();
        }
    }

    /// Lines that are not understood, or only just; twice in the list are those
    /// that are cases of their own.
    fn odd(&mut self) {
        const ODD: [&str; 80] = [
            "", " ", "   ", "# a comment", "#", "  # none", " #", "#\"", " sink", "sink ", "sink\r", "sink\r\r", "\rsink", "\r", "\r\r",
            "sink\t", "\tsink", "src\t-", "\t", "Sink", "sink 1", "sink#", "sink #", "sink# 1", "# sink", "\u{FEFF}sink", "\u{FEFF}",
            "\0", "\"sink\"", "src", "src +", "src  -", "src -\r", "src I", "src D", "src \"-\"", "src - -", "fill 0 00", "fill ag 00",
            "fill 00", "fill 00 00 00", "lens 2349", "lens 4097 0", "lens 0 99999", "len", "len -1", "len 4097", "len 0000002358",
            "len 2358 1", "len 235\u{660}", "xor 0", "xor 4096 00", "xor 1000000000 00", "xor 1 0", "word 680", "word 68000", "word 6g00",
            "word 68 00", "word", "payload", "payload 2", "payload x", "tx", "rx 01", "lookup", "ones 1", "fresh x", "fresh \"", "show me",
            "run", "run 0", "run 0", "run 10000", "run 10000", "run 1 1", "run -1", "run 0000000001", "run 000000001", "cat \"\"",
            "parity \"00\"",
        ];
        for _ in 0..self.among(2, 6) {
            match self.r.below(9) {
                0 => {
                    let (label, trace) = (self.label, self.trace);
                    let word = self.written(&trace);
                    let n = self.of(&["16", "255", "999999999", "0 0", "x"]);
                    self.rx_word(label, &word, n);
                }
                1 => {
                    let (label, trace) = (self.label, self.trace);
                    let word = self.written(&trace);
                    let n = self.of(&["256 0", "8 2", "0 0 0", "0", "1234567890 0"]);
                    self.tx_word(label, &word, n);
                }
                2 => {
                    let (label, trace) = (self.label, self.trace);
                    self.rx_word(label, &hex(&trace).as_bytes()[2..], "0");
                }
                3 => {
                    let (label, trace) = (self.label, self.trace);
                    let word = self.written(&trace);
                    self.rx_word(label, &word, "000000003");
                }
                4 => {
                    // a line too short for these
                    let n = self.r.below(5);
                    self.say(&format!("len {n}"));
                    self.say("word 6800");
                    self.say(&format!("xor {n} FF"));
                    if n > 0 {
                        self.say(&format!("xor 0000{} FF", n - 1));
                    }
                    self.say("show");
                }
                _ => {
                    let line = self.of(&ODD);
                    self.say(line);
                }
            }
        }
    }

    /// Traces that are not understood, or only just, or that the card refuses, with units behind some; then good ones again.
    fn odd_traces(&mut self) {
        for _ in 0..self.among(1, 4) {
            self.odd_trace();
            if self.chance(2) {
                let runs = self.of(&["run 1", "run 2", "run 3"]);
                self.say(runs);
            }
        }
        self.agree();
    }

    fn odd_trace(&mut self) {
        let sixteen: Vec<u8> = (0..16).map(|_| self.of(b" #AaZ09~")).collect();
        let mut quotes = sixteen.clone();
        for _ in 0..self.among(1, 16) {
            quotes[self.r.below(16)] = b'"';
        }
        let mut any = sixteen.clone();
        // any byte, but an LF would end the line
        any[self.r.below(15)] = self.of(&[0x00, 0x09, 0x0D, 0x1F, 0x7F, 0x80, 0xA0, 0xEF, 0xFF]);
        let from = self.r.below(16);
        let (wrong, nearly) = (self.wrong_trace(), self.spaces_but_one());
        let word = match self.r.below(20) {
            0 => quoted(&sixteen),
            1 => quoted(&quotes),
            2 => quoted(&quotes[from..]),
            11 => quoted(&quotes[1..]),
            12 => quoted(b""),
            13 => quoted(&b" ".repeat(from.max(1))),
            14..=16 => self.written(&wrong),
            17 | 18 => self.written(&nearly),
            3 | 4 => quoted(&any[from..15]),
            5 => {
                let mut open = quoted(&quotes[from..]);
                open.pop();
                open
            }
            6 => [&quoted(&sixteen[from..])[..], self.of(&[&b"#"[..], b"x", b"\t", b"0", b"\0 ", b"x\"\""])].concat(),
            7 => [b"A", &quoted(&sixteen[from..])[..]].concat(),
            8 => b"\"\"\"".to_vec(),
            9 => b"03E5".to_vec(),
            10 => [&hex(&sixteen[..15]).as_bytes()[..29], b"g"].concat(),
            _ => hex(&sixteen).into_bytes(),
        };
        let label = if self.chance(4) { self.of(&[0x00, 0xFF]) } else { self.label };
        if self.chance(8) {
            // no blank behind the second quote
            let word = quoted(&sixteen[1 + from.min(14)..]);
            let (name, behind) = self.of(&[("tx", "0 0"), ("tx", "0 0 # x"), ("rx", "3"), ("rx", "#3"), ("rx", "\t3")]);
            self.say([format!("{name} {label:02X} ").as_bytes(), &word, behind.as_bytes()].concat());
        } else if self.chance(2) {
            let behind = self.of(&["0 0", "8 1", "9 0", "255 1"]);
            self.tx_word(label, &word, behind);
        } else {
            let flags = self.flags();
            self.rx_word(label, &word, &flags.to_string());
        }
    }

    /// Wrong traces at both ends, with other settings wrong too, and a call of
    /// each end; then good ones again.
    fn wrong_traces(&mut self) {
        for _ in 0..self.among(1, 3) {
            let (label, trace) = self.wrong_settings();
            let violations = self.of(&[0, 8, 9, 255]);
            self.tx(label, trace, violations, false);
            // The first may find two containers.
            self.source();
            self.source();
            let (label, trace) = self.wrong_settings();
            let flags = self.flags();
            self.rx(label, trace, flags);
            self.say("sink");
        }
        self.agree();
    }

    fn wrong_settings(&mut self) -> (u8, [u8; 15]) {
        let label = self.of(&[self.label, self.label, self.label, 0x00, 0xFF]);
        let trace = if self.chance(4) { self.spaces_but_one() } else { self.wrong_trace() };
        (label, trace)
    }

    /// A line of just the longest length, or of one byte more, when `besides` bytes have come to it: a CR, or a mark.
    fn long(kind: usize, over: bool, besides: usize) -> Vec<u8> {
        let length = LONGEST_LINE + usize::from(over) - besides;
        let (begin, fill, end): (&str, &str, &str) = match kind {
            0 => ("# ", "x", ""),
            1 => ("", " ", ""),
            2 => ("parity 5A", " ", ""),
            3 => ("cat ", "5a", ""),
            4 => ("", " ", "check 00"),
            _ => ("read 6800 # ", "\"", ""),
        };
        let times = (length - begin.len() - end.len()) / fill.len();
        let mut line = [begin, &fill.repeat(times), end].concat();
        // Digits go in pairs.
        line.push_str(&" ".repeat(length - line.len()));
        line.into_bytes()
    }

    fn long_line(&mut self, kind: usize, over: bool, cr: bool) {
        let mut line = Self::long(kind, over, usize::from(cr));
        if cr {
            line.push(b'\r');
        }
        self.put(&line);
    }

    fn host(&mut self) {
        for _ in 0..self.among(1, 3) {
            let n = self.of(&[0, 1, 2, 2, 3, 15, 16, 17, 40]);
            let bytes = self.r.bytes(n);
            let text = hex(&bytes);
            let blank = if n == 0 { "" } else { " " };
            match self.r.below(5) {
                0 => self.say(&format!("parity{blank}{text}")),
                1 => self.say(&format!("read{blank}{text}")),
                2 => {
                    let word = self.r.next() as u16;
                    self.say(&format!("read {word:04X}"));
                }
                3 => self.say(&format!("check{blank}{text}")),
                _ => {
                    let characters = self.trace();
                    let mut message = vec![second::start_byte(&characters)];
                    message.extend_from_slice(&characters);
                    if self.chance(3) {
                        let bit = self.r.below(128);
                        message[bit / 8] ^= 1 << (bit % 8);
                    }
                    self.say(&format!("check {}", hex(&message)));
                }
            }
        }
        if self.chance(4) {
            let line = self.of(&["parity 0", "check 0g", "read ", "read 68 00", "parity aa", "parity aG"]);
            self.say(line);
        }
    }

    fn catalogue(&mut self) {
        for _ in 0..3 {
            let n = self.r.below(6);
            self.catalogue_of(n);
        }
    }

    fn long_catalogue(&mut self) {
        let n = self.of(&[512, 512, 513, 40, 511]);
        let faults = self.r.below(2);
        self.catalogue_with(n, faults);
    }

    /// A catalogue of more than 100 records, with a wrong character behind the
    /// first hundred.
    fn far_trace(&mut self) {
        let n = self.among(105, 160);
        let at = self.among(100, n - 1);
        let mut bytes = self.records(n);
        bytes[21 * at + 5 + self.r.below(15)] = self.wrong_character();
        self.ask(&bytes);
    }

    /// A trace once more: the later record gets that of the first, both counted
    /// from 1.
    fn repeat(bytes: &mut [u8], first: usize, later: usize) {
        let at = |place: usize| 21 * (place - 1) + 5;
        bytes.copy_within(at(first)..at(first) + 15, at(later));
    }

    /// Catalogues in which a trace is repeated, and often that one or another once
    /// more behind it; some with a fault besides, so that nothing is compared.
    fn repeats(&mut self) {
        for _ in 0..4 {
            let n = self.among(2, 8);
            let mut bytes = self.records(n);
            let (first, later) = match self.r.below(6) {
                0 => (1, 2),
                1 => (n - 1, n),
                _ => {
                    let later = self.among(2, n);
                    (self.among(1, later - 1), later)
                }
            };
            Self::repeat(&mut bytes, first, later);
            if later < n && self.chance(2) {
                let behind = self.among(later + 1, n);
                let before = if first > 1 && self.chance(2) { first } else { behind };
                let of = self.among(1, before - 1);
                Self::repeat(&mut bytes, of, behind);
            }
            if self.chance(3) {
                let at = 21 * self.r.below(n);
                match self.r.below(6) {
                    kind @ 0..=4 => self.fault(&mut bytes, at, kind),
                    _ => {
                        // up to 20 bytes less or more
                        let length = bytes.len() + self.among(1, 41) - 21;
                        bytes.resize(length, 0x5A);
                    }
                }
            }
            self.check(&bytes);
        }
    }

    /// A long catalogue with a repeat in this record or one of those behind it.
    fn far_repeat(&mut self, from: usize) {
        let n = self.among(from + 1, from + 30);
        let later = self.among(from, n);
        let first = self.among(1, later - 1);
        let mut bytes = self.records(n);
        Self::repeat(&mut bytes, first, later);
        self.check(&bytes);
    }

    /// A catalogue of n records with a repeat at its last pair.
    fn last_repeat(&mut self, n: usize) {
        let mut bytes = self.records(n);
        Self::repeat(&mut bytes, n - 1, n);
        self.check(&bytes);
    }

    /// Catalogues with a wrong trace and often a fault more: in its record, in a
    /// later one, or a trace that two records have.
    fn listed_traces(&mut self) {
        for _ in 0..3 {
            let n = self.among(1, 5);
            let mut bytes = self.records(n);
            let at = 21 * self.r.below(n);
            let wrong = self.wrong_trace();
            bytes[at + 5..at + 20].copy_from_slice(&wrong);
            let other = 21 * self.r.below(n);
            match self.r.below(6) {
                0..=2 => {
                    let kind = self.of(&[0, 1, 2, 4]);
                    self.fault(&mut bytes, at, kind);
                }
                3 if other > at => {
                    let kind = self.r.below(5);
                    self.fault(&mut bytes, other, kind);
                }
                4 => {
                    // that trace or a good one once more
                    let from = self.of(&[at, other]);
                    let trace = bytes[from + 5..from + 20].to_vec();
                    bytes.extend_from_slice(&[0x5A, 0x4D, 0x00, 0x01, 0x12]);
                    bytes.extend_from_slice(&trace);
                    bytes.push(0x0F);
                }
                _ => {}
            }
            self.ask(&bytes);
        }
    }

    /// A catalogue of n records, good or damaged.
    fn catalogue_of(&mut self, n: usize) {
        let faults = self.of(&[0, 0, 1, 1, 1, 2, 3]);
        self.catalogue_with(n, faults);
    }

    /// The bytes of n good records.
    fn records(&mut self, n: usize) -> Vec<u8> {
        let mut bytes = Vec::new();
        for k in 0..n {
            let most = if self.chance(3) { 5 } else { 9999 };
            let circuit = 1 + self.r.below(most) as u16;
            bytes.extend_from_slice(&[0x5A, 0x4D]);
            bytes.extend_from_slice(&circuit.to_be_bytes());
            bytes.push(self.legal_label());
            let mut trace = self.trace();
            // no two alike, and none of spaces alone
            trace[13..].copy_from_slice(&[0x20 + (k / 90) as u8, 0x21 + (k % 90) as u8]);
            bytes.extend_from_slice(&trace);
            bytes.push(self.flags() as u8);
        }
        bytes
    }

    /// A fault in the record at this place: of its mark, number, label, trace or
    /// flags.
    fn fault(&mut self, bytes: &mut [u8], at: usize, kind: usize) {
        match kind {
            0 => bytes[at + self.r.below(2)] ^= 1 << self.r.below(8),
            1 => {
                let circuit: u16 = self.of(&[0, 10_000, 65_535]);
                bytes[at + 2..at + 4].copy_from_slice(&circuit.to_be_bytes());
            }
            2 => bytes[at + 4] = self.of(&[0x00, 0xFF]),
            3 => {
                let trace = self.wrong_trace();
                bytes[at + 5..at + 20].copy_from_slice(&trace);
            }
            _ => bytes[at + 20] = self.of(&[16, 17, 255]),
        }
    }

    fn catalogue_with(&mut self, n: usize, faults: usize) {
        let mut bytes = self.records(n);
        for _ in 0..faults {
            if n == 0 {
                let byte = self.r.byte();
                bytes.push(byte);
                continue;
            }
            let at = 21 * self.r.below(n);
            if bytes.len() < 21 * n {
                break;
            }
            match self.r.below(8) {
                kind @ 0..=4 => self.fault(&mut bytes, at, kind),
                5 | 6 => {
                    let other = 21 * self.r.below(n);
                    let trace = bytes[other + 5..other + 20].to_vec();
                    bytes[at + 5..at + 20].copy_from_slice(&trace);
                }
                _ => {
                    let length = bytes.len() - self.among(1, 20);
                    bytes.truncate(length);
                }
            }
        }
        self.ask(&bytes);
    }

    /// The bytes as they stand behind a command's name.
    fn behind(bytes: &[u8]) -> String {
        if bytes.is_empty() { String::new() } else { format!(" {}", hex(bytes)) }
    }

    /// The check of these bytes alone.
    fn check(&mut self, bytes: &[u8]) {
        self.say(&format!("cat{}", Self::behind(bytes)));
    }

    /// The check of these bytes, and the lookup and the listing of some.
    fn ask(&mut self, bytes: &[u8]) {
        let behind = Self::behind(bytes);
        self.check(bytes);
        if bytes.len() > 40 * 21 && self.r.below(3) > 0 {
            return;
        }
        let mut circuit = self.of(&[0, 1, 2, 3, 9999, 10_000, 999_999_999]);
        if bytes.len() >= 21 && self.chance(2) {
            let at = 21 * self.r.below(bytes.len() / 21);
            circuit = usize::from(bytes[at + 2]) * 256 + usize::from(bytes[at + 3]);
        }
        self.say(&format!("lookup {circuit}{behind}"));
        if self.chance(2) {
            self.say(&format!("list{behind}"));
        }
    }
}

const EPISODES: [fn(&mut Script); 36] = [
    Script::row,
    Script::row,
    Script::row,
    Script::row,
    Script::row,
    Script::row,
    Script::any_words,
    Script::ones,
    Script::through_alarm,
    Script::through_alarm,
    Script::through_alarm,
    Script::through_alarm,
    Script::through_lost,
    Script::through_lost,
    Script::walk,
    Script::adjust,
    Script::adjust,
    Script::adjust,
    Script::crafted,
    Script::overhead,
    Script::four,
    Script::four,
    Script::sent,
    Script::refused_source,
    Script::damage,
    Script::columns,
    Script::columns_of_two,
    Script::messages,
    Script::cleared,
    Script::cleared,
    Script::lengths,
    Script::lengths,
    Script::fill,
    Script::fresh,
    Script::settings,
    Script::show,
];

/// Those that use few units or none.
const BETWEEN: [fn(&mut Script); 14] = [
    Script::odd,
    Script::odd,
    Script::odd,
    Script::odd_traces,
    Script::odd_traces,
    Script::wrong_traces,
    Script::host,
    Script::host,
    Script::catalogue,
    Script::catalogue,
    Script::listed_traces,
    Script::listed_traces,
    Script::repeats,
    Script::payload,
];

/// Those for a path that settles: the long ones, and what goes before them.
const LONG: [fn(&mut Script); 6] = [
    Script::long_good,
    Script::without_messages,
    Script::other_trace,
    Script::without_the_right_one,
    Script::traces,
    Script::resumed,
];
const SETTLED: [fn(&mut Script); 3] = [Script::between_containers, Script::defects, Script::between_containers];

fn shuffled(r: &mut Random, list: &[fn(&mut Script)]) -> Vec<fn(&mut Script)> {
    let mut deck = list.to_vec();
    shuffle(r, &mut deck);
    deck
}

fn shuffle<T>(r: &mut Random, deck: &mut [T]) {
    for k in (1..deck.len()).rev() {
        deck.swap(k, r.below(k + 1));
    }
}

/// Characters in quotes, each quote among them doubled.
fn quoted(characters: &[u8]) -> Vec<u8> {
    let mut word = vec![b'"'];
    for c in characters {
        word.push(*c);
        if *c == b'"' {
            word.push(*c);
        }
    }
    word.push(b'"');
    word
}

/// A script with about this many units.
pub fn script(seed: u64, units: usize) -> Vec<u8> {
    let mut r = Random(seed);
    r.next();
    let mut s = Script {
        r,
        sheets: Spreadsheets::new(seed),
        path: Bench::new(),
        text: Vec::new(),
        lines: 0,
        dress: [Dress::Some, Dress::Plain, Dress::Some, Dress::Some, Dress::Returns][seed as usize % 5],
        sinks: 0,
        settled: false,
        label: 0x12,
        trace: *b"03E5           ",
    };
    // A mark before every third, and behind some of these a first line of the
    // longest length or one more.
    if seed % 3 == 0 {
        s.text.extend_from_slice(MARK);
    }
    match seed % 12 {
        3 | 9 => s.put(&Script::long(0, seed % 12 == 9, MARK.len())),
        _ => s.say(format!("# seed {seed}, about {units} units")),
    }
    if s.chance(2) {
        s.payload();
    }
    // With the settings of the start, until they settle.
    if seed % 4 == 2 {
        s.say("run 66");
    }
    // The longest catalogue, whole or with a repeat at its last pair, or one more
    // record; and long ones with a wrong character behind the first hundred
    // records, or with a repeat behind these or behind 65,535 pairs.
    match seed % 12 {
        1 => s.catalogue_with(512, 0),
        5 => s.last_repeat(512),
        9 => s.last_repeat(513),
        3 | 7 | 11 => {
            s.far_trace();
            s.far_trace();
        }
        0 => s.far_repeat(364),
        4 | 8 => s.far_repeat(100),
        _ => {}
    }
    // Long lines are large, so they are few. A comment that is too long is no
    // less wrong than a command.
    let kind = if seed % 24 == 6 { 0 } else { (seed / 12 + seed) as usize % 6 };
    match seed % 12 {
        2 => s.long_line(kind, false, true),
        4 => s.long_line(kind, false, false),
        6 => s.long_line(kind, true, false),
        8 => s.long_line(kind, true, true),
        _ => {}
    }
    // Scripts of following seeds begin at different long episodes. Those of odd
    // seeds have most of them; those of even seeds have most words.
    let slot = if seed % 2 == 1 { 16 } else { 12 };
    let mut long = seed as usize;
    let mut deck = Vec::new();
    while s.sinks < units && s.lines < LINES_A_UNIT * units {
        if deck.is_empty() {
            deck = shuffled(&mut s.r, &EPISODES);
        }
        if deck.len() == slot || (seed % 2 == 1 && deck.len() == EPISODES.len()) {
            for episode in shuffled(&mut s.r, &SETTLED) {
                episode(&mut s);
            }
            LONG[long % LONG.len()](&mut s);
            long += 1;
            if long % 4 == 0 {
                s.resumed();
            }
            if s.chance(3) {
                s.long_catalogue();
            }
        }
        if let Some(episode) = deck.pop() {
            episode(&mut s);
        }
        for _ in 0..3 {
            s.of(&BETWEEN)(&mut s);
        }
        s.next_sheet();
    }
    while s.next_sheet() {}
    // A last line needs no LF, with a CR or without.
    if seed % 2 == 0 {
        if seed % 4 == 0 {
            s.say("show");
        }
        s.text.pop();
    }
    s.text
}
