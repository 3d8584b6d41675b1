//! The bench of the second program: a script on standard input drives a
//! source, a line and a sink, and each command prints its line.
//!
//! Written from the bench's paper and the rules paper ("01") alone.

// A program that takes this file as a module need not use all of it.
#![allow(dead_code)]
#![forbid(unsafe_code)]

use crate::second::coverage::{self, Note, Remembered};
use crate::second::{
    self, Asked, ContainerSource, Ended, Expected, Given, Place, Pointer, Refusal, Sink, UnitSource, AU4,
};
use std::collections::VecDeque;
use std::fmt::Write as _;

// The path is said, since some of the programs that take this file as a module
// stand beside it and some elsewhere.
#[path = "words.rs"]
pub mod words;

use words::{byte, bytes, number, trace};

/// The longest that `len` and `lens` make.
const LONGEST_BUFFER: u32 = 4096;

/// The most that `run` runs.
const MOST_RUNS: u32 = 9999;

/// The trace of both ends at the start.
const START_TRACE: [u8; 15] = *b"03E5           ";

/// The defects and the causes in the order in which the sink answers them.
const DEFECTS: [&str; 4] = ["dUNEQ", "dTIM", "dPLM", "dRDI"];
const CAUSES: [&str; 7] = ["cAIS", "cLOP", "cSSF", "cUNEQ", "cTIM", "cRDI", "cPLM"];

/// "32-bit FNV-1a over the bytes".
pub fn fnv(bytes: &[u8]) -> u32 {
    let mut hash: u32 = 0x811C_9DC5;
    for byte in bytes {
        hash = (hash ^ u32::from(*byte)).wrapping_mul(0x0100_0193);
    }
    hash
}

/// "2340 bytes from x = seed": "for each byte x = (x * 1664525 + 1013904223)
/// mod 2^32, and the byte is the top eight bits of x".
pub fn payload(seed: u32) -> Vec<u8> {
    let mut x = seed;
    (0..AU4.payload())
        .map(|_| {
            x = x.wrapping_mul(1_664_525).wrapping_add(1_013_904_223);
            (x >> 24) as u8
        })
        .collect()
}

/// Capital hex digits.
pub fn hex(bytes: &[u8]) -> String {
    const DIGITS: &[u8; 16] = b"0123456789ABCDEF";
    let mut text = String::with_capacity(2 * bytes.len());
    for byte in bytes {
        text.push(char::from(DIGITS[usize::from(byte >> 4)]));
        text.push(char::from(DIGITS[usize::from(byte & 15)]));
    }
    text
}

/// Those names that hold, "with a comma between", "`-` where none does".
fn names(list: &[&'static str], hold: &[bool]) -> String {
    let those: Vec<&str> = list.iter().zip(hold).filter(|(_, holds)| **holds).map(|(name, _)| *name).collect();
    if those.is_empty() {
        return "-".to_string();
    }
    those.join(",")
}

// ---------------------------------------------------------------------------
// The commands
// ---------------------------------------------------------------------------

/// A command that was understood. `run` is none: it is others, so many times.
#[derive(Clone)]
pub enum Command {
    Fresh,
    Fill(u8, u8),
    Lens(usize, usize),
    Tx { label: u8, trace: [u8; 15], violations: u8, remote: bool },
    Rx { label: u8, trace: [u8; 15], flags: u8 },
    Src(Asked),
    Word(u16),
    Xor(usize, u8),
    Ones,
    Len(usize),
    Show,
    Sink,
    Payload(bool),
    Cat(Vec<u8>),
    Lookup(u32, Vec<u8>),
    List(Vec<u8>),
    Import(Vec<u8>),
    Export(Vec<u8>),
    Parity(Vec<u8>),
    Check(Vec<u8>),
    Read(Vec<u8>),
}

/// The bytes behind a command's name: one word, or none where there are no
/// bytes.
fn rest(words: &[&[u8]]) -> Option<Vec<u8>> {
    match words {
        [] => Some(Vec::new()),
        [word] => bytes(word),
        _ => None,
    }
}

/// The commands of a line's words, for a line buffer of this length.
fn commands(words: &[&[u8]], length: usize) -> Option<Vec<Command>> {
    match words {
        [] => Some(Vec::new()),
        // "N times (1 to 9999) `src -` and `sink`"
        [b"run", times] => match number(times, MOST_RUNS)? {
            0 => None,
            times => Some(vec![[Command::Src(Asked::Nothing), Command::Sink]; times as usize].concat()),
        },
        [name, words @ ..] => Some(vec![command(name, words, length)?]),
    }
}

/// The command of this name with these words behind it.
fn command(name: &[u8], words: &[&[u8]], length: usize) -> Option<Command> {
    let size = |word: &[u8]| number(word, LONGEST_BUFFER).map(|n| n as usize);
    Some(match (name, words) {
        (b"fresh", []) => Command::Fresh,
        (b"fill", [held, done]) => Command::Fill(byte(held)?, byte(done)?),
        (b"lens", [held, done]) => Command::Lens(size(held)?, size(done)?),
        (b"tx", [label, characters, violations, remote]) => Command::Tx {
            label: byte(label)?,
            trace: trace(characters)?,
            violations: number(violations, 255)? as u8,
            remote: number(remote, 1)? == 1,
        },
        (b"rx", [label, characters, flags]) => Command::Rx {
            label: byte(label)?,
            trace: trace(characters)?,
            flags: number(flags, 15)? as u8,
        },
        (b"src", [b"-"]) => Command::Src(Asked::Nothing),
        (b"src", [b"i"]) => Command::Src(Asked::Increment),
        (b"src", [b"d"]) => Command::Src(Asked::Decrement),
        (b"word", [word]) => match bytes(word)?[..] {
            [h1, h2] if length >= 4 => Command::Word(u16::from_be_bytes([h1, h2])),
            _ => return None,
        },
        (b"xor", [place, with]) => {
            let place = number(place, 999_999_999)? as usize;
            let with = byte(with)?;
            if place >= length {
                return None;
            }
            Command::Xor(place, with)
        }
        (b"ones", []) => Command::Ones,
        (b"len", [length]) => Command::Len(size(length)?),
        (b"show", []) => Command::Show,
        (b"sink", []) => Command::Sink,
        (b"payload", [ais]) => Command::Payload(number(ais, 1)? == 1),
        (b"cat", words) => Command::Cat(rest(words)?),
        (b"lookup", [circuit, words @ ..]) => Command::Lookup(number(circuit, 999_999_999)?, rest(words)?),
        (b"list", words) => Command::List(rest(words)?),
        (b"import", words) => Command::Import(rest(words)?),
        (b"export", words) => Command::Export(rest(words)?),
        (b"parity", words) => Command::Parity(rest(words)?),
        (b"check", words) => Command::Check(rest(words)?),
        (b"read", words) => Command::Read(rest(words)?),
        _ => return None,
    })
}

// ---------------------------------------------------------------------------
// The bench
// ---------------------------------------------------------------------------

pub struct Bench {
    pub containers: ContainerSource,
    pub units: UnitSource,
    pub sink: Sink,
    pub queue: VecDeque<Vec<u8>>,
    pub seed: u32,
    pub line: Vec<u8>,
    pub held: Vec<u8>,
    pub done: Vec<u8>,
    /// The container handed back last, and where it stood.
    last: Option<(Vec<u8>, Place)>,
    /// What ended in the unit fed last; nothing where it was refused.
    pub ended: Vec<Ended>,
    pub given: Given,
    pub sent_trace: [u8; 15],
    pub expected: Expected,
    remembered: Remembered,
}

impl Bench {
    /// The bench starts as after `fresh`, with "label 12, `03E5` and eleven
    /// spaces at both ends, no remote defect, 0 violations, flags 0".
    pub fn new() -> Self {
        Bench {
            containers: ContainerSource::fresh(),
            units: UnitSource::fresh(),
            sink: Sink::fresh(),
            queue: VecDeque::new(),
            seed: 0,
            line: vec![0x00; AU4.unit()],
            held: vec![0x00; AU4.container()],
            done: vec![0x00; AU4.container()],
            last: None,
            ended: Vec::new(),
            given: Given {
                label: 0x12,
                f2: 0x11,
                h4: 0x22,
                f3: 0x33,
                k3: 0x44,
                n1: 0x55,
                violations: 0,
                remote: false,
            },
            sent_trace: START_TRACE,
            expected: Expected {
                label: 0x12,
                trace: START_TRACE,
                monitored: false,
                rdi_reported: false,
                ssf_reported: false,
                ais_reported: false,
            },
            remembered: Remembered::nothing(),
        }
    }

    /// One line of the script without its LF, its number counted from 1; what
    /// it prints goes to `out`.
    pub fn line(&mut self, line: &[u8], count: usize, out: &mut Vec<u8>, note: Note) {
        match self.commands(line, count, note) {
            Some(commands) => {
                for command in &commands {
                    out.extend_from_slice(self.play(command, note).as_bytes());
                }
            }
            None => out.extend_from_slice(format!("? {count}\n").as_bytes()),
        }
    }

    /// What a line asks for, as the bench now stands; nothing where it has no
    /// word, and none where it is not understood.
    pub fn commands(&self, line: &[u8], count: usize, note: Note) -> Option<Vec<Command>> {
        let words = words::words(line, count);
        let understood = words.as_ref().and_then(|words| commands(words, self.line.len()));
        coverage::line(line, count, words.as_deref(), understood.is_some(), note);
        if let Some(all @ [Command::Src(_), Command::Sink, ..]) = understood.as_deref() {
            coverage::runs(all.len() / 2, self.sent_refused().is_some(), self.expected_refused().is_some(), note);
        }
        understood
    }

    /// Plays one command; what it prints.
    pub fn play(&mut self, command: &Command, note: Note) -> String {
        match *command {
            Command::Fresh => {
                // "Settings stay".
                *self = Bench {
                    given: self.given,
                    sent_trace: self.sent_trace,
                    expected: self.expected,
                    ..Bench::new()
                };
            }
            Command::Fill(held, done) => {
                self.held.fill(held);
                self.done.fill(done);
            }
            Command::Lens(held, done) => {
                self.held = vec![0xAA; held];
                self.done = vec![0xAA; done];
            }
            Command::Tx { label, trace, violations, remote } => {
                self.given = Given { label, violations, remote, ..self.given };
                self.sent_trace = trace;
                let refused = self.sent_refused();
                coverage::sent(refused.as_ref(), &trace, violations, note);
                if let Some(refusal) = refused {
                    return format!("tx refused {refusal}\n");
                }
            }
            Command::Rx { label, trace, flags } => {
                // "flags (1 monitored, 2 RDI reported, 4 SSF reported, 8 AIS
                // reported)"
                self.expected = Expected {
                    label,
                    trace,
                    monitored: flags & 1 != 0,
                    rdi_reported: flags & 2 != 0,
                    ssf_reported: flags & 4 != 0,
                    ais_reported: flags & 8 != 0,
                };
                let refused = self.expected_refused();
                coverage::expected(refused.as_ref(), &trace, note);
                if let Some(refusal) = refused {
                    return format!("rx refused {refusal}\n");
                }
            }
            Command::Src(asked) => return self.source(asked, note),
            Command::Word(word) => {
                let [h1, h2] = word.to_be_bytes();
                self.line[0] = h1;
                self.line[3] = h2;
            }
            Command::Xor(place, with) => self.line[place] ^= with,
            Command::Ones => self.line.fill(0xFF),
            Command::Len(length) => self.line.resize(length, 0x00),
            Command::Show => return format!("line {}\n", hex(&self.line)),
            Command::Sink => return self.feed(note),
            Command::Payload(ais) => return self.payload(ais, note),
            Command::Cat(ref bytes) => return catalogue(bytes, note),
            Command::Lookup(circuit, ref bytes) => return lookup(circuit, bytes, note),
            Command::List(ref bytes) => {
                coverage::listed(second::catalogue_check(bytes).answer.as_ref().err(), note);
                // Characters from 20 to 7E only.
                return String::from_utf8_lossy(&second::listing(bytes)).into_owned();
            }
            Command::Import(ref text) => {
                let answer = second::import(text);
                coverage::imported(text, &answer, note);
                return made("import", answer);
            }
            Command::Export(ref bytes) => {
                let answer = second::export(bytes);
                coverage::exported(bytes, &answer, note);
                return made("export", answer);
            }
            Command::Parity(ref bytes) => {
                note("parity.asked");
                return format!("parity {:02X}\n", second::parity(bytes));
            }
            Command::Check(ref bytes) => {
                let good = second::trace_check(bytes);
                note(if good { "check.yes" } else { "check.no" });
                return format!("check {}\n", u8::from(good));
            }
            Command::Read(ref bytes) => {
                note(if bytes.len() == 2 { "read.asked" } else { "read.not-two-bytes" });
                return format!("read {}\n", second::word_reading(bytes));
            }
        }
        String::new()
    }

    /// How every call with these settings will be refused: as a fresh source
    /// refuses that lacks nothing else.
    fn sent_refused(&self) -> Option<Refusal> {
        let payload = vec![0x00; AU4.payload()];
        let mut container = vec![0x00; AU4.container()];
        let source = ContainerSource::fresh();
        second::container_source(AU4, source, self.given, &self.sent_trace, &payload, &mut container).err()
    }

    /// The same of the sink's settings.
    fn expected_refused(&self) -> Option<Refusal> {
        let unit = vec![0x00; AU4.unit()];
        let (mut held, mut done) = (vec![0x00; AU4.container()], vec![0x00; AU4.container()]);
        second::sink(AU4, &Sink::fresh(), &self.expected, &unit, &mut held, &mut done, &mut |_| {}).err()
    }

    fn source(&mut self, asked: Asked, note: Note) -> String {
        // "The container queue is filled to two, each new one by the container
        // source with payload(seed counter), counter then + 1."
        while self.queue.len() < 2 {
            let mut container = vec![0x00; AU4.container()];
            let bytes = payload(self.seed);
            let made = second::container_source(AU4, self.containers, self.given, &self.sent_trace, &bytes, &mut container);
            coverage::container_asked(made.as_ref().err(), &self.given, &self.sent_trace, self.queue.len(), note);
            match made {
                Ok(after) => {
                    self.containers = after;
                    self.queue.push_back(container);
                    self.seed = self.seed.wrapping_add(1);
                }
                Err(refusal) => return format!("container refused {refusal}\n"),
            }
        }
        self.line.resize(AU4.unit(), 0x00);
        match second::unit_source(AU4, self.units, asked, &self.queue[0], &self.queue[1], &mut self.line) {
            Ok((ended, after)) => {
                note("unit.made");
                self.units = after;
                for container in self.queue.drain(..usize::from(ended)) {
                    self.remembered.sent(container);
                }
                format!(
                    "unit ended={ended} word={:02X}{:02X} fnv={:08X} off={}\n",
                    self.line[0],
                    self.line[3],
                    fnv(&self.line),
                    after.offset
                )
            }
            Err(refusal) => {
                note("unit.refused-7");
                format!("unit refused {refusal}\n")
            }
        }
    }

    fn feed(&mut self, note: Note) -> String {
        self.ended.clear();
        let fed = second::sink(AU4, &self.sink, &self.expected, &self.line, &mut self.held, &mut self.done, note);
        let (after, answer) = match fed {
            Ok(both) => both,
            Err(refusal) => {
                let lengths = [self.line.len(), self.held.len(), self.done.len()];
                coverage::refused(&refusal, &self.expected, lengths, note);
                return format!("refused {refusal}\n");
            }
        };
        let before = std::mem::replace(&mut self.sink, after);

        let mut text = String::with_capacity(200);
        let bit = u8::from;
        let (state, offset) = match self.sink.pointer.state {
            Pointer::Normal(offset) => ("normal", offset.to_string()),
            Pointer::Alarm => ("alarm", "-".to_string()),
            Pointer::Lost => ("lost", "-".to_string()),
        };
        coverage::fed(self.sink.pointer.state, &answer.defects, note);
        let handed: Vec<(u8, &[u8])> =
            answer.ended.iter().map(|one| (one.columns, one.place.container(AU4, &self.line, &self.done))).collect();
        self.remembered.fed(&before, &self.sink, &handed, note);
        let ended = answer.ended.len();
        let _ = write!(text, "ok st={state} off={offset} held={} ended={ended}", self.sink.held);
        for (count, one) in answer.ended.iter().enumerate() {
            let Ended { place, columns, returned } = one;
            let container = place.container(AU4, &self.line, &self.done);
            let at = match place {
                Place::Done => "D@0".to_string(),
                Place::Unit(from) => format!("U@{from}"),
            };
            let _ = write!(text, " c={at},{:08X},v={}", fnv(container), one.violations());
            if *columns != 0x00 {
                let _ = write!(text, ",p={columns:02X}");
            }
            let _ = write!(text, ",fe={returned}");
            if count + 1 == ended {
                self.last = Some((container.to_vec(), *place));
            }
        }
        self.ended = answer.ended;
        let _ = write!(
            text,
            " ssf={} tsf={} ais={} rdi={} d={} cause={}",
            bit(answer.ssf),
            bit(answer.tsf),
            bit(answer.ais),
            bit(answer.rdi),
            names(&DEFECTS, &answer.defects),
            names(&CAUSES, &answer.causes)
        );
        let _ = writeln!(
            text,
            " settled={} total={} hb={:08X} db={:08X}",
            bit(answer.settled),
            self.sink.unsettled,
            fnv(&self.held),
            fnv(&self.done)
        );
        text
    }

    fn payload(&self, ais: bool, note: Note) -> String {
        coverage::payload_asked(self.last.as_ref().map(|(_, place)| *place), ais, note);
        let none = vec![0x00; AU4.container()];
        let container = self.last.as_ref().map_or(&none, |(bytes, _)| bytes);
        let mut into = vec![0xEE; AU4.payload()];
        match second::payload_call(AU4, container, ais, &mut into) {
            Ok(()) => format!("payload fnv={:08X}\n", fnv(&into)),
            Err(refusal) => format!("payload refused {refusal}\n"),
        }
    }
}

fn catalogue(bytes: &[u8], note: Note) -> String {
    let checked = second::catalogue_check(bytes);
    coverage::checked(&checked, bytes, note);
    let pairs = checked.pairs;
    match checked.answer {
        Ok(count) => format!("cat ok {count} pairs={pairs}\n"),
        Err(refusal) => format!("cat refused {refusal} pairs={pairs}\n"),
    }
}

fn lookup(circuit: u32, bytes: &[u8], note: Note) -> String {
    let answer = second::lookup(bytes, circuit);
    coverage::looked_up(answer.as_ref().err(), note);
    match answer {
        Ok(record) => format!("found {:02X} {} {}\n", record.label, hex(&record.trace), record.flags),
        Err(refusal) => format!("lookup refused {refusal}\n"),
    }
}

/// The bytes that this command makes, with no blank where there are none, or its
/// refusal.
fn made(name: &str, answer: Result<Vec<u8>, Refusal>) -> String {
    match answer {
        Ok(bytes) if bytes.is_empty() => format!("{name} ok\n"),
        Ok(bytes) => format!("{name} ok {}\n", hex(&bytes)),
        Err(refusal) => format!("{name} refused {refusal}\n"),
    }
}

#[cfg(test)]
#[path = "tests/bench.rs"]
mod tests;
