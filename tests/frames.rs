//! The proved sources, unit by unit, for a reader that is not ours: tests/frames.py
//! puts the units into STM-1 frames and has Wireshark read them.
//!
//! One line for each unit on standard output: what was asked, the offset after
//! it, its word, how many containers ended in it, and its bytes. The last line
//! says how many containers were made. A refusal is an error.
//!
//! A source that starts at 521 or below stays there. One that starts above may
//! go anywhere, from 782 up to 0 and from 0 down to 782 too.

mod proved;
mod random;

use random::Random;
use std::env;
use std::io::{self, BufWriter, Write};
use std::process::ExitCode;

const USAGE: &str = "usage: frames OFFSET COUNT SEED [TRACE]  (OFFSET 0 to 782, TRACE 15 characters)";

const PAYLOAD_LENGTH: usize = 2340;
const CONTAINER_LENGTH: usize = 2349;
const UNIT_LENGTH: usize = 2358;

/// The trace of every container where none is given.
const TRACE: [u8; 15] = *b"03E5           ";
/// The highest offset with which Wireshark looks for J1 in the unit itself.
const HIGHEST_IN_ITSELF: u16 = 521;
const HIGHEST_OFFSET: u16 = 782;
/// So many units after an adjustment the next may be asked for.
const FREE: u8 = 3;

/// A container source from its fresh state on, and how many containers it made.
struct Containers {
    trace: [u8; 15],
    state: proved::Path,
    made: usize,
}

impl Containers {
    fn fresh(trace: [u8; 15]) -> Self {
        Containers {
            trace,
            state: proved::fresh().0,
            made: 0,
        }
    }

    /// The next container, all that may be chosen for it taken from `numbers`.
    fn make(&mut self, numbers: &mut Random) -> Result<Vec<u8>, String> {
        let payload = numbers.bytes(PAYLOAD_LENGTH);
        let mut container = vec![0xEE; CONTAINER_LENGTH];
        let given = proved::Given {
            label: 1 + numbers.below(254) as u8,
            unexamined: [(); 5].map(|()| numbers.byte()),
            violations: numbers.below(9) as u8,
            remote: numbers.below(2) == 1,
        };
        let (refusal, state) = proved::container_source(self.state, given, &self.trace, &payload, &mut container);
        if refusal.number != 0 {
            return Err(format!("container {} was refused with {refusal}", self.made));
        }
        self.state = state;
        self.made += 1;
        Ok(container)
    }
}

/// What may be asked for: its number, and its name in the output.
const PLAIN: (u8, &str) = (0, "plain");
const INCREMENT: (u8, &str) = (1, "increment");
const DECREMENT: (u8, &str) = (2, "decrement");

/// What to ask for: an adjustment in about one of four units that are free for
/// it. Unless it may go anywhere, none leaves the offsets 0 to 521.
fn choose(anywhere: bool, offset: u16, wait: u8, numbers: &mut Random) -> (u8, &'static str) {
    if wait < FREE {
        return PLAIN;
    }
    match numbers.below(8) {
        0 if anywhere || offset < HIGHEST_IN_ITSELF => INCREMENT,
        1 if anywhere || offset > 0 => DECREMENT,
        _ => PLAIN,
    }
}

/// What the command line asks for.
struct Arguments {
    offset: u16,
    count: usize,
    seed: u64,
    trace: [u8; 15],
}

fn arguments() -> Option<Arguments> {
    let texts: Vec<String> = env::args_os()
        .skip(1)
        .map(|text| text.to_string_lossy().into_owned())
        .collect();
    let (offset, count, seed, trace) = match texts.as_slice() {
        [offset, count, seed] => (offset, count, seed, TRACE),
        [offset, count, seed, trace] => (offset, count, seed, trace.as_bytes().try_into().ok()?),
        _ => return None,
    };
    Some(Arguments {
        offset: offset.parse().ok().filter(|offset| *offset <= HIGHEST_OFFSET)?,
        count: count.parse().ok()?,
        seed: seed.parse().ok()?,
        trace,
    })
}

/// Writes `count` units, the first of a unit source at `offset` and free to
/// adjust.
fn units(asked_for: Arguments, output: &mut impl Write) -> Result<(), String> {
    let Arguments { offset, count, seed, trace } = asked_for;
    let mut numbers = Random(seed);
    let mut containers = Containers::fresh(trace);
    let mut current = containers.make(&mut numbers)?;
    let mut next = containers.make(&mut numbers)?;
    let anywhere = offset > HIGHEST_IN_ITSELF;
    let (mut offset, mut wait) = (offset, FREE);
    let unwritten = |error: io::Error| error.to_string();

    for number in 0..count {
        let (asked, name) = choose(anywhere, offset, wait, &mut numbers);
        let mut unit = vec![0xEE; UNIT_LENGTH];
        let (refusal, ended, after) = proved::unit_source((offset, wait), asked, &current, &next, &mut unit);
        if refusal != 0 {
            return Err(format!(
                "unit {number}, {name} at offset {offset} with wait {wait}, was refused with {refusal}"
            ));
        }
        (offset, wait) = after;

        let bytes: String = unit.iter().map(|byte| format!("{byte:02X}")).collect();
        let (h1, h2) = (unit[0], unit[3]);
        writeln!(output, "{name} {offset} {h1:02X}{h2:02X} {ended} {bytes}").map_err(unwritten)?;

        for _ in 0..ended {
            current = next;
            next = containers.make(&mut numbers)?;
        }
    }
    writeln!(output, "containers {}", containers.made).map_err(unwritten)?;
    output.flush().map_err(unwritten)
}

fn main() -> ExitCode {
    let Some(arguments) = arguments() else {
        eprintln!("{USAGE}");
        return ExitCode::from(2);
    };
    match units(arguments, &mut BufWriter::new(io::stdout().lock())) {
        Ok(()) => ExitCode::SUCCESS,
        Err(message) => {
            eprintln!("frames: {message}");
            ExitCode::FAILURE
        }
    }
}
