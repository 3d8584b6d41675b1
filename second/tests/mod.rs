//! The tests of the second program by itself: facts that the paper states, and
//! every rule that has a shape over AU-4 and over TU-3.

// A test that is written and not run must not go unseen.
#![warn(dead_code)]

use super::*;

/// Makes two tests of a function that takes a shape.
macro_rules! over_both {
    ($name:ident) => {
        mod $name {
            #[test]
            fn of_au4() {
                super::$name(super::AU4);
            }

            #[test]
            fn of_tu3() {
                super::$name(super::TU3);
            }
        }
    };
}

mod catalogue;
mod container;
mod pointer;
mod shape;
mod sheet;
mod sink;
mod trace;
mod unit;
mod word;

/// The bytes of one record.
fn record(circuit: u16, label: u8, trace: &[u8], flags: u8) -> Vec<u8> {
    let mut bytes = vec![0x5A, 0x4D];
    bytes.extend_from_slice(&circuit.to_be_bytes());
    bytes.push(label);
    bytes.extend_from_slice(&padded(trace));
    bytes.push(flags);
    bytes
}

/// A refusal with the places that it names.
fn refused(number: u8, places: &[usize]) -> Refusal {
    Refusal {
        number,
        places: places.to_vec(),
    }
}

/// The table of traces that are refused, each with its number and its place.
fn refused_traces() -> [([u8; 15], Refusal); 4] {
    let with = |mut trace: [u8; 15], changed: &[(usize, u8)]| {
        for (place, character) in changed {
            trace[place - 1] = *character;
        }
        trace
    };
    [
        (with(padded(b"03E5"), &[(3, 0x1F), (2, 0x80)]), refused(20, &[2])),
        ([0x20; 15], refused(21, &[])),
        (with([0x20; 15], &[(15, 0x7F)]), refused(20, &[15])),
        (with([0x20; 15], &[(15, 0x00)]), refused(5, &[15])),
    ]
}

/// How a trace is refused that has this character at this place, counted from 0,
/// and is good otherwise.
fn refused_at(place: usize, character: u8) -> Option<Refusal> {
    match character {
        0x00..=0x1F => Some(refused(5, &[place + 1])),
        0x20..=0x7E => None,
        0x7F..=0xFF => Some(refused(20, &[place + 1])),
    }
}

/// 15 characters, "padded with spaces".
fn padded(text: &[u8]) -> [u8; 15] {
    let mut trace = [b' '; 15];
    trace[..text.len()].copy_from_slice(text);
    trace
}

/// The 16 bytes of a good message.
fn message(characters: &[u8; 15]) -> Vec<u8> {
    let mut bytes = vec![start_byte(characters)];
    bytes.extend_from_slice(characters);
    bytes
}

/// A plain row of numbers without pattern, for inputs of every kind.
fn next(seed: &mut u32) -> u32 {
    *seed = seed.wrapping_mul(1_664_525).wrapping_add(1_013_904_223);
    *seed >> 8
}

/// Bytes without pattern.
fn some_bytes(length: usize, seed: &mut u32) -> Vec<u8> {
    (0..length).map(|_| next(seed) as u8).collect()
}

/// What the containers of these tests are given.
const GIVEN: Given = Given {
    label: 0x12,
    f2: 0xF2,
    h4: 0x14,
    f3: 0xF3,
    k3: 0x13,
    n1: 0x11,
    violations: 0,
    remote: false,
};

/// Containers as a fresh source makes them, one behind the other.
fn containers(shape: Shape, count: usize, trace: &[u8; 15], seed: &mut u32) -> Vec<Vec<u8>> {
    let mut state = ContainerSource::fresh();
    let mut made = Vec::new();
    for _ in 0..count {
        let payload = some_bytes(shape.payload(), seed);
        let mut container = vec![0xEE; shape.container()];
        state = container_source(shape, state, GIVEN, trace, &payload, &mut container).unwrap();
        made.push(container);
    }
    made
}

/// The offsets at the ends of their range, one between, and the last with which
/// G1 is among the held bytes and the first with which it is not.
fn marked_offsets(shape: Shape) -> [u16; 8] {
    let last = shape.last_value();
    let g1 = ((shape.container() - 3 * shape.columns) / shape.step) as u16;
    [0, 1, 2, last / 2, g1 - 1, g1, last - 1, last]
}

/// A reader "Wait passed, state normal, the word the first of its run and
/// row."
fn reader(offset: u16) -> PointerReader {
    PointerReader {
        state: Pointer::Normal(offset),
        ..PointerReader::fresh()
    }
}
