//! Containers: the source that writes one, and the payload call that takes the
//! payload out of one.

use super::counts::LAST_PLACE;
use super::parity::parity;
use super::refusal::Refusal;
use super::shape::Shape;
use super::trace::{sent_start_byte, trace_fault};

/// State of a container source: the place in the message of the J1 that comes
/// next (0 is the start byte), and the parity of "the container before".
#[derive(Clone, Copy, Debug, PartialEq, Eq)]
pub struct ContainerSource {
    pub place: u8,
    pub parity: u8,
}

impl ContainerSource {
    /// "a fresh container source begins at the start byte"; B3 is "00 in a
    /// source's first".
    pub fn fresh() -> Self {
        ContainerSource {
            place: 0,
            parity: 0x00,
        }
    }
}

/// What is given for one container's column 1: C2; "F2, H4, F3, K3, N1 are
/// given to the source"; for G1 "the violations returned" and "remote defect".
#[derive(Clone, Copy, Debug, PartialEq, Eq)]
pub struct Given {
    pub label: u8,
    pub f2: u8,
    pub h4: u8,
    pub f3: u8,
    pub k3: u8,
    pub n1: u8,
    pub violations: u8,
    pub remote: bool,
}

/// Writes one container; the new state, or the refusal, in the order "8, 4, 5,
/// 2, 3, 6", 20 and 21 "in the place of 5". "A refusal returns its number and
/// the old state. Nothing lent is written."
#[inline(always)]
pub fn container_source(
    shape: Shape,
    s: ContainerSource,
    g: Given,
    trace: &[u8; 15],
    payload: &[u8],
    container: &mut [u8],
) -> Result<ContainerSource, Refusal> {
    // 8: "a state number outside its range"; "message place 15"
    if s.place > LAST_PLACE {
        return Err(Refusal::of(8));
    }
    // 4: "sent ... label 00 or FF"
    if g.label == 0x00 || g.label == 0xFF {
        return Err(Refusal::of(4));
    }
    // 5, 20, 21: the sent trace
    if let Some(refusal) = trace_fault(trace) {
        return Err(refusal);
    }
    // 2: "payload not 2340 bytes"
    if payload.len() != shape.payload() {
        return Err(Refusal::of(2));
    }
    // 3: "a container ... not 2349 bytes"
    if container.len() != shape.container() {
        return Err(Refusal::of(3));
    }
    // 6: "violations to return above 8"
    if g.violations > 8 {
        return Err(Refusal::of(6));
    }

    // "J1 carries 16 bytes in turn: a start byte ..., then 15 characters"
    let j1 = match s.place {
        0 => sent_start_byte(trace),
        place => trace[usize::from(place) - 1],
    };
    // "G1: bits 1-4 the violations returned ..., bit 5 remote defect, the rest
    // sent 0"; bit 1 is the top one.
    let g1 = (g.violations << 4) | (u8::from(g.remote) << 3);
    // "Column 1 holds J1, B3, C2, G1, F2, H4, F3, K3, N1 from the top."
    let column = [j1, s.parity, g.label, g1, g.f2, g.h4, g.f3, g.k3, g.n1];
    for ((row, overhead), part) in container
        .chunks_exact_mut(shape.columns)
        .zip(column)
        .zip(payload.chunks_exact(shape.columns - 1))
    {
        row[0] = overhead;
        row[1..].copy_from_slice(part);
    }

    Ok(ContainerSource {
        place: if s.place == LAST_PLACE { 0 } else { s.place + 1 },
        // "the exclusive or of all 2349 bytes of the container before", its B3
        // among them
        parity: parity(container),
    })
}

/// "The payload call writes 2340 bytes, or 2340 of FF where AIS is asked for."
/// Refused in the order "3, 2".
#[inline(always)]
pub fn payload_call(shape: Shape, container: &[u8], ais: bool, payload: &mut [u8]) -> Result<(), Refusal> {
    // 3: "a container ... not 2349 bytes"
    if container.len() != shape.container() {
        return Err(Refusal::of(3));
    }
    // 2: "payload not 2340 bytes"
    if payload.len() != shape.payload() {
        return Err(Refusal::of(2));
    }
    if ais {
        payload.fill(0xFF);
        return Ok(());
    }
    for (part, row) in payload
        .chunks_exact_mut(shape.columns - 1)
        .zip(container.chunks_exact(shape.columns))
    {
        part.copy_from_slice(&row[1..]);
    }
    Ok(())
}
