//! The trace: the refusals of its characters, the check of its message, the
//! start byte that carries it, and whether a message is good.

use super::refusal::Refusal;

/// The first fault of a trace that is expected, sent or listed, if it has one: "5
/// below, 20 above, 21 all spaces". "The first two name the place from 1";
/// "among characters the earliest decides".
#[inline]
pub fn trace_fault(trace: &[u8; 15]) -> Option<Refusal> {
    for (index, character) in trace.iter().enumerate() {
        match character {
            // 5: "below 20"
            0x00..=0x1F => return Some(Refusal::at(5, index + 1)),
            0x20..=0x7E => {}
            // 20: "above 7E"
            0x7F..=0xFF => return Some(Refusal::at(20, index + 1)),
        }
    }
    // 21: "all spaces, which nobody means"
    if *trace == [b' '; 15] {
        return Some(Refusal::of(21));
    }
    None
}

/// "x^7 + x^3 + 1", highest power first.
const DIVISOR: [bool; 8] = [true, false, false, false, true, false, false, true];

/// "remainder of the ... bytes times x^7", "start 0", by long division over
/// bits. The highest power of the remainder is the highest of the seven bits
/// ("C1 first").
pub(crate) fn remainder(bytes: &[u8]) -> u8 {
    // The dividend: each byte from its top bit down.
    let mut bits: Vec<bool> = Vec::new();
    for byte in bytes {
        for place in (0..8).rev() {
            bits.push((byte >> place) & 1 == 1);
        }
    }
    let message_bits = bits.len();

    // "times x^7": seven zeros behind the message.
    bits.extend([false; 7]);

    // Wherever a one leads, the divisor is taken away from there on.
    for lead in 0..message_bits {
        if bits[lead] {
            for (step, divisor_bit) in DIVISOR.iter().enumerate() {
                bits[lead + step] ^= divisor_bit;
            }
        }
    }

    // What is left stands in the last seven bits.
    let mut rest = 0;
    for bit in &bits[message_bits..] {
        rest = rest * 2 + u8::from(*bit);
    }
    rest
}

/// "a start byte with its top bit set and a 7-bit check", the check being
/// taken over the 16 bytes with "the start byte taken as 80".
pub fn start_byte(characters: &[u8; 15]) -> u8 {
    let mut message = [0x80; 16];
    message[1..].copy_from_slice(characters);
    0x80 | remainder(&message)
}

/// "the trace check says no unless given 16 bytes of a good message"; "a good
/// message is a start byte, 15 bytes with top bit 0, right check".
pub fn trace_check(bytes: &[u8]) -> bool {
    // "unless given 16 bytes"
    if bytes.len() != 16 {
        return false;
    }
    let start = bytes[0];
    let mut characters = [0; 15];
    characters.copy_from_slice(&bytes[1..]);

    // "a start byte with its top bit set"
    if start & 0x80 == 0 {
        return false;
    }
    // "15 bytes with top bit 0"
    if characters.iter().any(|byte| byte & 0x80 != 0) {
        return false;
    }
    // "right check"
    start == start_byte(&characters)
}

/// The same byte as `start_byte` gives, without a list of bits: the remainder
/// stands in the upper seven bits of one byte, and the message goes through it
/// bit by bit.
pub(crate) fn sent_start_byte(characters: &[u8; 15]) -> u8 {
    // "x^7 + x^3 + 1" without its leading power, one bit up.
    const DIVISOR_REST: u8 = 0b000_1001 << 1;
    let mut rest = 0;
    // "the start byte taken as 80"
    for byte in [0x80].iter().chain(characters) {
        rest ^= byte;
        for _ in 0..8 {
            let leads = rest & 0x80 != 0;
            rest <<= 1;
            if leads {
                rest ^= DIVISOR_REST;
            }
        }
    }
    0x80 | (rest >> 1)
}
