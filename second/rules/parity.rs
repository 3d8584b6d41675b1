//! Parity of bytes, and its comparison.

/// "the exclusive or of all ... bytes"; "Parity of no bytes is 00".
pub fn parity(bytes: &[u8]) -> u8 {
    let mut sum = 0x00;
    for byte in bytes {
        sum ^= byte;
    }
    sum
}

/// "The parity comparison should hand back the eight columns themselves": "B3
/// exclusive or last parity", no column "with no last parity". Column 1 is the
/// highest bit, column 8 the lowest.
pub fn columns(b3: u8, last: Option<u8>) -> u8 {
    match last {
        Some(parity) => b3 ^ parity,
        None => 0x00,
    }
}

/// "the count for REI is then taken by whoever asks": "Violations: ones in" the
/// columns.
pub fn violations(columns: u8) -> u8 {
    columns.count_ones() as u8
}
