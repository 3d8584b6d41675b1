//! Parity and its comparison, and the trace: its first fault, remainders, start
//! bytes, good messages.

use super::*;

#[test]
fn parity_of_no_bytes_is_00() {
    assert_eq!(parity(&[]), 0x00);
}

#[test]
fn parity_is_the_exclusive_or() {
    assert_eq!(parity(&[0xA7]), 0xA7);
    assert_eq!(parity(&[0xF0, 0x3C, 0x01]), 0xCD);
    assert_eq!(parity(&[0xFF; 2349]), 0xFF);
    assert_eq!(parity(&[0xFF; 2358]), 0x00);
}

#[test]
fn columns_are_those_in_which_b3_and_the_last_parity_differ() {
    for b3 in 0..=255 {
        assert_eq!(columns(b3, None), 0x00);
        for last in 0..=255 {
            // Column 1 is sent first.
            let differ: Vec<u8> = (1..=8).filter(|column| (b3 >> (8 - column)) % 2 != (last >> (8 - column)) % 2).collect();
            let columns = columns(b3, Some(last));
            assert_eq!((1..=8).filter(|column| columns & (0x100u16 >> column) as u8 != 0).collect::<Vec<u8>>(), differ);
            assert_eq!(usize::from(violations(columns)), differ.len());
        }
    }
}

#[test]
fn the_table_of_refused_traces() {
    for (trace, refusal) in refused_traces() {
        assert_eq!(trace_fault(&trace), Some(refusal));
    }
}

#[test]
fn one_character_below_or_above() {
    for around in [0x20, 0x21, 0x7E] {
        for place in 0..15 {
            for character in 0..=255 {
                let mut trace = [around; 15];
                trace[place] = character;
                let spaces = around == 0x20 && character == 0x20;
                let fault = if spaces { Some(refused(21, &[])) } else { refused_at(place, character) };
                assert_eq!(trace_fault(&trace), fault);
            }
        }
    }
}

#[test]
fn of_two_characters_the_earlier_decides() {
    for (first, second) in [(0x00, 0xFF), (0xFF, 0x00), (0x1F, 0x7F), (0x80, 0x1F), (0x1F, 0x00), (0x7F, 0xFF)] {
        for earlier in 0..15 {
            for later in earlier + 1..15 {
                let mut trace = padded(b"03E5");
                (trace[earlier], trace[later]) = (first, second);
                assert_eq!(trace_fault(&trace), refused_at(earlier, first));
            }
        }
    }
}

#[test]
fn spaces_but_for_one_character() {
    for place in 0..15 {
        let mut trace = [0x20; 15];
        trace[place] = 0x21;
        assert_eq!(trace_fault(&trace), None);
    }
}

#[test]
fn a_refusal_is_printed_with_a_blank_before_each_place() {
    assert_eq!(refused(21, &[]).to_string(), "21");
    assert_eq!(refused(5, &[3]).to_string(), "5 3");
    assert_eq!(refused(20, &[15]).in_record(4).to_string(), "20 4 15");
    assert_eq!(refused(21, &[]).in_record(4).to_string(), "21 4");
}

#[test]
fn remainders_of_the_polynomial() {
    assert_eq!(remainder(&[]), 0);
    // x^7 itself leaves x^3 + 1.
    assert_eq!(remainder(&[0x01]), 0x09);
    // The divisor's own bits leave nothing.
    assert_eq!(remainder(&[0x89]), 0);
    // Published remainders of x^7 + x^3 + 1 with start 0.
    assert_eq!(remainder(b"123456789"), 0x75);
    assert_eq!(remainder(&[0x40, 0x00, 0x00, 0x00, 0x00]), 0x4A);
}

#[test]
fn start_byte_of_fifteen_zero_bytes() {
    // x^127 leaves 1, so 80 and 15 times 00 leave what x^7 leaves.
    assert_eq!(start_byte(&[0x00; 15]), 0x89);
}

#[test]
fn start_byte_has_its_top_bit_set_and_the_message_is_good() {
    let mut seed = 1;
    for _ in 0..500 {
        let mut characters = [0; 15];
        for character in &mut characters {
            *character = 0x20 + (next(&mut seed) % 0x5F) as u8;
        }
        assert_eq!(start_byte(&characters) & 0x80, 0x80);
        assert!(trace_check(&message(&characters)));
    }
}

#[test]
fn sixteen_bytes_with_one_bit_wrong_are_no_good_message() {
    let bytes = message(&padded(b"03E5"));
    assert!(trace_check(&bytes));
    for place in 0..16 {
        for bit in 0..8 {
            let mut wrong = bytes.clone();
            wrong[place] ^= 1 << bit;
            assert!(!trace_check(&wrong));
        }
    }
}

#[test]
fn trace_check_asks_only_for_top_bit_0() {
    assert!(trace_check(&message(&[0x00; 15])));
    assert!(trace_check(&message(&[0x7F; 15])));
    let mut high = [b'A'; 15];
    high[7] = 0x80;
    assert!(!trace_check(&message(&high)));
}

#[test]
fn trace_check_says_no_unless_given_16_bytes() {
    let bytes = message(&padded(b"03E5"));
    assert!(!trace_check(&[]));
    assert!(!trace_check(&bytes[..15]));
    assert!(!trace_check(&bytes[1..]));
    let mut longer = bytes.clone();
    longer.push(b' ');
    assert!(!trace_check(&longer));
    let twice = [bytes.clone(), bytes].concat();
    assert!(!trace_check(&twice));
}

#[test]
fn the_two_ways_to_the_start_byte_agree() {
    let mut seed = 3;
    for _ in 0..500 {
        let mut characters = [0; 15];
        for character in &mut characters {
            *character = next(&mut seed) as u8;
        }
        assert_eq!(sent_start_byte(&characters), start_byte(&characters));
    }
    assert_eq!(sent_start_byte(&[0x00; 15]), 0x89);
}
