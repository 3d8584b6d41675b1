//! Pointer words: readings, the words of the source, and the table P1 to P12 by
//! the bits alone.

use super::*;

#[test]
fn word_reading_of_each_ndf() {
    for ndf in 0..16u16 {
        let kind = match ndf {
            0b0110 | 0b1110 | 0b0010 | 0b0100 | 0b0111 => 1,
            0b1001 | 0b0001 | 0b1101 | 0b1011 | 0b1000 => 2,
            _ => 0,
        };
        for ss in 0..4 {
            for value in 0..1024 {
                let word = (ndf << 12) | (ss << 10) | value;
                assert_eq!(
                    word_reading(&word.to_be_bytes()),
                    4096 * kind + 1024 * ss + value
                );
            }
        }
    }
    let kinds: Vec<u16> = (0..16).map(ndf_kind).collect();
    let of = |kind| kinds.iter().filter(|each| **each == kind).count();
    assert_eq!((of(0), of(1), of(2)), (6, 5, 5));
}

#[test]
fn word_reading_is_0_unless_given_2_bytes() {
    assert_eq!(word_reading(&[]), 0);
    assert_eq!(word_reading(&[0x68]), 0);
    assert_eq!(word_reading(&[0x68, 0x00, 0x00]), 0);
    assert_eq!(word_reading(&[0x68, 0x00]), 4096 + 2048);
    assert_eq!(word_reading(&[0xFF, 0xFF]), 4095);
}

/// How a word is taken, with the offset after it.
#[derive(Debug, PartialEq, Eq)]
enum Taken {
    Plain,
    Increment(u16),
    Decrement(u16),
    NewData(u16),
    Invalid,
}

/// Rules 2, 4 and 6 for a first word in the normal state, wait passed.
fn taken(shape: Shape, offset: u16, word: u16) -> Taken {
    let last = shape.last_value();
    let reading = word_reading(&word.to_be_bytes());
    let kind = reading / 4096;
    let ss = reading / 1024 % 4;
    let value = reading % 1024;
    if kind == 2 && ss == 2 && value <= last {
        return Taken::NewData(value);
    }
    if kind == 1 && ss == 2 {
        if value == offset {
            return Taken::Plain;
        }
        let (i, d) = inverted(word, offset);
        if i >= 3 && d <= 2 {
            return Taken::Increment(if offset == last { 0 } else { offset + 1 });
        }
        if d >= 3 && i <= 2 {
            return Taken::Decrement(if offset == 0 { last } else { offset - 1 });
        }
    }
    Taken::Invalid
}

#[test]
fn the_table_of_pointer_words() {
    assert_eq!(taken(AU4, 0, 0x6800), Taken::Plain); // P1
    assert_eq!(taken(AU4, 0, 0x6AAA), Taken::Increment(1)); // P2
    assert_eq!(taken(AU4, 0, 0x6955), Taken::Decrement(782)); // P3
    assert_eq!(taken(AU4, 782, 0x69A4), Taken::Increment(0)); // P4
    assert_eq!(taken(AU4, 1, 0x6954), Taken::Decrement(0)); // P5
    assert_eq!(taken(AU4, 782, 0x6800), Taken::Increment(0)); // P6
    assert_eq!(taken(AU4, 0, 0x6B0F), Taken::Invalid); // P7
    assert_eq!(taken(AU4, 0, 0x6C00), Taken::Invalid); // P8
    assert_eq!(taken(AU4, 0, 0x7800), Taken::Plain); // P9
    assert_eq!(taken(AU4, 0, 0x0800), Taken::Invalid); // P10
    assert_eq!(taken(AU4, 5, 0x9800), Taken::NewData(0)); // P11
    assert_eq!(taken(AU4, 5, 0x1801), Taken::NewData(1)); // P12
}

#[test]
fn the_words_of_the_source_in_the_table() {
    assert_eq!(plain_word(0), 0x6800); // P1
    assert_eq!(increment_word(0), 0x6AAA); // P2
    assert_eq!(decrement_word(0), 0x6955); // P3
    assert_eq!(increment_word(782), 0x69A4); // P4
    assert_eq!(decrement_word(1), 0x6954); // P5
}

#[test]
fn the_reasons_in_the_table() {
    // P7: "783; three I, three D"
    assert_eq!(word_reading(&[0x6B, 0x0F]), 4096 + 2048 + 783);
    assert_eq!(inverted(0x6B0F, 0), (3, 3));
    // P8: "SS"
    assert_eq!(word_reading(&[0x6C, 0x00]), 4096 + 3 * 1024);
    // P10: "NDF"
    assert_eq!(word_reading(&[0x08, 0x00]), 2048);
    // P6: at least three I, at most two D
    assert_eq!(inverted(0x6800, 782), (3, 2));
}

over_both!(the_source_words_are_taken_as_meant);
fn the_source_words_are_taken_as_meant(shape: Shape) {
    let last = shape.last_value();
    for value in 0..=last {
        let up = if value == last { 0 } else { value + 1 };
        let down = if value == 0 { last } else { value - 1 };
        assert_eq!(taken(shape, value, plain_word(value)), Taken::Plain);
        assert_eq!(taken(shape, value, increment_word(value)), Taken::Increment(up));
        assert_eq!(taken(shape, value, decrement_word(value)), Taken::Decrement(down));
        assert_eq!(inverted(plain_word(value), value), (0, 0));
        assert_eq!(inverted(increment_word(value), value), (5, 0));
        assert_eq!(inverted(decrement_word(value), value), (0, 5));
        for word in [plain_word(value), increment_word(value), decrement_word(value)] {
            assert_eq!(word >> 10, 0b0110_10);
        }
    }
}
