//! Pointer words as the sink reads them, one after the other.

use super::*;
use Taken::*;

/// The words, one after the other; how the last was taken.
fn read_all(shape: Shape, r: &mut PointerReader, words: &[u16]) -> Taken {
    let mut taken = Invalid;
    for word in words {
        taken = r.read(shape, Word::of(*word));
        assert!(r.in_range(shape));
    }
    taken
}

/// Each row: the offset, the word read there, how it is taken, the offset then.
fn read_table(shape: Shape, rows: &[(u16, u16, Taken, u16)]) {
    for (offset, word, taken, after) in rows.iter().copied() {
        let mut r = reader(offset);
        assert_eq!(r.read(shape, Word::of(word)), taken, "{word:04X} at {offset}");
        assert_eq!(r.state, Pointer::Normal(after), "{word:04X} at {offset}");
        assert_eq!(r.invalid_words, u8::from(taken == Invalid));
        let anew = matches!(taken, Increment | Decrement | NewData);
        assert_eq!(r.wait, if anew { 0 } else { 3 });
    }
}

#[test]
fn the_table_p1_to_p12_read_by_the_sink() {
    read_table(
        AU4,
        &[
            (0, 0x6800, Plain, 0),
            (0, 0x6AAA, Increment, 1),
            (0, 0x6955, Decrement, 782),
            (782, 0x69A4, Increment, 0),
            (1, 0x6954, Decrement, 0),
            (782, 0x6800, Increment, 0),
            (0, 0x6B0F, Invalid, 0),
            (0, 0x6C00, Invalid, 0),
            (0, 0x7800, Plain, 0),
            (0, 0x0800, Invalid, 0),
            (5, 0x9800, NewData, 0),
            (5, 0x1801, NewData, 1),
        ],
    );
}

#[test]
fn the_same_words_with_the_values_of_tu3() {
    read_table(
        TU3,
        &[
            (0, 0x6800, Plain, 0),
            (0, 0x6AAA, Increment, 1),
            (0, 0x6955, Decrement, 764),
            (764, 0x6856, Increment, 0),
            (1, 0x6954, Decrement, 0),
            // From 764 to 0 are four I and three D.
            (764, 0x6800, Invalid, 764),
            (0, 0x6AFD, Invalid, 0),
            (0, 0x6C00, Invalid, 0),
            (0, 0x7800, Plain, 0),
            (0, 0x0800, Invalid, 0),
            (5, 0x9800, NewData, 0),
            (5, 0x1801, NewData, 1),
        ],
    );
}

#[test]
fn new_data_up_to_the_last_value() {
    read_table(AU4, &[(5, 0x9AFD, NewData, 765), (5, 0x9B0E, NewData, 782), (5, 0x9B0F, Invalid, 5)]);
    read_table(TU3, &[(5, 0x9AFC, NewData, 764), (5, 0x9AFD, Invalid, 5), (5, 0x9B0E, Invalid, 5)]);
}

over_both!(p2_with_two_units_since_the_last_adjustment_is_invalid);
fn p2_with_two_units_since_the_last_adjustment_is_invalid(shape: Shape) {
    for (wait, taken) in [(0, Invalid), (1, Invalid), (2, Invalid), (3, Increment)] {
        let mut r = PointerReader { wait, ..reader(0) };
        assert_eq!(r.read(shape, Word::of(0x6AAA)), taken);
    }
    // By units: an adjustment, then plain ones, then P2 again.
    let last = shape.last_value();
    for between in 0..5 {
        let mut r = reader(0);
        assert_eq!(r.read(shape, Word::of(0x6955)), Decrement);
        assert_eq!(r.read(shape, Word::of(increment_word(last))), Invalid);
        let mut r = reader(last);
        assert_eq!(r.read(shape, Word::of(increment_word(last))), Increment);
        read_all(shape, &mut r, &vec![0x6800; between]);
        assert_eq!(r.read(shape, Word::of(0x6AAA)), if between < 3 { Invalid } else { Increment });
    }
}

over_both!(rows_and_runs);
fn rows_and_runs(shape: Shape) {
    // Three alarm words, from each state.
    for start in [Pointer::Lost, Pointer::Alarm, Pointer::Normal(3)] {
        let mut r = PointerReader { state: start, ..PointerReader::fresh() };
        read_all(shape, &mut r, &[0xFFFF, 0xFFFF]);
        assert_eq!(r.state, start);
        read_all(shape, &mut r, &[0x0000, 0xFFFF, 0xFFFF]);
        assert_eq!(r.state, start);
        read_all(shape, &mut r, &[0xFFFF]);
        assert_eq!(r.state, Pointer::Alarm);
        read_all(shape, &mut r, &[0xFFFF]);
        assert_eq!((r.state, r.alarm_words), (Pointer::Alarm, 3));
    }
    // Eight enabled ones; the seventh is normal, the eighth lost.
    for start in [Pointer::Alarm, Pointer::Normal(3)] {
        let mut r = PointerReader { state: start, ..PointerReader::fresh() };
        for value in 0..7 {
            assert_eq!(r.read(shape, Word::of(0x9800 + value)), NewData);
            assert_eq!((r.state, r.wait), (Pointer::Normal(value), 0));
        }
        read_all(shape, &mut r, &[0x9800]);
        assert_eq!((r.state, r.wait, r.enabled_words), (Pointer::Lost, 1, 8));
        assert_eq!(r.read(shape, Word::of(0x9800)), NewData);
        assert_eq!((r.state, r.wait, r.enabled_words), (Pointer::Lost, 2, 8));
    }
    // Eight invalid ones, unless another kind comes between.
    for start in [Pointer::Alarm, Pointer::Normal(3)] {
        let mut r = PointerReader { state: start, ..PointerReader::fresh() };
        read_all(shape, &mut r, &[0x0000; 7]);
        assert_eq!((r.state, r.invalid_words), (start, 7));
        read_all(shape, &mut r, &[0xFFFF]);
        assert_eq!(r.invalid_words, 0);
        read_all(shape, &mut r, &[0x0000; 7]);
        assert_eq!(r.state, start);
        read_all(shape, &mut r, &[0x0000]);
        assert_eq!(r.state, Pointer::Lost);
        read_all(shape, &mut r, &[0x0000; 3]);
        assert_eq!((r.state, r.invalid_words), (Pointer::Lost, 8));
    }
    // Three alike words, whatever their NDF and however they were taken.
    let mut r = reader(0);
    assert_eq!(read_all(shape, &mut r, &[0x6AAA]), Increment);
    assert_eq!(read_all(shape, &mut r, &[0x7AAA]), Invalid);
    assert_eq!(read_all(shape, &mut r, &[0xEAAA]), Found);
    assert_eq!((r.state, r.wait), (Pointer::Normal(0x2AA), 2));
    assert_eq!(read_all(shape, &mut r, &[0x6AAA]), Plain);
    for start in [Pointer::Lost, Pointer::Alarm] {
        let mut r = PointerReader { state: start, ..PointerReader::fresh() };
        assert_eq!(read_all(shape, &mut r, &[0x6805, 0x6805]), Waiting);
        assert_eq!(read_all(shape, &mut r, &[0x6806]), Waiting);
        assert_eq!(read_all(shape, &mut r, &[0x6806]), Waiting);
        assert_eq!(r.state, start);
        assert_eq!(read_all(shape, &mut r, &[0x6806]), Found);
        assert_eq!(r.state, Pointer::Normal(6));
    }
    // Out of range: no run, and invalid outside normal.
    let mut r = PointerReader::fresh();
    assert_eq!(read_all(shape, &mut r, &[plain_word(shape.last_value() + 1); 3]), Invalid);
    assert_eq!((r.state, r.run), (Pointer::Lost, 0));
    // In lost, new data changes nothing but the rows.
    let mut r = PointerReader::fresh();
    assert_eq!(read_all(shape, &mut r, &[0x6805, 0x6805, 0x9805]), NewData);
    assert_eq!((r.state, r.run, r.enabled_words), (Pointer::Lost, 0, 1));
}
