//! The catalogue, its lookup and its listing; and that every input is answered.

use super::*;

/// Good records with circuit numbers from 1 and a trace each.
fn good(count: usize) -> Vec<u8> {
    let mut bytes = Vec::new();
    for number in 1..=count {
        bytes.extend(record(
            number as u16,
            0x12,
            format!("T{number}").as_bytes(),
            0x0F,
        ));
    }
    bytes
}

/// The same, but the record at the second place has the trace of the one at the
/// first, both counted from 1.
fn repeated(count: usize, first: usize, later: usize) -> Vec<u8> {
    let mut bytes = good(count);
    let at = |place: usize| (place - 1) * RECORD_LENGTH + 5;
    bytes.copy_within(at(first)..at(first) + 15, at(later));
    bytes
}

/// The check's answer without its count.
fn answer(bytes: &[u8]) -> Result<usize, Refusal> {
    catalogue_check(bytes).answer
}

/// Its count alone.
fn pairs(bytes: &[u8]) -> usize {
    catalogue_check(bytes).pairs
}

/// "at most n(n-1)/2 for n records"
fn most_pairs(count: usize) -> usize {
    count * count.saturating_sub(1) / 2
}

#[test]
fn the_example_of_the_listing() {
    let mut bytes = vec![0x5A, 0x4D, 0x00, 0x07, 0x12];
    bytes.extend_from_slice(b"03E5");
    bytes.extend_from_slice(&[b' '; 11]);
    bytes.push(0x0F);
    assert_eq!(
        listing(&bytes),
        b"circuit label trace flags\n7 12 [03E5           ] 15\n"
    );
    assert_eq!(answer(&bytes), Ok(1));
    assert_eq!(
        lookup(&bytes, 7),
        Ok(Record {
            circuit: 7,
            label: 0x12,
            trace: padded(b"03E5"),
            flags: 15
        })
    );
}

#[test]
fn an_empty_file_is_a_good_catalogue_of_none() {
    assert_eq!(answer(&[]), Ok(0));
    assert_eq!(listing(&[]), b"circuit label trace flags\n");
    assert_eq!(lookup(&[], 1), Err(refused(14, &[])));
}

#[test]
fn lengths() {
    assert_eq!(LONGEST_CATALOGUE, 10_752);
    assert_eq!(answer(&good(512)), Ok(512));
    assert_eq!(answer(&good(513)), Err(refused(9, &[])));
    for length in 1..=2 * RECORD_LENGTH {
        let bytes = &good(2)[..length];
        if length % RECORD_LENGTH == 0 {
            assert_eq!(answer(bytes), Ok(length / RECORD_LENGTH));
        } else {
            assert_eq!(answer(bytes), Err(refused(9, &[])));
        }
    }
}

#[test]
fn length_comes_before_all_else() {
    assert_eq!(answer(&[0x00; 22]), Err(refused(9, &[])));
    assert_eq!(listing(&[0x00; 22]), b"9\n");
    assert_eq!(lookup(&[0x00; 22], 0), Err(refused(9, &[])));
    assert_eq!(answer(&[0x00; 513 * 21]), Err(refused(9, &[])));
}

#[test]
fn bounds_of_each_field() {
    let one = |circuit, label, trace: &[u8], flags| {
        answer(&record(circuit, label, trace, flags))
    };
    assert_eq!(one(0, 0x12, b"A", 0), Err(refused(11, &[1])));
    assert_eq!(one(1, 0x12, b"A", 0), Ok(1));
    assert_eq!(one(9999, 0x12, b"A", 0), Ok(1));
    assert_eq!(one(10000, 0x12, b"A", 0), Err(refused(11, &[1])));
    assert_eq!(one(1, 0x00, b"A", 0), Err(refused(4, &[1])));
    assert_eq!(one(1, 0x01, b"A", 0), Ok(1));
    assert_eq!(one(1, 0xFE, b"A", 0), Ok(1));
    assert_eq!(one(1, 0xFF, b"A", 0), Err(refused(4, &[1])));
    assert_eq!(one(1, 0x12, b"\x1F", 0), Err(refused(5, &[1, 1])));
    assert_eq!(one(1, 0x12, b"\x20", 0), Err(refused(21, &[1])));
    assert_eq!(one(1, 0x12, b"\x20\x21", 0), Ok(1));
    assert_eq!(one(1, 0x12, b"\x7E", 0), Ok(1));
    assert_eq!(one(1, 0x12, b"\x7F", 0), Err(refused(20, &[1, 1])));
    assert_eq!(one(1, 0x12, b"ABCDEFGHIJKLMN\x80", 0), Err(refused(20, &[1, 15])));
    assert_eq!(one(1, 0x12, b"A", 15), Ok(1));
    assert_eq!(one(1, 0x12, b"A", 16), Err(refused(12, &[1])));
    assert_eq!(one(1, 0x12, b"A", 255), Err(refused(12, &[1])));
}

#[test]
fn the_record_comes_first_and_then_the_character() {
    for (trace, refusal) in refused_traces() {
        let bytes = [good(3), record(4, 0x12, &trace, 0x10), record(0, 0x00, &trace, 0)].concat();
        let places = [&[4], &refusal.places[..]].concat();
        assert_eq!(answer(&bytes), Err(refused(refusal.number, &places)));
        assert_eq!(lookup(&bytes, 1), Err(refused(refusal.number, &places)));
    }
    let listed = |character: u8, place: usize| {
        let mut bytes = good(5);
        bytes[3 * RECORD_LENGTH + 5 + place] = character;
        String::from_utf8(listing(&bytes)).unwrap()
    };
    assert_eq!(listed(0xFF, 1), "20 4 2\n");
    assert_eq!(listed(0x00, 14), "5 4 15\n");
    let spaces = [good(3), record(4, 0x12, b"", 0)].concat();
    assert_eq!(listing(&spaces), b"21 4\n");
}

#[test]
fn each_character_of_a_listed_trace() {
    for place in 0..15 {
        for character in 0..=255 {
            let mut trace = *b"ABCDEFGHIJKLMNO";
            trace[place] = character;
            let bytes = [good(1), record(2, 0x12, &trace, 0)].concat();
            let want = refused_at(place, character).map_or(Ok(2), |refusal| Err(refusal.in_record(2)));
            assert_eq!(answer(&bytes), want);
        }
    }
}

#[test]
fn either_byte_of_the_mark_may_be_wrong() {
    for place in 0..2 {
        for bit in 0..8 {
            let mut bytes = good(2);
            bytes[RECORD_LENGTH + place] ^= 1 << bit;
            assert_eq!(answer(&bytes), Err(refused(10, &[2])));
        }
    }
}

#[test]
fn faults_of_one_record_come_in_the_order_10_11_4_trace_12() {
    // The second of three records has every fault; they are put right one
    // by one in the order in which they are named. Before and after, two
    // records share a trace.
    let mut bytes = record(1, 0x12, b"A", 0);
    bytes.extend([0x4D, 0x5A, 0x27, 0x10, 0xFF]);
    bytes.extend([0x7F; 15]);
    bytes.push(0x10);
    bytes.extend(record(3, 0x12, b"A", 0));
    let at = RECORD_LENGTH;

    assert_eq!(answer(&bytes), Err(refused(10, &[2])));
    assert_eq!(listing(&bytes), b"10 2\n");
    bytes[at] = 0x5A;
    assert_eq!(answer(&bytes), Err(refused(10, &[2])));
    bytes[at + 1] = 0x4D;
    assert_eq!(answer(&bytes), Err(refused(11, &[2])));
    bytes[at + 3] = 0x0F;
    assert_eq!(answer(&bytes), Err(refused(4, &[2])));
    bytes[at + 4] = 0xFE;
    assert_eq!(answer(&bytes), Err(refused(20, &[2, 1])));
    bytes[at + 5..at + 7].copy_from_slice(&[0x7E, 0x1F]);
    assert_eq!(answer(&bytes), Err(refused(5, &[2, 2])));
    bytes[at + 5..at + 20].fill(0x20);
    assert_eq!(answer(&bytes), Err(refused(21, &[2])));
    bytes[at + 5..at + 20].fill(0x7E);
    assert_eq!(answer(&bytes), Err(refused(12, &[2])));
    bytes[at + 20] = 0x0F;
    assert_eq!(answer(&bytes), Err(refused(13, &[3, 1])));
    assert_eq!(listing(&bytes), b"13 3 1\n");
    bytes[2 * at + 5] = b'B';
    assert_eq!(answer(&bytes), Ok(3));
}

#[test]
fn an_earlier_record_comes_before_a_later_one() {
    // Flags wrong in record 2, mark wrong in record 3.
    let mut bytes = good(3);
    bytes[RECORD_LENGTH + 20] = 0xFF;
    bytes[2 * RECORD_LENGTH] = 0x00;
    assert_eq!(answer(&bytes), Err(refused(12, &[2])));
}

#[test]
fn the_last_place() {
    let mut bytes = good(512);
    bytes[511 * RECORD_LENGTH + 20] = 16;
    assert_eq!(listing(&bytes), b"12 512\n");
    bytes[511 * RECORD_LENGTH + 19] = 0x7F;
    assert_eq!(listing(&bytes), b"20 512 15\n");
}

#[test]
fn refusal_13_names_the_earliest_later_with_the_first() {
    let of = |traces: &[&[u8]]| {
        let mut bytes = Vec::new();
        for (index, trace) in traces.iter().enumerate() {
            bytes.extend(record(index as u16 + 1, 0x12, trace, 0));
        }
        answer(&bytes)
    };
    // 4 repeats 1, but 3 repeats 2 earlier.
    assert_eq!(of(&[b"A", b"B", b"B", b"A"]), Err(refused(13, &[3, 2])));
    // 2 repeats 1 before 3 does.
    assert_eq!(of(&[b"A", b"A", b"A"]), Err(refused(13, &[2, 1])));
    assert_eq!(of(&[b"A", b"B", b"C", b"B", b"A"]), Err(refused(13, &[4, 2])));
    // Spaces are characters like others.
    assert_eq!(of(&[b"A", b" A", b"  A", b"a", b"A !"]), Ok(5));
    assert_eq!(of(&[b"7", b"07", b"007"]), Ok(3));
    assert_eq!(of(&[b"!", b"A", b"!"]), Err(refused(13, &[3, 1])));
    // Two of spaces alone are refused for that.
    assert_eq!(of(&[b"A", b"A", b"", b""]), Err(refused(21, &[3])));
}

#[test]
fn pairs_are_counted() {
    let of = |bytes: &[u8]| {
        let checked = catalogue_check(bytes);
        (checked.answer, checked.pairs)
    };
    assert_eq!(of(&good(512)), (Ok(512), 130_816));
    // A repeat of record 1 at record 2.
    for count in [2, 3, 512] {
        assert_eq!(of(&repeated(count, 1, 2)), (Err(refused(13, &[2, 1])), 1));
    }
    assert_eq!(of(&repeated(3, 1, 3)), (Err(refused(13, &[3, 1])), 2));
    assert_eq!(of(&repeated(3, 2, 3)), (Err(refused(13, &[3, 2])), 3));
    // More than 16 bits hold, and refused.
    assert_eq!(of(&repeated(512, 1, 512)), (Err(refused(13, &[512, 1])), 130_306));
}

#[test]
fn all_pairs_where_no_trace_is_repeated() {
    for count in (0..=20).chain([511, 512]) {
        assert_eq!(pairs(&good(count)), most_pairs(count), "{count} records");
    }
    assert_eq!([0, 1, 2, 3, 4].map(|count| pairs(&good(count))), [0, 0, 1, 3, 6]);
}

#[test]
fn the_first_repeat_is_the_last_pair_counted() {
    for later in 2..=12 {
        for first in 1..later {
            // All pairs of the records before the later one, and of its own those
            // up to the first; whatever is behind.
            let want = (later - 1) * (later - 2) / 2 + first;
            for count in later..=12 {
                let checked = catalogue_check(&repeated(count, first, later));
                assert_eq!(checked.answer, Err(refused(13, &[later, first])));
                assert_eq!(checked.pairs, want, "{count} records, {later} repeats {first}");
            }
        }
    }
}

#[test]
fn the_most_pairs_and_refused() {
    // The last record has the trace of the one before it: the last pair of all.
    for count in (2..=20).chain([511, 512]) {
        let checked = catalogue_check(&repeated(count, count - 1, count));
        assert_eq!(checked.answer, Err(refused(13, &[count, count - 1])));
        assert_eq!(checked.pairs, most_pairs(count));
    }
}

#[test]
fn the_repeat_visited_first_decides() {
    let of = |traces: &[u8]| {
        let mut bytes = Vec::new();
        for trace in traces {
            bytes.extend(record(1, 0x12, &[*trace], 0));
        }
        pairs(&bytes)
    };
    // Three or four alike.
    assert_eq!(of(b"AAA"), 1);
    assert_eq!(of(b"BAAA"), 3);
    assert_eq!(of(b"ABAA"), 2);
    assert_eq!(of(b"ABACA"), 2);
    // Two traces repeated: by the later record, not by the first one.
    assert_eq!(of(b"ABBA"), 3);
    assert_eq!(of(b"ABAB"), 2);
    assert_eq!(of(b"ABCBA"), 5);
    assert_eq!(of(b"ABCCBA"), 6);
    // Every way to give five records one of five traces each.
    for number in 0..5usize.pow(5) {
        let traces = [0, 1, 2, 3, 4].map(|place| b'A' + (number / 5usize.pow(place) % 5) as u8);
        let visited = [(1, 0), (2, 0), (2, 1), (3, 0), (3, 1), (3, 2), (4, 0), (4, 1), (4, 2), (4, 3)];
        let first = visited.iter().position(|(later, first)| traces[*later] == traces[*first]);
        assert_eq!(of(&traces), first.map_or(10, |place| place + 1), "{traces:?}");
    }
}

#[test]
fn what_is_refused_before_compares_nothing() {
    // Records 1 and 3 of five have one trace, and a fault stands before both,
    // between them or behind them.
    let twice = repeated(5, 1, 3);
    assert_eq!(pairs(&twice), 2);
    let faults: [(u8, usize, &[u8]); 8] = [
        (10, 0, &[0x4D, 0x5A]),
        (11, 2, &[0x00, 0x00]),
        (11, 2, &[0x27, 0x10]),
        (4, 4, &[0x00]),
        (5, 19, &[0x1F]),
        (20, 19, &[0x7F]),
        (21, 5, &[0x20; 15]),
        (12, 20, &[0x10]),
    ];
    for (number, at, with) in faults {
        for place in [2, 4, 5] {
            let mut bytes = twice.clone();
            bytes[(place - 1) * RECORD_LENGTH + at..][..with.len()].copy_from_slice(with);
            let checked = catalogue_check(&bytes);
            assert_eq!(checked.answer.map_err(|refusal| (refusal.number, refusal.places[0])), Err((number, place)));
            assert_eq!(checked.pairs, 0, "{number} in record {place}");
        }
        let mut first = [good(1), twice.clone()].concat();
        first[at..at + with.len()].copy_from_slice(with);
        assert_eq!(catalogue_check(&first).pairs, 0, "{number} in record 1");
    }
    // 9, however short or long.
    for bytes in [&twice[..104], &[&twice[..], &[0x5A]].concat(), &repeated(513, 1, 2), &good(513), &[0x5A]] {
        let checked = catalogue_check(bytes);
        assert_eq!((checked.answer, checked.pairs), (Err(refused(9, &[])), 0));
    }
}

#[test]
fn lookup_gives_the_first_record_with_the_number() {
    let mut bytes = record(9, 0x13, b"A", 1);
    bytes.extend(record(0x1234, 0x12, b"B", 2));
    bytes.extend(record(0x1234, 0x02, b"C", 3));
    assert_eq!(answer(&bytes), Ok(3));
    assert_eq!(
        lookup(&bytes, 0x1234),
        Ok(Record {
            circuit: 0x1234,
            label: 0x12,
            trace: padded(b"B"),
            flags: 2
        })
    );
}

#[test]
fn any_number_not_in_it_is_14() {
    let bytes = good(3);
    for circuit in [0, 4, 9999, 10_000, 65_535, 65_536, 65_537, u32::MAX] {
        assert_eq!(lookup(&bytes, circuit), Err(refused(14, &[])));
    }
}

#[test]
fn lookup_checks_the_catalogue_first() {
    let mut bytes = good(3);
    bytes[2 * RECORD_LENGTH + 4] = 0x00;
    assert_eq!(lookup(&bytes, 1), Err(refused(4, &[3])));
    assert_eq!(lookup(&bytes, 77), Err(refused(4, &[3])));
    let twice = [good(2), good(1)].concat();
    assert_eq!(lookup(&twice, 2), Err(refused(13, &[3, 1])));
}

#[test]
fn listing_has_labels_of_two_capital_digits_and_traces_as_they_stand() {
    let mut bytes = record(9999, 0x0A, b" ]x[ ~", 0);
    bytes.extend(record(10, 0xFE, b"ABCDEFGHIJKLMNO", 9));
    assert_eq!(
        listing(&bytes),
        b"circuit label trace flags\n\
          9999 0A [ ]x[ ~         ] 0\n\
          10 FE [ABCDEFGHIJKLMNO] 9\n"
    );
}

#[test]
fn every_input_is_answered() {
    let mut seed = 7;
    for _ in 0..3000 {
        let mut bytes = if next(&mut seed) % 2 == 0 {
            good((next(&mut seed) % 6) as usize)
        } else {
            let length = next(&mut seed) % 70;
            (0..length).map(|_| next(&mut seed) as u8).collect()
        };
        if !bytes.is_empty() && next(&mut seed) % 2 == 0 {
            let place = next(&mut seed) as usize % bytes.len();
            bytes[place] = next(&mut seed) as u8;
        }
        parity(&bytes);
        trace_check(&bytes);
        word_reading(&bytes);
        let text = listing(&bytes);
        assert_eq!(text.last(), Some(&b'\n'));
        let checked = catalogue_check(&bytes);
        let most = most_pairs(bytes.len() / RECORD_LENGTH);
        match checked.answer {
            Ok(count) => {
                assert_eq!(count * RECORD_LENGTH, bytes.len());
                assert_eq!(checked.pairs, most);
            }
            Err(refusal) => {
                assert_eq!(checked.pairs > 0, refusal.number == 13);
                assert!(checked.pairs <= most);
                assert_eq!(lookup(&bytes, 1), Err(refusal));
            }
        }
    }
    start_byte(&[0xFF; 15]);
    for value in 0..=u16::MAX {
        plain_word(value);
        increment_word(value);
        decrement_word(value);
        inverted(value, !value);
    }
}
