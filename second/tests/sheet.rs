//! The spreadsheet: import, export, and both in turn.

use super::*;

/// A refusal that names a line.
fn at(number: u8, line: usize) -> Result<Vec<u8>, Refusal> {
    Err(refused(number, &[line]))
}

/// The import of a text.
fn of(text: impl AsRef<[u8]>) -> Result<Vec<u8>, Refusal> {
    import(text.as_ref())
}

/// The import of one line, between two others that are good.
fn of_line(line: impl AsRef<[u8]>) -> Result<Vec<u8>, Refusal> {
    let text = [b"1,12,\"first\",0\n", line.as_ref(), b"\n3,12,\"last\",0\n"].concat();
    import(&text).map(|catalogue| catalogue[RECORD_LENGTH..2 * RECORD_LENGTH].to_vec())
}

/// Such a line is refused with this number.
fn is(line: impl AsRef<[u8]>, number: u8) {
    assert_eq!(of_line(&line), at(number, 2), "{}", String::from_utf8_lossy(line.as_ref()));
}

/// So many lines with a trace each, all good.
fn good(count: usize) -> Vec<u8> {
    (1..=count).flat_map(|number| format!("{number},12,\"T{number}\",15\n").into_bytes()).collect()
}

#[test]
fn a_line_is_number_label_trace_flags() {
    assert_eq!(of("7,12,\"03E5\",15\n"), Ok(record(7, 0x12, b"03E5", 15)));
    let text = "9999,fE,\"ABCDEFGHIJKLMNO\",0\n1,Ab,\"a\",09\n0001,01,\" b \",9\n";
    let three = [record(9999, 0xFE, b"ABCDEFGHIJKLMNO", 0), record(1, 0xAB, b"a", 9), record(1, 0x01, b" b ", 9)];
    assert_eq!(of(text), Ok(three.concat()));
    // "so 03E5 can never pass as a number"
    assert_eq!(of("7,12,03E5,15\n"), at(16, 1));
}

#[test]
fn no_bytes_are_a_good_catalogue_of_none() {
    assert_eq!(import(b""), Ok(Vec::new()));
    assert_eq!(export(b""), Ok(Vec::new()));
    // An empty line is a line.
    assert_eq!(of("\n"), at(15, 1));
    assert_eq!(of("1,12,\"a\",0\n\n"), at(15, 2));
    assert_eq!(of("\n1,12,\"a\",0\n"), at(15, 1));
}

#[test]
fn an_lf_ends_every_line() {
    assert_eq!(of("1,12,\"a\",0"), at(15, 1));
    assert_eq!(of("1,12,\"a\",0\n2,12,\"b\",0"), at(15, 2));
    assert_eq!(of("1,12,\"a\",0\n2"), at(15, 2));
    assert_eq!(of("1,12,\"a\",0\n\r"), at(15, 2));
    // And nothing else does.
    is("2,12,\"b\",0\r", 15);
    is("\r2,12,\"b\",0", 15);
    assert_eq!(of("1,12,\"a\",0\r2,12,\"b\",0\n"), at(15, 1));
    // It stands in no trace.
    assert_eq!(of("1,12,\"a\nb\",0\n"), at(15, 1));
}

#[test]
fn no_blanks() {
    for place in 0..=10 {
        let mut line = b"2,12,\"b\",3".to_vec();
        line.insert(place, b' ');
        match place {
            // Inside the quotes it is a character.
            6 => assert_eq!(of_line(line), Ok(record(2, 0x12, b" b", 3))),
            7 => assert_eq!(of_line(line), Ok(record(2, 0x12, b"b", 3))),
            // Before them it opens the field.
            5 => is(line, 16),
            _ => is(line, 15),
        }
    }
}

#[test]
fn numbers() {
    for (digits, number) in [("1", 1), ("9", 9), ("10", 10), ("007", 7), ("0007", 7), ("999", 999), ("9999", 9999), ("0100", 100)] {
        assert_eq!(of_line(format!("{digits},12,\"b\",0")), Ok(record(number, 0x12, b"b", 0)));
    }
    for digits in ["", "00007", "10000", "99999", "+1", "-1", "1.", "1a", "0x1", "A", "/", ":", "1\0", "\u{661}", "\"1\"", "1 "] {
        is(format!("{digits},12,\"b\",0"), 15);
    }
    // Good digits, and 01's rule for the number.
    for digits in ["0", "00", "000", "0000"] {
        is(format!("{digits},12,\"b\",0"), 11);
    }
}

#[test]
fn labels() {
    for high in 0..=255u8 {
        for low in [b'0', b'9', b'A', b'F', b'a', b'f', b'/', b':', b'@', b'G', b'`', b'g', b'1', high] {
            // Another comma or an LF makes other fields.
            if [high, low].iter().any(|byte| matches!(byte, b',' | b'\n')) {
                continue;
            }
            let line = [b"2,", &[high, low][..], b",\"b\",0"].concat();
            let text: String = [high, low].iter().map(|byte| char::from(*byte)).collect();
            match u8::from_str_radix(&text, 16) {
                // It takes a sign, which is no digit.
                Ok(_) if high == b'+' => is(line, 15),
                Ok(label @ (0x00 | 0xFF)) => assert_eq!(of_line(line), at(4, 2), "{label:02X}"),
                Ok(label) => assert_eq!(of_line(line), Ok(record(2, label, b"b", 0))),
                Err(_) => is(line, 15),
            }
        }
    }
    for label in ["", "1", "012", "0012", "0x12", "\"12\"", "1 ", " 1"] {
        is(format!("2,{label},\"b\",0"), 15);
    }
}

#[test]
fn flags() {
    for (digits, flags) in [("0", 0), ("9", 9), ("00", 0), ("07", 7), ("10", 10), ("15", 15)] {
        assert_eq!(of_line(format!("2,12,\"b\",{digits}")), Ok(record(2, 0x12, b"b", flags)));
    }
    for digits in ["", "000", "007", "015", "100", "999", "-1", "+1", "a", "0a", "F", "/", ":", "0 ", "\"0\"", "0,", "0,0", ",0", "\0"] {
        is(format!("2,12,\"b\",{digits}"), 15);
    }
    for digits in 16..=99 {
        is(format!("2,12,\"b\",{digits}"), 12);
    }
}

#[test]
fn traces_in_quotes() {
    let trace = |inside: &str| of_line(format!("2,12,\"{inside}\",3"));
    let is_trace = |inside: &str, want: &[u8]| assert_eq!(trace(inside), Ok(record(2, 0x12, want, 3)), "{inside}");
    is_trace("b", b"b");
    is_trace("12345678901234", b"12345678901234");
    is_trace("123456789012345", b"123456789012345");
    is_trace("a,b", b"a,b");
    is_trace(",", b",");
    is_trace(",,\"\",", b",,\",");
    is_trace(" b", b" b");
    is_trace("a b            ", b"a b");
    // "a doubled quote inside stands for one"
    is_trace("\"\"", b"\"");
    is_trace("\"\"\"\"", b"\"\"");
    is_trace("\"\"b", b"\"b");
    is_trace("b\"\"", b"b\"");
    is_trace("a\"\"b", b"a\"b");
    is_trace("a\"\"\"\"b", b"a\"\"b");
    is_trace("\"\",12", b"\",12");
    is_trace(&"\"".repeat(30), &[b'"'; 15]);
    is_trace("\"\"23456789012345", b"\"23456789012345");
    is_trace("12345678901234\"\"", b"12345678901234\"");
    // 17: "trace longer than 15", counted when each two are one
    for inside in ["1234567890123456", "               b", "                ", &"\"".repeat(32), "123456789012345\"\"", "\"\"234567890123456"] {
        assert_eq!(trace(inside), at(17, 2), "{inside}");
    }
    // What is left of them is all spaces.
    for inside in ["", " ", "               "] {
        assert_eq!(trace(inside), at(21, 2), "{inside}");
    }
}

#[test]
fn quotes_that_do_not_close() {
    for line in [
        "2,12,\"", "2,12,\"b", "2,12,\"b,0", "2,12,\"b\"", "2,12,\"\"", "2,12,\"\",", "2,12,\"b\",", "2,12,\"\"\"", "2,12,\"\"\",0", "2,12,\"b\"\",0",
        "2,12,\"\"b\",0", "2,12,\"\"b,0", "2,12,\"b\"c,0", "2,12,\"b\"c\",0", "2,12,\"b\" ,0", "2,12,\"b\"0", "2,12,\"b\";0", "2,12,\"a\"b\"\"c\",0",
        "2,12,\"\"\"\"\",0",
    ] {
        is(line, 15);
    }
}

#[test]
fn traces_without_quotes() {
    // The field "runs to the next comma", whatever stands in it.
    for field in ["b", "03E5", "", " ", "'b'", "b\"", "b\"c\"", " \"b\"", "\r", "1234567890123456", "\u{e9}"] {
        is(format!("2,12,{field},0"), 16);
    }
    // Without one it is malformed, and so is the rest behind one.
    for line in ["2,12,b", "2,12,", "2,12,03E5", "2,12,b,c,0", "2,12,b\",\",0", "2,12,,", "2,12,,,0", "2,12,b,", "2,12,b,100", "2,12, \"a,b\",0"] {
        is(line, 15);
    }
    // 15 is named first, wherever else in the line.
    for line in [",12,b,0", "12345,12,b,0", "2,1,b,0", "2,123,b,0", "2,1G,b,0", "2,12,b,x", "2,12,b,0\r", " 2,12,b,0"] {
        is(line, 15);
    }
    // The catalogue's come last.
    for line in ["0,12,b,0", "2,00,b,0", "2,FF,,99"] {
        is(line, 16);
    }
    for line in ["0,12,\"1234567890123456\",0", "2,00,\"1234567890123456\",99", "2,12,\"                \",0", "2,12,\"\0123456789012345\",0"] {
        is(line, 17);
    }
}

#[test]
fn commas_that_are_missing() {
    for line in ["2", "2,", "2,12", "2,12,", ",", ",,", ",,,", "2;12;\"b\";0", "212\"b\"0", "\"b\"", "2,\"b\",0", "12,\"b\",0", "2,12,0,\"b\""] {
        is(line, 15);
    }
    // Three commas, and the third field is not quoted.
    is("2,12,,0", 16);
}

#[test]
fn lines_of_80_bytes() {
    // Well formed but for the trace, with as many characters as it takes.
    for (length, number) in [(78, 17), (79, 17), (80, 17), (81, 15), (82, 15), (200, 15)] {
        let line = format!("2,12,\"{}\",0", "b".repeat(length - 9));
        assert_eq!(line.len(), length);
        is(line, number);
    }
    for (length, number) in [(79, 16), (80, 16), (81, 15)] {
        is(format!("2,12,{},0", "b".repeat(length - 7)), number);
    }
    // Also the last line, where nothing is behind its LF.
    let line = format!("2,12,{},0", "b".repeat(73));
    assert_eq!(of(format!("{line}\n")), at(16, 1));
    assert_eq!(of(&line), at(15, 1));
}

#[test]
fn at_most_512_lines() {
    let catalogue = of(good(512)).unwrap();
    assert_eq!(catalogue.len(), LONGEST_CATALOGUE);
    assert_eq!(of(good(511)).unwrap()[..], catalogue[..511 * RECORD_LENGTH]);
    assert_eq!(of(good(513)), at(18, 513));
    assert_eq!(of(good(1000)), at(18, 513));
    // Bytes behind the last LF are one more line.
    assert_eq!(of([good(512), b"x".to_vec()].concat()), at(18, 513));
    assert_eq!(of([good(512), b"\n".to_vec()].concat()), at(18, 513));
    assert_eq!(of([good(511), b"x".to_vec()].concat()), at(15, 512));
    assert_eq!(of(&good(512)[..good(512).len() - 1]), at(15, 512));
    // "18 first", whatever the lines are.
    assert_eq!(of("\n".repeat(512)), at(15, 1));
    assert_eq!(of("\n".repeat(513)), at(18, 513));
    assert_eq!(of(["x".repeat(99), "\n".repeat(514)].concat()), at(18, 513));
    // No LF in them, so it is one line.
    assert_eq!(of("x".repeat(100_000)), at(15, 1));
}

#[test]
fn line_by_line_15_16_17() {
    let lines = ["1,12,\"a\",x", "1,12,a,0", "1,12,\"1234567890123456\",0"];
    // The first line with a fault decides, whichever it has.
    for (first, number) in lines.iter().zip(15..) {
        for later in lines {
            assert_eq!(of(format!("9,12,\"z\",0\n{first}\n{later}\n")), at(number, 2));
        }
        // Before what 01 refuses in an earlier line.
        for wrong in ["0,12,\"z\",0", "1,00,\"z\",0", "1,12,\"\x1F\",0", "1,12,\"\",0", "1,12,\"\u{7F}\",0", "1,12,\"z\",16"] {
            assert_eq!(of(format!("{wrong}\n{first}\n")), at(number, 2));
            assert_eq!(of(format!("{first}\n{wrong}\n")), at(number, 1));
        }
        assert_eq!(of(format!("1,12,\"z\",0\n1,12,\"z\",0\n{first}\n")), at(number, 3));
    }
    // In one line: 15 before 16 and 17, 16 before 17.
    assert_eq!(of("1,12,a,x\n"), at(15, 1));
    assert_eq!(of("1,12,\"1234567890123456\",x\n"), at(15, 1));
    assert_eq!(of("1,12,1234567890123456,0\n"), at(16, 1));
}

#[test]
fn the_catalogue_s_order_over_the_result() {
    let of = |lines: &[&str]| {
        let text: String = lines.iter().map(|line| format!("{line}\n")).collect();
        of(text).map_err(|refusal| (refusal.number, refusal.places))
    };
    let refused = |number: u8, places: &[usize]| Err((number, places.to_vec()));
    let good = "1,12,\"a\",0";
    assert_eq!(of(&[good, "0,00,\"\",99"]), refused(11, &[2]));
    assert_eq!(of(&[good, "1,FF,\"\",99"]), refused(4, &[2]));
    assert_eq!(of(&[good, "1,FE,\"\",99"]), refused(21, &[2]));
    assert_eq!(of(&[good, "1,FE,\"b\x1Fc\u{7F}\",99"]), refused(5, &[2, 2]));
    assert_eq!(of(&[good, "1,FE,\"bc\u{7F}\x1F\",99"]), refused(20, &[2, 3]));
    assert_eq!(of(&[good, "1,FE,\"\"\"\"\"\u{7F}\",99"]), refused(20, &[2, 3]));
    assert_eq!(of(&[good, "1,FE,\"b\r\",99"]), refused(5, &[2, 2]));
    assert_eq!(of(&[good, "1,FE,\"b\",16"]), refused(12, &[2]));
    assert_eq!(of(&[good, "1,FE,\"b\",16", "0,12,\"c\",0"]), refused(12, &[2]));
    // "Short traces are padded with spaces", and then they are compared.
    assert_eq!(of(&[good, "2,13,\"b\",0", "3,14,\"a  \",1"]), refused(13, &[3, 1]));
    assert_eq!(of(&[good, "2,13,\"b\",0", "3,14,\" a\",1"]).map(|bytes| bytes.len()), Ok(63));
    assert_eq!(of(&[good, good, "3,14,\"c\",16"]), refused(12, &[3]));
}

#[test]
fn every_byte_in_a_trace() {
    for place in 0..15 {
        for byte in 0..=255u8 {
            if matches!(byte, b'\n' | b'"') {
                continue;
            }
            let mut trace = *b"ABCDEFGHIJKLMNO";
            trace[place] = byte;
            let text = [b"7,12,\"", &trace[..], b"\",15\n"].concat();
            let want = refused_at(place, byte).map_or(Ok(record(7, 0x12, &trace, 15)), |refusal| Err(refusal.in_record(1)));
            assert_eq!(import(&text), want);
        }
    }
}

#[test]
fn export_writes_one_form() {
    let two = [record(7, 0x0A, b"03E5", 5), record(9999, 0xfe, b"\"a\",\"\"b\" c", 15)].concat();
    assert_eq!(
        String::from_utf8(export(&two).unwrap()).unwrap(),
        "7,0A,\"03E5           \",5\n9999,FE,\"\"\"a\"\",\"\"\"\"b\"\" c     \",15\n"
    );
    assert_eq!(export(&record(10, 0x01, b"ABCDEFGHIJKLMNO", 10)).unwrap(), b"10,01,\"ABCDEFGHIJKLMNO\",10\n");
    // The longest line, and the shortest.
    assert_eq!(export(&record(1000, 0xAB, &[b'"'; 15], 12)).unwrap().len(), 44);
    assert_eq!(export(&record(1, 0xAB, b"!", 0)).unwrap().len(), 25);
}

#[test]
fn export_refuses_what_the_check_refuses() {
    let good = record(1, 0x12, b"a", 0);
    for (wrong, number, places) in [
        (vec![0x5A], 9, &[][..]),
        ([&good[..], &good[..20]].concat(), 9, &[]),
        ([&good[..], &[0x5A, 0x4E], &good[2..]].concat(), 10, &[2]),
        ([good.clone(), record(0, 0x12, b"b", 0)].concat(), 11, &[2]),
        ([good.clone(), record(10_000, 0x12, b"b", 0)].concat(), 11, &[2]),
        ([good.clone(), record(1, 0xFF, b"b", 0)].concat(), 4, &[2]),
        ([good.clone(), record(1, 0x12, b"b\n", 0)].concat(), 5, &[2, 2]),
        ([good.clone(), record(1, 0x12, b"b\x80", 0)].concat(), 20, &[2, 2]),
        ([good.clone(), record(1, 0x12, b"", 0)].concat(), 21, &[2]),
        ([good.clone(), record(1, 0x12, b"b", 16)].concat(), 12, &[2]),
        ([good.clone(), good.clone()].concat(), 13, &[2, 1]),
    ] {
        assert_eq!(export(&wrong), Err(refused(number, places)));
        assert_eq!(catalogue_check(&wrong).answer, Err(refused(number, places)));
    }
    let long: Vec<u8> = (1..=513).flat_map(|k| record(k, 0x12, k.to_string().as_bytes(), 0)).collect();
    assert_eq!(export(&long), Err(refused(9, &[])));
    assert_eq!(export(&long[..LONGEST_CATALOGUE]).map(|text| text.iter().filter(|byte| **byte == b'\n').count()), Ok(512));
}

#[test]
fn export_and_import_again_gives_the_same_bytes() {
    let mut seed = 3;
    for round in 0..400 {
        let count = if round % 100 == 99 { 512 } else { next(&mut seed) as usize % 8 };
        let mut catalogue = Vec::new();
        for k in 0..count {
            let mut trace = [0; 15];
            for character in &mut trace {
                // Quotes, commas and spaces are many.
                *character = match next(&mut seed) % 5 {
                    0 => b'"',
                    1 => b',',
                    2 => b' ',
                    _ => 0x20 + (next(&mut seed) % 0x5F) as u8,
                };
            }
            // No two alike, and none of spaces alone.
            trace[2..4].copy_from_slice(&[0x21 + (k / 90) as u8, 0x21 + (k % 90) as u8]);
            let circuit = 1 + (next(&mut seed) % 9999) as u16;
            catalogue.extend(record(circuit, 1 + (next(&mut seed) % 254) as u8, &trace, (next(&mut seed) % 16) as u8));
        }
        let text = export(&catalogue).unwrap();
        assert_eq!(import(&text), Ok(catalogue));
        // Import and export again gives the same text where it has that form.
        assert_eq!(export(&import(&text).unwrap()), Ok(text));
    }
}

#[test]
fn every_text_is_answered() {
    let mut seed = 11;
    for _ in 0..20_000 {
        let length = next(&mut seed) as usize % 60;
        let text: Vec<u8> = (0..length).map(|_| b"\n\",,\"0017aFg \r\x80"[next(&mut seed) as usize % 15]).collect();
        if let Ok(catalogue) = import(&text) {
            assert_eq!(catalogue.len() / RECORD_LENGTH, text.iter().filter(|byte| **byte == b'\n').count());
            assert_eq!(import(&export(&catalogue).unwrap()), Ok(catalogue));
        }
    }
}
