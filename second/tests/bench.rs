//! The bench by itself: how a script is read, words it understands and not, and
//! a path that settles and fails.

use super::words::{next_line, LONGEST_LINE};
use super::*;
use crate::second::coverage::Counts;
use std::io::{BufRead, BufReader, Read};

/// What a script prints.
fn ran(script: impl AsRef<[u8]>) -> String {
    let mut bench = Bench::new();
    let mut counts = Counts::new();
    let mut out = Vec::new();
    let mut input = script.as_ref();
    let mut line = Vec::new();
    let mut count = 0;
    while next_line(&mut input, &mut line).unwrap() {
        count += 1;
        bench.line(&line, count, &mut out, &mut |name| counts.note(name));
    }
    String::from_utf8(out).unwrap()
}

/// The lines of a script, read so many bytes at a time.
fn lines(script: &[u8], at_a_time: usize) -> Vec<Vec<u8>> {
    let mut input = BufReader::with_capacity(at_a_time, script);
    let mut all = Vec::new();
    let mut line = Vec::new();
    while next_line(&mut input, &mut line).unwrap() {
        all.push(line.clone());
    }
    all
}

/// The words of a line that is not a script's first.
fn words_of(line: &[u8]) -> Option<Vec<&[u8]>> {
    words::words(line, 2)
}

#[test]
fn fnv_1a_as_published() {
    assert_eq!(fnv(b""), 0x811C_9DC5);
    assert_eq!(fnv(b"a"), 0xE40C_292C);
    assert_eq!(fnv(b"foobar"), 0xBF9C_F968);
}

#[test]
fn lines_of_a_script() {
    let none: [&[u8]; 0] = [];
    for at_a_time in [1, 2, 3, 100] {
        assert_eq!(lines(b"", at_a_time), none);
        assert_eq!(lines(b"\n", at_a_time), [b""]);
        assert_eq!(lines(b"a", at_a_time), [b"a"]);
        assert_eq!(lines(b"a\n", at_a_time), [b"a"]);
        assert_eq!(lines(b"\r", at_a_time), [b"\r"]);
        assert_eq!(lines(b"\n\nab\r\n\0\nc", at_a_time), [&b""[..], b"", b"ab\r", b"\0", b"c"]);
    }
}

/// A terminal: what is not asked for is not there yet.
struct Typed<'a>(Vec<&'a [u8]>);

impl Read for Typed<'_> {
    fn read(&mut self, _: &mut [u8]) -> std::io::Result<usize> {
        unreachable!()
    }
}

impl BufRead for Typed<'_> {
    fn fill_buf(&mut self) -> std::io::Result<&[u8]> {
        match self.0.first() {
            Some(bytes) => Ok(bytes),
            None => panic!("read behind what was typed"),
        }
    }

    fn consume(&mut self, amount: usize) {
        self.0[0] = &self.0[0][amount..];
        if self.0[0].is_empty() {
            self.0.remove(0);
        }
    }
}

#[test]
fn a_line_is_there_when_its_lf_has_come() {
    let mut input = Typed(vec![b"fre", b"sh\nrun 1\nsho", b"w", b"\n"]);
    let mut line = Vec::new();
    for want in [&b"fresh"[..], b"run 1", b"show"] {
        assert!(next_line(&mut input, &mut line).unwrap());
        assert_eq!(line, want);
    }
}

#[test]
fn the_longest_line() {
    assert_eq!(LONGEST_LINE, 100_000);
    // A comment, a blank line and a command, each with its CR, of just the
    // longest length and of one more.
    for (with, behind) in [("#", "x"), ("", " "), ("parity 0f", " "), ("parity ", "00")] {
        for last in ["\r\n", "\n", "\r", ""] {
            let cr = last.matches('\r').count();
            let answer = if with.is_empty() || with == "#" { "" } else { "parity " };
            // Digits go in pairs.
            let pairs = |length: usize| (length - with.len() - cr) / behind.len();
            let longest = format!("{with}{}", behind.repeat(pairs(LONGEST_LINE)));
            let printed = ran(format!("{longest}{last}"));
            assert!(printed.starts_with(answer) && printed.is_empty() == answer.is_empty(), "{with:?} {last:?}");
            let spaces = LONGEST_LINE + 1 - cr - longest.len();
            let over = format!("{longest}{}", " ".repeat(spaces));
            assert_eq!(ran(format!("{over}{last}")), "? 1\n", "{with:?} {last:?}");
        }
    }
    // The mark counts too.
    let blanks = " ".repeat(LONGEST_LINE - 3);
    assert_eq!(ran(format!("\u{FEFF}{blanks}\n")), "");
    assert_eq!(ran(format!("\u{FEFF}{blanks} \n")), "? 1\n");
    // What lies behind a line that is far too long is read as ever.
    let far = "0".repeat(3 * LONGEST_LINE);
    assert_eq!(ran(format!("parity\n#{far}\n\nx\nparity 0F\n")), "parity 00\n? 2\n? 4\nparity 0F\n");
    assert_eq!(lines(format!("{far}\na").as_bytes(), 7)[0].len(), LONGEST_LINE + 1);
    // No limit on a script.
    let many = "fresh # some more characters in a line\n".repeat(60_000);
    assert_eq!(ran(format!("{many}x\n")), "? 60001\n");
}

#[test]
fn marks_and_carriage_returns() {
    let mark = "\u{FEFF}";
    assert_eq!(ran(format!("{mark}parity 0f\n")), "parity 0F\n");
    assert_eq!(ran(format!("{mark}\nparity")), "parity 00\n");
    assert_eq!(ran(format!("{mark}# x\r\n{mark}\r\n")), "? 2\n");
    assert_eq!(ran(mark), "");
    // One mark alone, a whole one, and only before everything else.
    assert_eq!(ran(format!("{mark}{mark}parity\n")), "? 1\n");
    assert_eq!(ran(format!(" {mark}parity\n")), "? 1\n");
    assert_eq!(ran(format!("\n{mark}parity\n")), "? 2\n");
    assert_eq!(ran(b"\xEF\xBBparity\n"), "? 1\n");

    assert_eq!(ran("parity\r\nparity 01\r\nparity 02 \r\n#\r\n\r\n \r\nparity 03\r"), "parity 00\nparity 01\nparity 02\nparity 03\n");
    assert_eq!(ran("parity\r\r\nparity \r \n\rparity\nparity\r#\n\r\r\n# \r \r\r\n"), "? 1\n? 2\n? 3\n? 4\n? 5\n");
    // Dropped before quotes are looked at.
    assert_eq!(ran("rx 12 \"\" \"\r\nrx 12 \"\r\" 0\nrx 12 \"a\" 0\r\n"), "? 1\nrx refused 5 1\n");
}

#[test]
fn words_of_a_line() {
    let none: &[&[u8]] = &[];
    for line in [&b""[..], b" ", b"    ", b"#", b"  #", b"# a \"", b" #\"", b"#\t\0"] {
        assert_eq!(words_of(line).unwrap(), none, "{line:?}");
    }
    let plain: [(&[u8], &[&[u8]]); 8] = [
        (b"a", &[b"a"]),
        (b"  a b   c  ", &[b"a", b"b", b"c"]),
        (b"a #b", &[b"a"]),
        (b"a# b #", &[b"a#", b"b"]),
        (b"a\tb c", &[b"a\tb", b"c"]),
        (b"a\"b c\"", &[b"a\"b", b"c\""]),
        (b"\x80 \0", &[b"\x80", b"\0"]),
        (b"'a b'", &[b"'a", b"b'"]),
    ];
    for (line, want) in plain {
        assert_eq!(words_of(line).unwrap(), want, "{line:?}");
    }
    let quoted: [(&[u8], &[&[u8]]); 7] = [
        (b"\"\"", &[b"\"\""]),
        (b" \"a b\"  c", &[b"\"a b\"", b"c"]),
        (b"\"#\" #\"", &[b"\"#\""]),
        (b"\"a\"\"b\"", &[b"\"a\"\"b\""]),
        (b"\"\"\"\"", &[b"\"\"\"\""]),
        (b"\"\"\" \" x", &[b"\"\"\" \"", b"x"]),
        (b"\"\" \"\"", &[b"\"\"", b"\"\""]),
    ];
    for (line, want) in quoted {
        assert_eq!(words_of(line).unwrap(), want, "{line:?}");
    }
    for line in [&b"\""[..], b"a \"b", b"\"\"\"", b"\"a\"\"", b"\"a\"b", b"\"a\"#", b"\"a\"\t", b"\"\" \"", b"\"a # b"] {
        assert_eq!(words_of(line), None, "{line:?}");
    }
}

#[test]
fn traces() {
    let read = |word: &[u8]| words::trace(word).map(|trace| String::from_utf8_lossy(&trace).into_owned());
    let is = |word: &[u8], want: &str| assert_eq!(read(word), Some(format!("{want:15}")), "{word:?}");
    is(b"\"\"", "");
    is(b"\"03E5\"", "03E5");
    is(b"\" a  b\"", " a  b");
    is(b"\"a#\"", "a#");
    is(b"\"\"\"\"", "\"");
    is(b"\"\"\"\"\"\"", "\"\"");
    is(b"\"a\"\"b\"\"\"", "a\"b\"");
    is(b"\"123456789012345\"", "123456789012345");
    is(b"\"12345678901234\"\"\"", "12345678901234\"");
    is(&b"\"".repeat(32), &"\"".repeat(15));
    is(b"414243444546474849202020202020", "ABCDEFGHI");
    is(b"4a4B4c4D4e4F202020202020202020", "JKLMNO");
    assert_eq!(words::trace(b"\"\x01\xFF\"").unwrap()[..3], [0x01, 0xFF, b' ']);
    let wrong: [&[u8]; 8] = [
        b"\"1234567890123456\"",
        b"\"123456789012345\"\"\"",
        b"\"123456789012345 \"",
        b"4142434445464748492020202020",
        b"41424344454647484920202020202020",
        b"41424344454647484920202020202g",
        b"03E5",
        b"",
    ];
    for word in wrong.into_iter().chain([&b"\"".repeat(34)[..]]) {
        assert_eq!(read(word), None, "{word:?}");
    }
}

#[test]
fn numbers_and_bytes() {
    let number = |word: &str| words::number(word.as_bytes(), 999_999_999);
    assert_eq!(number("0"), Some(0));
    assert_eq!(number("000000007"), Some(7));
    assert_eq!(number("999999999"), Some(999_999_999));
    for word in ["", "0000000007", "1000000000", "-1", "+1", "1.", "0x1", "1a", "\u{661}", "\"1\""] {
        assert_eq!(number(word), None, "{word:?}");
    }
    assert_eq!(words::number(b"9999", 9999), Some(9999));
    assert_eq!(words::number(b"10000", 9999), None);
    assert_eq!(bytes(b"0aAf9F"), Some(vec![0x0A, 0xAF, 0x9F]));
    for word in [&b"0"[..], b"0g", b"G0", b"@0", b"0`", b"\"\"", b"0x", b"0\xC1"] {
        assert_eq!(bytes(word), None, "{word:?}");
    }
}

#[test]
fn lines_not_understood() {
    assert_eq!(ran("\n   \n# x\n  # x\n"), "");
    for line in [
        "fresh\r\r", "Fresh", "fresh 1", "fresh#", "\tfresh", "fresh\t", "fre sh", "\"fresh\"", "fresh \"", "src", "src x",
        "src \"-\"", "src I", "src - -", "\t", "fill 00", "fill 0 00", "fill ag 00", "fill 00 00 00", "lens 1", "lens 4097 0",
        "lens 0000000001 0", "lens -1 0", "len 4097", "len", "len 1 1", "xor 2358 00", "xor 999999999 00", "xor 1000000000 00",
        "xor 0 0", "xor 1", "word 680", "word 68000", "word 68g0", "word 68 00", "payload 2", "payload", "parity 0",
        "parity 00 00", "cat 0g", "cat \"\"", "import 0", "import 0g", "import \"\"", "import 00 00", "Import", "export 0", "export 00 00", "lookup", "lookup x", "lookup 1234567890", "rx 01 20 0",
        "tx 01 202020202020202020202020202020 256 0", "tx 01 202020202020202020202020202020 0 2", "tx 01 \"\" 0", "tx 01 \"\" 0 0 0",
        "rx 01 202020202020202020202020202020 16", "rx 01 \"\"", "rx 01 \"\" 0 0", "rx \"01\" \"\" 0", "rx 01 \"\"0", "rx 01 \" 0",
        "rx 01 \"1234567890123456\" 0", "rx 00 \"\" 16", "rx 01 a\"\" 0", "sink 1", "show x", "ones 1", "run", "run 0", "run 10000",
        "run 1 1", "run -1", "run 0000000001", "run x", "run 1# x",
    ] {
        assert_eq!(ran(format!("\n{line}")), "? 2\n", "{line:?}");
    }
    assert_eq!(ran("len 3\nword 6800\nxor 3 00\nxor 2 00\nshow"), "? 2\n? 3\nline 000000\n");
    assert_eq!(ran("len 0\nxor 0 00\nshow\n"), "? 2\nline \n");
    assert_eq!(ran("len 4\nword 9abC\nxor 003 fF\n show # now\n"), "line 9A000043\n");
    assert_eq!(ran("parity\nparity 0f01\ncheck\nread\nread 6800\n"), "parity 00\nparity 0E\ncheck 0\nread 0\nread 6144\n");
    assert_eq!(ran("cat\nlist\nlookup 7\n"), "cat ok 0 pairs=0\ncircuit label trace flags\nlookup refused 14\n");
    assert_eq!(ran("lens 000004096 0\nsink\nfresh\nsink\n").lines().next(), Some("refused 3"));
}

#[test]
fn settings_that_will_be_refused() {
    let quoted = "\"03E5\"";
    for (line, want) in [
        (format!("tx 12 {quoted} 8 1"), ""),
        (format!("tx 00 {quoted} 0 0"), "tx refused 4\n"),
        (format!("tx fF {quoted} 9 0"), "tx refused 4\n"),
        ("tx 12 \"a\tb\" 0 0".to_string(), "tx refused 5 2\n"),
        ("tx 12 \"\x7F\" 255 0".to_string(), "tx refused 20 1\n"),
        ("tx 12 \"\" 255 0".to_string(), "tx refused 21\n"),
        ("tx 12 \"               \" 0 0".to_string(), "tx refused 21\n"),
        (format!("tx 00 \"\x7F\" 255 0 # {quoted}"), "tx refused 4\n"),
        ("tx 00 \"\" 255 0".to_string(), "tx refused 4\n"),
        (format!("tx 12 {quoted} 9 0"), "tx refused 6\n"),
        (format!("tx 12 {quoted} 255 1"), "tx refused 6\n"),
        ("tx 12 1F2020202020202020202020202020 0 0".to_string(), "tx refused 5 1\n"),
        (format!("rx 12 {quoted} 15"), ""),
        (format!("rx 00 {quoted} 15"), "rx refused 4\n"),
        ("rx FF \"\u{e9}\" 0".to_string(), "rx refused 4\n"),
        ("rx FF \"\" 0".to_string(), "rx refused 4\n"),
        ("rx FE \"\u{e9}\" 0".to_string(), "rx refused 20 1\n"),
        ("rx 01 \"\" 0".to_string(), "rx refused 21\n"),
        ("rx 01 2020202020202020202020202020a0 0".to_string(), "rx refused 20 15\n"),
        ("rx 01 20202020202020202020202020207F 0".to_string(), "rx refused 20 15\n"),
        ("rx 01 202020202020202020202020202000 0".to_string(), "rx refused 5 15\n"),
        ("rx 01 202020202020202020202020202020 0".to_string(), "rx refused 21\n"),
        ("rx 01 202020202020202020202020202021 0".to_string(), ""),
        ("rx 01 30801F352020202020202020202020 0".to_string(), "rx refused 20 2\n"),
    ] {
        assert_eq!(ran(&line), want, "{line:?}");
    }
    // Taken all the same.
    assert_eq!(
        ran("tx 12 \"a\" 9 0\nsrc -\nrx 00 \"\" 0\nlen 0\nsink\nfresh\nsrc d\nsink\n"),
        "tx refused 6\ncontainer refused 6\nrx refused 4\nrefused 4\ncontainer refused 6\nrefused 4\n"
    );
    // The calls name the places too.
    assert_eq!(
        ran("tx 12 \"a\x1F\x7F\" 9 0\nsrc -\nrx 12 \"\x7F\x1F\" 0\nlen 0\nlens 0 0\nsink\ntx 12 \"\" 9 0\nrx 12 \"\" 0\nrun 1"),
        "tx refused 5 2\ncontainer refused 5 2\nrx refused 20 1\nrefused 20 1\n\
         tx refused 21\nrx refused 21\ncontainer refused 21\nrefused 21\n"
    );
    // And good ones behind them.
    assert_eq!(ran("tx 12 \"a\" 9 0\nrx 00 \"\" 0\ntx 12 \"a\" 0 0\nrx 12 \"b\" 0\nrun 1"), {
        let text = ran("tx 12 \"a\" 0 0\nrx 12 \"b\" 0\nrun 1");
        format!("tx refused 6\nrx refused 4\n{text}")
    });
    // One that is not understood changes nothing.
    assert_eq!(ran("tx 00 \"\" 256 0\nrx 00 \"\" 16\nrun 1"), format!("? 1\n? 2\n{}", ran("run 1")));
}

#[test]
fn catalogues_name_the_record_and_the_character() {
    let record = |circuit: u16, trace: &str| format!("5a4d{circuit:04x}12{trace}0f");
    let (good, spaces) = (record(1, "303345352020202020202020202020"), "20".repeat(15));
    let other = record(2, "303345362020202020202020202020");
    for (trace, want) in [
        ("30801f352020202020202020202020", "20 3 2"),
        ("20202020202020202020202020207f", "20 3 15"),
        ("202020202020202020202020202000", "5 3 15"),
        (&spaces, "21 3"),
    ] {
        let bytes = format!("{good}{other}{}{}", record(3, trace), record(4, &spaces));
        let printed = format!("cat refused {want} pairs=0\nlookup refused {want}\nlookup refused {want}\n{want}\n");
        assert_eq!(ran(format!("cat {bytes}\nlookup 1 {bytes}\nlookup 9 {bytes}\nlist {bytes}\n")), printed);
    }
}

#[test]
fn the_check_of_a_catalogue_prints_its_pairs() {
    let record = |circuit: usize, trace: usize| format!("5A4D{circuit:04X}124C494E4520{}0F", hex(format!("{trace:010}").as_bytes()));
    let of = |traces: &[usize]| traces.iter().enumerate().map(|(k, trace)| record(k + 1, *trace)).collect::<String>();
    let all: Vec<usize> = (1..=512).collect();
    for (bytes, want) in [
        (String::new(), "ok 0 pairs=0"),
        (of(&[1]), "ok 1 pairs=0"),
        (of(&[1, 2]), "ok 2 pairs=1"),
        (of(&[1, 2, 3]), "ok 3 pairs=3"),
        (of(&all), "ok 512 pairs=130816"),
        (of(&[1, 1]), "refused 13 2 1 pairs=1"),
        (of(&[1, 2, 1]), "refused 13 3 1 pairs=2"),
        (of(&[1, 2, 2, 1]), "refused 13 3 2 pairs=3"),
        (of(&[&all[..511], &[511]].concat()), "refused 13 512 511 pairs=130816"),
        (of(&[1, 1])[..82].to_string(), "refused 9 pairs=0"),
        (of(&[1, 1]).replacen("5A4D", "5A4E", 1), "refused 10 1 pairs=0"),
        (of(&[1, 1]) + &record(0, 1), "refused 11 3 pairs=0"),
        (of(&[1, 1]) + &record(3, 2).replace("124C", "1219"), "refused 5 3 1 pairs=0"),
    ] {
        assert_eq!(ran(format!("cat {bytes}")), format!("cat {want}\n"));
    }
    // The lookup and the listing print none.
    let twice = of(&[1, 2, 1]);
    assert_eq!(ran(format!("lookup 1 {twice}\nlist {twice}\n")), "lookup refused 13 3 1\n13 3 1\n");
    let good = of(&[7]);
    assert_eq!(
        ran(format!("lookup 1 {good}\nlist {good}\n")),
        "found 12 4C494E452030303030303030303037 15\ncircuit label trace flags\n1 12 [LINE 0000000007] 15\n"
    );
}

#[test]
fn import_and_export() {
    // No blank where there are no bytes.
    assert_eq!(ran("import\nexport\nimport  # none\nexport \n"), "import ok\nexport ok\nimport ok\nexport ok\n");
    let (text, bytes) = (hex(b"7,12,\"03E5\",15\n"), "5A4D0007123033453520202020202020202020200F");
    let whole = hex(b"7,12,\"03E5           \",15\n");
    assert_eq!(
        ran(format!("import {text}\nexport {bytes}\nimport {whole}\nexport {}\n", bytes.to_lowercase())),
        format!("import ok {bytes}\nexport ok {whole}\nimport ok {bytes}\nexport ok {whole}\n")
    );
    let import = |text: &[u8]| ran(format!("import {}", hex(text)));
    for (text, want) in [
        (&b"7,12,\"03E5\",15"[..], "15 1"),
        (b"7,12,\"a\",15\n7,12,03E5,15\n", "16 2"),
        (b"7,12,\"1234567890123456\",15\n", "17 1"),
        (&b"\n".repeat(513), "18 513"),
        (b"7,12,\"a\",15\n7,12,\"a\",15\n", "13 2 1"),
        (b"7,12,\"a\x80\",15\n", "20 1 2"),
        (b"7,12,\"\",15\n", "21 1"),
    ] {
        assert_eq!(import(text), format!("import refused {want}\n"));
    }
    assert_eq!(ran("export 5A\nexport 5A4E\n"), "export refused 9\nexport refused 9\n");
    assert_eq!(ran(format!("export {bytes}{bytes}\n")), "export refused 13 2 1\n");
    // The longest text that is imported stands in one line of a script.
    let longest: String = (1..=512).map(|k| format!("{k},12,{}{k:04},0\n", "x".repeat(80 - 10 - k.to_string().len()))).collect();
    assert_eq!(import(longest.as_bytes()), "import refused 16 1\n");
}

#[test]
fn runs() {
    let three = "src -\nsink\n".repeat(3);
    assert_eq!(ran("run 3"), ran(&three));
    assert_eq!(ran("run 000000001\n run  2 # x"), ran(&three));
    assert_eq!(ran("run 9999").lines().count(), 2 * 9999);
    // A refused `src` does not end it, nor does a refused `sink`.
    assert_eq!(
        ran("len 5\ntx 00 \"\" 0 0\nrun 2\nlens 0 0\nrun 1\ntx 12 \"a\" 0 0\nrun 1").lines().collect::<Vec<_>>()[..7],
        ["tx refused 4", "container refused 4", "refused 1", "container refused 4", "refused 1", "container refused 4", "refused 1"]
    );
    assert!(ran("lens 0 0\nrun 1").ends_with("\nrefused 3\n"));
}

#[test]
fn columns_are_printed_where_there_are_some() {
    /// The containers of the unit that was fed last, without their sums.
    fn last(script: &str) -> Vec<String> {
        let printed = ran(script);
        let line = printed.lines().last().unwrap();
        let those = line.split(' ').filter_map(|word| word.strip_prefix("c="));
        those
            .map(|one| {
                let mut parts: Vec<&str> = one.split(',').collect();
                parts.remove(1);
                parts.join(",")
            })
            .collect()
    }
    // At offset 0 place 100 has a byte of the payload, 270 has B3.
    let hit = |place: usize, with: u8| format!("run 4\nsrc -\nxor {place} {with:02X}\nsink\n");
    for with in 1..=255u8 {
        let some = format!("U@9,v={},p={with:02X},fe=0", with.count_ones());
        assert_eq!(last(&hit(100, with)), ["U@9,v=0,fe=0"]);
        assert_eq!(last(&format!("{}run 1\n", hit(100, with))), [some.clone()]);
        assert_eq!(last(&format!("{}run 2\n", hit(100, with))), ["U@9,v=0,fe=0"]);
        assert_eq!(last(&hit(270, with)), [some.clone()]);
        assert_eq!(last(&format!("{}run 1\n", hit(270, with))), [some]);
        assert_eq!(last(&format!("{}run 2\n", hit(270, with))), ["U@9,v=0,fe=0"]);
    }
    // Two that end in one unit, and none with no last parity.
    let two = |first: &str, second: &str| format!("run 3\nsrc i\nsink\nrun 1\nsrc -\n{first}sink\nsrc -\n{second}sink\nsrc d\nsink\n");
    assert_eq!(last(&two("", "")), ["D@0,v=0,fe=0", "U@9,v=0,fe=0"]);
    assert_eq!(last(&two("xor 400 0C\n", "")), ["D@0,v=2,p=0C,fe=0", "U@9,v=0,fe=0"]);
    assert_eq!(last(&two("", "xor 400 FF\n")), ["D@0,v=0,fe=0", "U@9,v=8,p=FF,fe=0"]);
    assert_eq!(last(&two("xor 400 80\n", "xor 400 01\n")), ["D@0,v=1,p=80,fe=0", "U@9,v=1,p=01,fe=0"]);
    for script in ["run 3\n", "run 2\nsrc -\nxor 270 3C\nsink\n", "run 4\nsrc -\nword 9800\nxor 270 3C\nsink\n"] {
        assert_eq!(last(script), ["U@9,v=0,fe=0"]);
    }
}

#[test]
fn names_of_defects_and_causes() {
    assert_eq!(names(&DEFECTS, &[false; 4]), "-");
    assert_eq!(names(&DEFECTS, &[true; 4]), "dUNEQ,dTIM,dPLM,dRDI");
    assert_eq!(names(&CAUSES, &[true; 7]), "cAIS,cLOP,cSSF,cUNEQ,cTIM,cRDI,cPLM");
    assert_eq!(names(&DEFECTS, &[false, true, false, true]), "dTIM,dRDI");
}

#[test]
fn settings_of_the_start() {
    let both = "tx 12 303345352020202020202020202020 0 0\nrx 12 303345352020202020202020202020 0\n";
    let text = ran("run 66\nones\nsink\nones\nsink\nones\nsink");
    assert_eq!(text, ran(format!("{both}run 66\nones\nsink\nones\nsink\nones\nsink")));
    // No flag is set: an alarm is no cause.
    assert!(text.lines().nth(131).unwrap().contains(" d=- cause=- settled=1 "));
    assert!(text.lines().last().unwrap().contains("ok st=alarm off=- held=0 ended=0 ssf=1 tsf=1 ais=1 rdi=1 d=- cause=- "));
    // They stay over `fresh`, and so do others.
    let six = "run 6\n";
    assert!(ran(format!("{six}fresh\n{six}")).ends_with(&ran(six)));
    let other = "tx 13 \"a\" 3 1\nrx 14 \"b\" 15\n";
    assert!(ran(format!("{other}fresh\n{six}")) == ran(format!("{other}{six}")));
}

#[test]
fn a_path_settles_and_fails() {
    // Both ends agree from the start.
    let mut script = String::from("rx 12 \"03E5\" 15\nrun 80\n");
    for _ in 0..3 {
        script.push_str("src -\nones\nsink\n");
    }
    let text = ran(&script);
    assert_eq!(text, ran(script.replace("\"03E5\"", "303345352020202020202020202020")));
    let said: Vec<&str> = text.lines().filter(|line| !line.starts_with("unit")).collect();
    assert!(said[0].starts_with("ok st=lost off=- held=0 ended=0 ssf=1 tsf=1 ais=1 rdi=1 d=- cause=cLOP,cSSF settled=0 total=1 "));
    assert!(said[2].starts_with("ok st=normal off=0 held=0 ended=1 c=U@9,"));
    // The third whole message ends in the 64th unit.
    assert!(said[62].contains(" d=dTIM cause=cTIM settled=0 total=63 "));
    assert!(said[63].contains(" d=- cause=- settled=1 total=63 "));
    assert!(said[79].contains(" settled=1 total=63 "));
    // Two units of ones change no defect yet.
    assert!(said[81].contains(" settled=1 total=63 "));
    assert!(said[82].starts_with("ok st=alarm off=- held=0 ended=0 ssf=1 tsf=1 ais=1 rdi=1 d=- cause=cAIS,cSSF settled=0 total=64 "));

    // Another label and a remote defect: two of each.
    let text = ran("rx 13 \"03E5\" 3\ntx 12 \"03E5\" 0 1\nrun 80\n");
    assert!(text.ends_with("\n") && text.lines().last().unwrap().contains(" d=dPLM,dRDI cause=cRDI,cPLM settled=0 "), "{text}");
}
