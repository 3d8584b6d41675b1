//! The proved import and export against the second program's: texts that are good
//! or have any number of faults, every change of one byte in short ones, and
//! catalogues of both sorts. The bytes that a call does not write keep their value.

use super::{fault, good, hex, packed, proved, second, Random, Tally};

/// A buffer that is lent again and again, and the bytes that it has before each call, which have no pattern.
struct Room<const LENGTH: usize> {
    before: Box<[u8]>,
    lent: Box<[u8; LENGTH]>,
}

impl<const LENGTH: usize> Room<LENGTH> {
    fn new(r: &mut Random) -> Self {
        let before = r.bytes(LENGTH);
        Room { lent: before[..].try_into().map(Box::new).expect("as many bytes"), before: before.into() }
    }

    /// The first place at which the buffer is not as it should be after a call: these bytes, and behind them what was there before. It is put back as it was.
    fn wrong_place(&mut self, written: &[u8]) -> Option<usize> {
        let n = written.len();
        let wrong = if alike(&self.lent[..n], written) && alike(&self.lent[n..], &self.before[n..]) {
            None
        } else {
            self.lent.iter().zip(written.iter().chain(&self.before[n..])).position(|(is, should)| is != should)
        };
        let changed = if wrong.is_some() { LENGTH } else { n };
        self.lent[..changed].copy_from_slice(&self.before[..changed]);
        wrong
    }
}

/// Whether all bytes are the same. There is no branch in its loop, so that it costs little under valgrind too.
fn alike(a: &[u8], b: &[u8]) -> bool {
    a.len() == b.len() && a.iter().zip(b).fold(0, |sum, (x, y)| sum | (x ^ y)) == 0
}

/// The lent buffers, and how often each answer came, 0 for a good one.
struct Lent {
    catalogue: Room<10_752>,
    text: Room<23_552>,
    imported: [u64; 22],
    exported: [u64; 22],
}

/// An answer, and the bytes that are written.
fn want(answer: &Result<Vec<u8>, second::Refusal>, a_record: usize) -> (u64, &[u8]) {
    match answer {
        Ok(bytes) => ((bytes.len() / a_record) as u64, bytes),
        Err(refusal) => (packed(refusal), &[]),
    }
}

fn number_in(answer: &Result<Vec<u8>, second::Refusal>) -> usize {
    answer.as_ref().map_or_else(|refusal| usize::from(refusal.number), |_| 0)
}

fn import(t: &mut Tally, lent: &mut Lent, text: &[u8]) {
    let answer = second::import(text);
    let (number, written) = want(&answer, 21);
    let said = proved::import(text, &mut lent.catalogue.lent);
    let wrong = lent.catalogue.wrong_place(written);
    t.same("import (what it answers, the first wrong place)", &|| hex(text), (number, None), (said, wrong));
    lent.imported[number_in(&answer)] += 1;
}

/// And the import of the text.
fn export(t: &mut Tally, lent: &mut Lent, catalogue: &[u8]) {
    let answer = second::export(catalogue);
    let (number, written) = want(&answer, 1);
    let said = proved::export(catalogue, &mut lent.text.lent);
    let wrong = lent.text.wrong_place(written);
    t.same("export (what it answers, the first wrong place)", &|| hex(catalogue), (number, None), (said, wrong));
    lent.exported[number_in(&answer)] += 1;
    if let Ok(text) = answer {
        import(t, lent, &text);
    }
}

fn of<'a>(r: &mut Random, list: &[&'a str]) -> &'a str {
    list[r.below(list.len())]
}

/// Characters of a trace in quotes, those in it doubled.
fn in_quotes(characters: &[u8]) -> Vec<u8> {
    let mut field = vec![b'"'];
    for c in characters {
        field.push(*c);
        if *c == b'"' {
            field.push(*c);
        }
    }
    field.push(b'"');
    field
}

fn number(r: &mut Random, odd: bool) -> Vec<u8> {
    if odd {
        let list = ["", "0", "00", "000", "0000", "00000", "00001", "10000", "12345", "65537", " 1", "1 ", "+1", "-1", "/", ":", "1/", "a", "\r", "\"1\""];
        return of(r, &list).into();
    }
    let most = [9, 99, 999, 9999][r.below(4)];
    let number = 1 + r.below(most);
    format!("{number:0width$}", width = [1, 1, 1, 2, 4][r.below(5)]).into()
}

fn label(r: &mut Random, odd: bool) -> Vec<u8> {
    if odd {
        let mut label = of(r, &["", "1", "012", "00", "FF", "ff", "fF", "12", "aB", " 1", "1 ", "12 ", "0x12"]).as_bytes().to_vec();
        if label.len() == 2 && r.below(2) == 0 {
            label[r.below(2)] = [0x2F, 0x3A, 0x40, 0x47, 0x60, 0x67, r.byte()][r.below(7)];
        }
        return label;
    }
    let label = 1 + r.below(254);
    match r.below(3) {
        0 => format!("{label:02x}").into(),
        _ => format!("{label:02X}").into(),
    }
}

/// The k-th trace of a text, which no other has unless that is odd.
fn trace(r: &mut Random, k: usize, odd: bool) -> Vec<u8> {
    let letters = [&b"\"a"[..], b"\", a", b"ab -/,;'~", b" !xyz"][r.below(4)];
    let n = if odd { r.below(20) } else { r.below(14) };
    let mut characters: Vec<u8> = (0..n).map(|_| letters[r.below(letters.len())]).collect();
    if !odd {
        characters.insert(r.below(n + 1), b'A' + k as u8);
        return in_quotes(&characters);
    }
    match r.below(8) {
        // as they are, whatever they open with
        0 | 1 => characters,
        2 => in_quotes(&characters),
        3 => in_quotes(&[&characters[..], &b"X".repeat(16_usize.saturating_sub(n))].concat()),
        4 => in_quotes(&[b' '; 17][..r.below(18)]),
        5 => {
            characters.truncate(14);
            let at = r.below(characters.len() + 1);
            characters.insert(at, [0x00, 0x0D, 0x1F, 0x7F, 0x80, 0xFF, r.byte()][r.below(7)]);
            in_quotes(&characters)
        }
        6 => in_quotes(&[0x41 + r.below(6) as u8]),
        _ => {
            let mut field = in_quotes(&characters);
            match r.below(4) {
                0 => drop(field.pop()),
                1 => drop(field.remove(0)),
                2 => {
                    let at = r.below(field.len());
                    field.insert(at, b'"');
                }
                _ => field.push([b' ', b'x', b'\r', b'"', b';'][r.below(5)]),
            }
            field
        }
    }
}

fn flags(r: &mut Random, odd: bool) -> Vec<u8> {
    if odd {
        let list = ["", "16", "17", "20", "99", "015", "000", "100", " 1", "1 ", "1\r", "/", ":", "1/", "1:", "a", "1,", "1,1", "\"1\""];
        return of(r, &list).into();
    }
    format!("{:0width$}", r.below(16), width = 1 + r.below(2)).into()
}

/// A text of n lines, of which each field is odd once in so many times; never for 0.
fn text(r: &mut Random, n: usize, one_in: usize) -> Vec<u8> {
    let odd = |r: &mut Random| one_in > 0 && r.below(one_in) == 0;
    let mut text = Vec::new();
    for k in 0..n {
        let mut line = Vec::new();
        let o = odd(r);
        line.extend(number(r, o));
        line.push(b',');
        let o = odd(r);
        line.extend(label(r, o));
        line.push(b',');
        let o = odd(r);
        line.extend(trace(r, k, o));
        line.push(b',');
        let o = odd(r);
        line.extend(flags(r, o));
        if odd(r) {
            match r.below(5) {
                0 => line.clear(),
                1 => line.push(b'\r'),
                2 => {
                    let at = r.below(line.len());
                    line.truncate(at);
                }
                // about the longest, most of it in the trace
                _ => {
                    let want = 78 + r.below(5);
                    let from = line.iter().position(|byte| *byte == b'"').map_or(5, |at| at + 1).min(line.len());
                    while line.len() < want {
                        line.insert(from, b'x');
                    }
                }
            }
        }
        text.extend(line);
        if !(odd(r) && r.below(4) == 0) {
            text.push(b'\n');
        }
    }
    if odd(r) && r.below(3) == 0 {
        text.pop();
    }
    text
}

/// A byte changed, put in or left out, or the rest.
fn damage(r: &mut Random, text: &mut Vec<u8>) {
    if text.is_empty() {
        text.push(r.byte());
        return;
    }
    let at = r.below(text.len());
    let byte = [b'"', b',', b'\n', b'\r', b' ', b'0', b'F', r.byte()][r.below(8)];
    match r.below(5) {
        0 | 1 => text[at] = byte,
        2 => text.insert(at, byte),
        3 => drop(text.remove(at)),
        _ => text.truncate(at),
    }
}

/// So many short lines, each with a trace of its own.
fn many(n: usize) -> Vec<u8> {
    (0..n).flat_map(|k| [b"1,12,\"", &[0x23 + (k / 80) as u8, 0x23 + (k % 80) as u8][..], b"\",0\n"].concat()).collect()
}

fn imports(r: &mut Random, t: &mut Tally, lent: &mut Lent) {
    import(t, lent, b"");
    import(t, lent, b"\xEF\xBB\xBF1,12,\"a\",0\n");
    for round in 0..8000 {
        let n = r.below(7);
        let one_in = [0, 4, 10, 20, 40][round % 5];
        let mut text = text(r, n, one_in);
        // the first line once more, before or behind all, so that a trace is
        if r.below(6) == 0 {
            if let Some(end) = text.iter().position(|byte| *byte == b'\n') {
                let at = [0, text.len()][r.below(2)];
                let line = text[..=end].to_vec();
                text.splice(at..at, line);
            }
        }
        if r.below(4) == 0 {
            damage(r, &mut text);
        }
        import(t, lent, &text);
    }
    // about the most lines: whole, with one byte damaged, with something behind the last LF, with faults in some
    for round in 0..60 {
        let mut text = many(509 + round % 7);
        match round / 7 {
            0 => {}
            1 | 2 => damage(r, &mut text),
            3 => drop(text.pop()),
            4 => text.push([b'\n', b'1', b'\r'][r.below(3)]),
            5 => text.extend(b"1,12,a,0\n".repeat(r.below(3))),
            6 => text.extend(b"0,12,\"0123456789012345\",0"),
            _ => {
                for _ in 0..r.below(3) {
                    let at = text.len() - 1 - r.below(text.len().min(60));
                    text[at] = r.byte();
                }
            }
        }
        import(t, lent, &text);
    }
    for n in [511, 512, 513, 514, 600, 2000] {
        import(t, lent, &b"\n".repeat(n));
        import(t, lent, &[&b"x".repeat(100)[..], &b"\n".repeat(n)].concat());
        import(t, lent, &[&b"1,12,a,0\n".repeat(n)[..], b"1"].concat());
    }
    // lines of every length about the longest, quoted and not, ended and not
    for length in (60..=100).chain([200, 4000]) {
        for (open, close) in [("1,12,\"", "\",0"), ("1,12,", ",0"), ("1,12,\"", "\",00"), ("9999,12,", ",15"), ("1,12,\"", "\",x"), ("1,12,", ",x")] {
            let inside = length - open.len() - close.len();
            let line = [open, &"x".repeat(inside), close].concat();
            import(t, lent, format!("{line}\n").as_bytes());
            import(t, lent, line.as_bytes());
            import(t, lent, format!("2,12,\"good\",0\n{line}\n{line}").as_bytes());
        }
    }
    // no LF in more bytes than the longest text has
    for length in [41_472, 41_473, 60_000] {
        import(t, lent, &b"x".repeat(length));
    }
    // traces of every length, of letters, spaces and quotes
    for n in 0..40 {
        for c in [b"a", b" ", b"\"", b","] {
            let field = in_quotes(&c.repeat(n));
            import(t, lent, &[b"7,12,", &field[..], b",15\n"].concat());
            import(t, lent, &[b"7,12,", &in_quotes(&[&b"a"[..], &c.repeat(n)].concat())[..], b",15\n"].concat());
        }
    }
}

/// Each byte value at each place of a good text, in the place of the byte there or before it; and each byte left out.
fn changes(t: &mut Tally, lent: &mut Lent) {
    for good in [&b"7,1f,\"a\"\"b\",15\n"[..], b"120,E9,\"x,y\",3\n0012,aB,\"\"\"\",09\n"] {
        for at in 0..good.len() {
            let mut text = good.to_vec();
            for byte in 0..=255 {
                text[at] = byte;
                import(t, lent, &text);
            }
            text.remove(at);
            import(t, lent, &text);
            import(t, lent, &good[..at]);
        }
    }
    let good = b"7,1f,\"a\"\"b\",15\n";
    for at in 0..=good.len() {
        let mut text = [&good[..at], b"?", &good[at..]].concat();
        for byte in 0..=255 {
            text[at] = byte;
            import(t, lent, &text);
        }
    }
}

fn exports(r: &mut Random, t: &mut Tally, lent: &mut Lent) {
    for round in 0..2000 {
        let n = if round % 400 == 0 { 510 + r.below(4) } else { round % 9 };
        let mut catalogue = good(r, n);
        // quotes and commas, and the last two characters as they are, so that no trace comes twice
        for record in catalogue.chunks_exact_mut(21) {
            for _ in 0..[0, 0, 1, 3, 15][r.below(5)] {
                record[5 + r.below(13)] = [b'"', b'"', b',', b' '][r.below(4)];
            }
        }
        for _ in 0..[0, 0, 1, 2][r.below(4)] {
            fault(r, &mut catalogue);
        }
        export(t, lent, &catalogue);
    }
    for length in (0..=64).chain([10_731, 10_751, 10_752, 10_753, 10_773]) {
        let mut catalogue = good(r, length / 21 + 1);
        catalogue.truncate(length);
        export(t, lent, &catalogue);
    }
    // the longest text that there is
    let mut catalogue = good(r, 512);
    for (k, record) in catalogue.chunks_exact_mut(21).enumerate() {
        record[2..4].copy_from_slice(&9999u16.to_be_bytes());
        record[5..20].fill(b'"');
        // nine places are enough for 512 that differ
        for place in 0..9 {
            if k >> place & 1 == 1 {
                record[5 + place] = b'~';
            }
        }
        record[20] = 15;
    }
    export(t, lent, &catalogue);
}

pub fn compare(r: &mut Random, t: &mut Tally) {
    let mut lent = Lent { catalogue: Room::new(r), text: Room::new(r), imported: [0; 22], exported: [0; 22] };
    imports(r, t, &mut lent);
    changes(t, &mut lent);
    exports(r, t, &mut lent);
    for (what, met, numbers) in [
        ("import", lent.imported, &[0, 4, 5, 11, 12, 13, 15, 16, 17, 18, 20, 21][..]),
        ("export", lent.exported, &[0, 4, 5, 9, 10, 11, 12, 13, 20, 21]),
    ] {
        for number in numbers {
            if met[*number] < 20 {
                println!("compare: answer {number} of {what} was met {} times only", met[*number]);
                t.differed += 1;
            }
        }
    }
}
