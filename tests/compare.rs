//! The proved code against the second program, over many inputs: every word,
//! every length about the ones that matter, good bytes, damaged and cut ones,
//! catalogues with any number of faults, spreadsheets in and out (tests/texts.rs),
//! and the sources (tests/sources.rs).
//!
//! Links libcard.a, libprobe.a and libprobe_sources.a. `compare [SEED]`: the seed is fixed unless
//! one is given. A case that differs is printed whole, and the seed with it. With FENCED in the
//! environment every block that is lent has a fence (tests/fence.rs).

#[path = "../second/second.rs"]
mod second;
mod fence;
mod proved;
mod random;
mod sources;
mod texts;

use random::Random;

/// What was compared, and what differed.
struct Tally {
    compared: u64,
    differed: u64,
}

impl Tally {
    fn same<T: PartialEq + std::fmt::Debug>(&mut self, what: &str, input: &dyn Fn() -> String, second: T, proved: T) {
        self.compared += 1;
        if second != proved {
            self.differed += 1;
            if self.differed <= 10 {
                println!("compare: {what} differs: second {second:?}, proved {proved:?}, of {}", input());
            }
        }
    }
}

fn hex(b: &[u8]) -> String {
    b.iter().map(|x| format!("{x:02X}")).collect()
}

/// Lengths about those that a rule names, and about a container's.
fn lengths() -> impl Iterator<Item = usize> {
    (0..=40).chain(2330..=2370)
}

fn bytes_of_every_length(r: &mut Random, t: &mut Tally) {
    for n in lengths() {
        for round in 0..40 {
            let b = match round {
                0 => vec![0; n],
                1 => vec![0xFF; n],
                _ => r.bytes(n),
            };
            t.same("parity", &|| hex(&b), second::parity(&b), proved::parity(&b));
            t.same("trace check", &|| hex(&b), second::trace_check(&b), proved::trace_check(&b));
            t.same("word reading", &|| hex(&b), second::word_reading(&b), proved::word_reading(&b));
            // copying: exact where the lengths agree, nothing where they do not
            let room = if round % 3 == 2 { n + 1 } else { n };
            let before = r.bytes(room);
            let mut to = before.clone();
            let said = proved::copy(&b, &mut to);
            let want = if room == n { b.clone() } else { before };
            t.same("copy", &|| hex(&b), (room == n, want), (said, to));
        }
    }
}

fn words(t: &mut Tally) {
    for w in 0..=0xFFFFu16 {
        let b = w.to_be_bytes();
        t.same("word reading", &|| format!("{w:04X}"), second::word_reading(&b), proved::word_reading(&b));
    }
    for v in 0..1024u16 {
        let of = || format!("value {v}");
        t.same("plain word", &of, second::plain_word(v), proved::plain_word(v));
        t.same("increment word", &of, second::increment_word(v), proved::adjusting_word(0x2AA, v));
        t.same("decrement word", &of, second::decrement_word(v), proved::adjusting_word(0x155, v));
    }
    for v in [0u16, 1, 2, 5, 390, 521, 522, 764, 765, 781, 782, 783, 1023] {
        for w in (0..=0xFFFFu16).step_by(7).chain([0x6AAA, 0x6955, 0x69A4, 0x6954, 0x6B0F]) {
            let both = (proved::inverted(0x2AA, w, v), proved::inverted(0x155, w, v));
            t.same("inverted bits", &|| format!("word {w:04X}, value {v}"), second::inverted(w, v), both);
        }
    }
}

fn messages(r: &mut Random, t: &mut Tally) {
    for round in 0..600 {
        let mut characters = [0u8; 15];
        for c in &mut characters {
            *c = match round % 3 {
                0 => 0x20 + r.below(0x5F) as u8, // as settings allow
                1 => r.below(0x80) as u8,        // as a good message may hold
                _ => r.byte(),                   // anything
            };
        }
        let start = second::start_byte(&characters);
        t.same("start byte", &|| hex(&characters), start, proved::start_byte(&characters));
        let mut message = vec![start];
        message.extend_from_slice(&characters);
        let mut ask = |m: &[u8]| t.same("trace check", &|| hex(m), second::trace_check(m), proved::trace_check(m));
        ask(&message);
        ask(&message[..15]);
        ask(&message[1..]);
        ask(&[&message[..], &[0]].concat());
        for bit in 0..128 {
            let mut damaged = message.clone();
            damaged[bit / 8] ^= 1 << (bit % 8);
            ask(&damaged);
        }
        message.rotate_left(1 + r.below(15)); // begun in the middle
        ask(&message);
    }
}

/// A good catalogue of n records.
fn good(r: &mut Random, n: usize) -> Vec<u8> {
    let mut b = Vec::new();
    for k in 0..n {
        let most = if r.below(4) == 0 { 12 } else { 9999 }; // few numbers, so that some repeat
        let circuit = 1 + r.below(most) as u16;
        b.extend_from_slice(&[0x5A, 0x4D]);
        b.extend_from_slice(&circuit.to_be_bytes());
        b.push(1 + r.below(0xFE) as u8);
        // one trace for each record, alike but for a few characters
        let mut trace = *b"LINE           ";
        let name = format!("{:X}", k * 3 + 1);
        let at = 4 + r.below(11 - name.len());
        trace[at..at + name.len()].copy_from_slice(name.as_bytes());
        trace[14] = 0x20 + (k % 0x5F) as u8;
        trace[13] = 0x20 + (k / 0x5F) as u8;
        b.extend_from_slice(&trace);
        b.push(r.below(16) as u8);
    }
    b
}

/// A fault in a record: any byte anything, or a field at one of its borders, or the trace of another record.
fn fault(r: &mut Random, b: &mut Vec<u8>) {
    let n = b.len() / 21;
    if n == 0 {
        let more = r.below(24);
        let extra = r.bytes(more);
        b.extend(extra);
        return;
    }
    let k = r.below(n) * 21;
    match r.below(13) {
        0 => {
            let at = k + r.below(21);
            b[at] = r.byte();
        }
        1 => b[k] = 0x5B,
        2 => b[k + 1] = [0x4E, 0x5A, 0x00][r.below(3)],
        3 => {
            let circuit: u16 = [0, 1, 9999, 10000, 65535][r.below(5)];
            b[k + 2..k + 4].copy_from_slice(&circuit.to_be_bytes());
        }
        4 => b[k + 4] = [0x00, 0xFF, 0x01, 0xFE][r.below(4)],
        5 => {
            let at = k + 5 + r.below(15);
            b[at] = [0x1F, 0x20, 0x7E, 0x7F, 0x80, 0x00, 0xFF][r.below(7)];
        }
        6 => b[k + 20] = [15, 16, 255][r.below(3)],
        7 => {
            // two characters, one behind the other
            let at = r.below(14);
            for place in [at, at + 1 + r.below(14 - at)] {
                b[k + 5 + place] = [0x00, 0x1F, 0x7F, 0x80, 0xFF, r.byte()][r.below(6)];
            }
        }
        8 => {
            // spaces alone, or but for one
            b[k + 5..k + 20].fill(b' ');
            if r.below(2) == 0 {
                let at = k + 5 + r.below(15);
                b[at] = [0x00, 0x1F, 0x21, 0x7E, 0x7F, 0xFF][r.below(6)];
            }
        }
        9 | 10 => {
            // the trace of another record, or nearly
            let other = r.below(n) * 21;
            let trace = b[other + 5..other + 20].to_vec();
            b[k + 5..k + 20].copy_from_slice(&trace);
            if r.below(4) == 0 {
                b[k + 19] = 0x20;
            }
        }
        11 => b.truncate(b.len() - 1 - r.below(21)),
        _ => {
            let extra = r.byte();
            b.push(extra);
        }
    }
}

/// The probe's number for a refusal of the second program.
fn packed(x: &second::Refusal) -> u64 {
    let place = |k: usize| x.places.get(k).copied().unwrap_or(0) as u64;
    (u64::from(x.number) << 32) + (place(0) << 16) + place(1)
}

/// The probe's number for what the second program's check answers, the pairs compared above the rest.
fn packed_check(checked: &second::Checked) -> u64 {
    ((checked.pairs as u64) << 40) + checked.answer.as_ref().map_or_else(packed, |n| *n as u64)
}

fn catalogue(r: &mut Random, t: &mut Tally, b: &[u8], met: &mut [u64; 22]) {
    let checked = second::catalogue_check(b);
    t.same("catalogue check", &|| hex(b), packed_check(&checked), proved::check(b));
    t.same("listing", &|| hex(b), (second::listing(b), true), proved::list(b));
    met[checked.answer.as_ref().map_or_else(|x| x.number as usize, |_| 0)] += 1;
    let n = b.len() / 21;
    for round in 0..4 {
        let number = match round {
            0 => [0, 1, 9999, 10000, 65536 + 7, u32::MAX][r.below(6)],
            1 | 2 if n > 0 => {
                let k = r.below(n) * 21;
                u32::from(b[k + 2]) * 256 + u32::from(b[k + 3])
            }
            _ => r.below(10001) as u32,
        };
        let want = match second::lookup(b, number) {
            Ok(e) => (u64::from(e.label) * 256 + u64::from(e.flags), e.trace),
            Err(x) => {
                met[x.number as usize] += u64::from(x.number == 14);
                (packed(&x), [0; 15])
            }
        };
        t.same("lookup", &|| format!("{number} in {}", hex(b)), want, proved::lookup(b, number));
    }
}

fn catalogues(r: &mut Random, t: &mut Tally) {
    let mut met = [0u64; 22]; // how often each answer came, 0 for a good catalogue
    for round in 0..6000 {
        let n = match round % 40 {
            0 => 0,
            1 => 1,
            2 => 511 + r.below(3),
            k => k / 2,
        };
        let mut b = good(r, n);
        for _ in 0..r.below(5) {
            fault(r, &mut b);
        }
        catalogue(r, t, &b, &mut met);
    }
    for n in lengths().chain([10731, 10732, 10751, 10752, 10753, 10773]) {
        let mut b = good(r, n / 21 + 1);
        b.truncate(n);
        catalogue(r, t, &b, &mut met);
        let b = r.bytes(n);
        catalogue(r, t, &b, &mut met);
    }
    // a pair at the very ends of the longest catalogue, and traces that differ in the last character alone
    let mut b = good(r, 512);
    let trace = b[5..20].to_vec();
    b[511 * 21 + 5..512 * 21 - 1].copy_from_slice(&trace);
    catalogue(r, t, &b, &mut met);
    b[512 * 21 - 2] = if b[512 * 21 - 2] == b'~' { b'}' } else { b'~' };
    catalogue(r, t, &b, &mut met);
    // the first repeat at each pair of twelve records, and at the last pair of the longest catalogue
    let ends = (1..12).flat_map(|later| (0..later).map(move |first| (12, first, later))).chain([(512, 510, 511)]);
    for (n, first, later) in ends {
        let mut b = good(r, n);
        b.copy_within(first * 21 + 5..first * 21 + 20, later * 21 + 5);
        catalogue(r, t, &b, &mut met);
    }
    for (number, times) in met.iter().enumerate() {
        if matches!(number, 0 | 4 | 5 | 9..=14 | 20 | 21) && *times < 20 {
            println!("compare: answer {number} of the catalogue was met {times} times only");
            t.differed += 1;
        }
    }
}

/// A label and a trace checked before any call: the number and the place by which the second program's source and its sink refuse
/// them, asked with nothing else wrong; 5 at no place for any other number of characters, but behind 4.
fn settings(r: &mut Random, t: &mut Tally) {
    let mut met = [0usize; 22];
    for round in 0..3000 {
        let label = [0x00, 0x01, 0x12, 0xFE, 0xFF, r.byte()][round % 6];
        let length = if r.below(4) == 0 { r.below(32) } else { 15 };
        let mut characters: Vec<u8> = (0..length).map(|_| 0x20 + r.below(0x5F) as u8).collect();
        // spaces but for none, one or two; or any good characters but for these
        if r.below(4) == 0 {
            characters.fill(b' ');
        }
        if length > 0 {
            for _ in 0..[0, 0, 1, 2][r.below(4)] {
                let at = r.below(length);
                characters[at] = [0x00, 0x1F, 0x20, 0x21, 0x7E, 0x7F, 0x80, 0xFF, r.byte()][r.below(9)];
            }
        }
        let want = match <[u8; 15]>::try_from(&characters[..]) {
            Ok(trace) => {
                let given = second::Given { label, f2: 0, h4: 0, f3: 0, k3: 0, n1: 0, violations: 0, remote: false };
                let sent = second::container_source(
                    second::AU4,
                    second::ContainerSource::fresh(),
                    given,
                    &trace,
                    &[0; 2340],
                    &mut [0; 2349],
                );
                let expected =
                    second::Expected { label, trace, monitored: false, rdi_reported: false, ssf_reported: false, ais_reported: false };
                let (unit, mut held, mut done) = ([0; 2358], [0; 2349], [0; 2349]);
                let fed = second::sink(second::AU4, &second::Sink::fresh(), &expected, &unit, &mut held, &mut done, &mut |_| {});
                let (source, sink) = (sent.err(), fed.err());
                t.same("settings, the second program's source and sink", &|| hex(&trace), &source, &sink);
                sink.map_or((0, "0".to_string()), |refusal| (refusal.number, refusal.to_string()))
            }
            Err(_) if label == 0x00 || label == 0xFF => (4, "4".to_string()),
            Err(_) => (5, "5".to_string()),
        };
        let input = || format!("{label:02X} {}", hex(&characters));
        t.same("settings", &input, &want.1, &proved::settings_check(label, &characters).to_string());
        met[usize::from(want.0)] += 1;
    }
    for number in [0, 4, 5, 20, 21] {
        if met[number] < 100 {
            println!("compare: answer {number} of the settings was met {} times only", met[number]);
            t.differed += 1;
        }
    }
}

fn main() {
    if fence::touched() {
        return;
    }
    let seed = match std::env::args().nth(1).map(|s| s.parse::<u64>()) {
        None => 20,
        Some(Ok(n)) => n,
        Some(Err(_)) => {
            eprintln!("usage: compare [SEED]");
            std::process::exit(2);
        }
    };
    let mut r = Random(seed);
    let mut t = Tally { compared: 0, differed: 0 };
    bytes_of_every_length(&mut r, &mut t);
    words(&mut t);
    messages(&mut r, &mut t);
    settings(&mut r, &mut t);
    catalogues(&mut r, &mut t);
    sources::compare(&mut r, &mut t);
    texts::compare(&mut r, &mut t);
    println!("compare: {} answers compared, {} differ (seed {seed})", t.compared, t.differed);
    if t.differed > 0 {
        std::process::exit(1);
    }
}
