//! How fast the proved code is, as ratios within one run on one machine: what is compared is measured in turn, many times over, and the best of each is kept.
//! A ratio of 1.50 means half as slow again. Nothing here passes or fails.
//!
//! Beside the proved code stand (a) the core of the second program made fast (second/fast.rs: plain Rust that changes its state in place), its plain core, and
//! (b) the limit: one parity and one copy of 2349 bytes by the best plain code, the fast core's parity and memcpy. 01 has a container that is completed copied more than once (held bytes, the
//! continuation, what is held next): "the copies of this run" beside one parity are just these. One hot sink is the best case; 100 and 1000 in turn stand beside it.
//!
//! Links libcard.a, libprobe.a, libprobe_sources.a and libprobe_sink.a; built and run by benchmark/run.

#[path = "../second/fast.rs"]
mod fast;
#[path = "../tests/proved.rs"]
mod proved;
#[path = "../second/second.rs"]
mod second;
mod stack;

use proved::c;
use second::AU4;
use std::cell::{Cell, RefCell};
use std::hint::black_box;
use std::time::Instant;

const CONTAINER: usize = 2349;
const PAYLOAD: usize = 2340;
const UNIT: usize = 2358;
const TURNS: usize = 600;
/// A path sends this many units a second.
const UNITS_A_SECOND: f64 = 8000.0;

const LABEL: u8 = 0x12;
const TRACE: [u8; 15] = *b"03E5           ";
const EXPECTED: second::Expected =
    second::Expected { label: LABEL, trace: TRACE, monitored: true, rdi_reported: true, ssf_reported: true, ais_reported: true };

#[inline(never)]
fn plain_parity(b: &[u8]) -> u8 {
    b.iter().fold(0, |sum, x| sum ^ x)
}

#[inline(never)]
fn plain_copy(from: &[u8], to: &mut [u8]) {
    for (t, f) in to.iter_mut().zip(from) {
        *t = *f;
    }
}

#[inline(never)]
fn memcpy(from: &[u8], to: &mut [u8]) {
    to.copy_from_slice(from);
}

/// What is measured: its name, and the nanoseconds of one call.
type Row<'a> = (&'a str, &'a mut dyn FnMut() -> f64);

/// Nanoseconds for one of `calls` calls.
fn once(calls: usize, f: &mut dyn FnMut()) -> f64 {
    let start = Instant::now();
    for _ in 0..calls {
        f();
    }
    start.elapsed().as_nanos() as f64 / calls as f64
}

/// The best of each, taken in turn.
fn best(turns: usize, rows: &mut [Row]) -> Vec<f64> {
    let mut least = vec![f64::INFINITY; rows.len()];
    for _ in 0..turns {
        for (k, (_, f)) in rows.iter_mut().enumerate() {
            least[k] = least[k].min(f());
        }
    }
    least
}

/// The first, and a ratio for each thing that it is compared to; what each row took.
fn show_all(what: &str, turns: usize, rows: &mut [Row]) -> Vec<f64> {
    let times = best(turns, rows);
    println!("{what}");
    println!("    {:<44} {:>11.1} ns", rows[0].0, times[0]);
    for k in 1..rows.len() {
        println!("    {:<44} {:>11.1} ns   ratio {:.2}", rows[k].0, times[k], times[0] / times[k]);
    }
    times
}

/// The same; what the first took.
fn show(what: &str, turns: usize, rows: &mut [Row]) -> f64 {
    show_all(what, turns, rows)[0]
}

fn bytes(n: usize, by: usize) -> Vec<u8> {
    (0..n).map(|i| (i * by + 7) as u8).collect()
}

// ---- the parts

fn parts() {
    let from = bytes(CONTAINER, 31);
    // one buffer for all rows, so that none has a better place in memory than another
    let to = RefCell::new(vec![0u8; CONTAINER]);
    let calls = 2000;
    show(
        "parity of 2349 bytes",
        TURNS,
        &mut [
            ("proved", &mut || once(calls, &mut || {
                black_box(unsafe { c::card_parity(black_box(from.as_ptr()), CONTAINER) });
            })),
            ("Rust, a plain loop", &mut || once(calls, &mut || {
                black_box(plain_parity(black_box(&from)));
            })),
            ("(a) second program, fast", &mut || once(calls, &mut || {
                black_box(fast::parity(black_box(&from)));
            })),
        ],
    );
    show(
        "copy of 2349 bytes",
        TURNS,
        &mut [
            ("proved", &mut || once(calls, &mut || {
                black_box(unsafe { c::probe_copy(black_box(from.as_ptr()), CONTAINER, to.borrow_mut().as_mut_ptr(), CONTAINER) });
            })),
            ("memcpy", &mut || once(calls, &mut || memcpy(black_box(&from), black_box(&mut to.borrow_mut())))),
            ("Rust, a plain loop", &mut || once(calls, &mut || plain_copy(black_box(&from), black_box(&mut to.borrow_mut())))),
        ],
    );
    let mut message = vec![second::start_byte(&TRACE)];
    message.extend_from_slice(&TRACE);
    show(
        "trace check of a good message",
        TURNS,
        &mut [
            ("proved, one register", &mut || once(500, &mut || {
                black_box(unsafe { c::card_trace_check(black_box(message.as_ptr()), 16) });
            })),
            ("second program, division of a copy", &mut || once(500, &mut || {
                black_box(second::trace_check(black_box(&message)));
            })),
        ],
    );
    let word = [0x68u8, 0x00];
    show(
        "word reading",
        TURNS,
        &mut [
            ("proved", &mut || once(5000, &mut || {
                black_box(unsafe { c::card_word_reading(black_box(word.as_ptr()), 2) });
            })),
            ("second program", &mut || once(5000, &mut || {
                black_box(second::word_reading(black_box(&word)));
            })),
        ],
    );
}

// ---- the sink

/// The units of a run, as many as settle a sink and then as many again.
struct Run {
    units: Vec<Vec<u8>>,
    /// The copies that each unit has made, in bytes.
    copied: Vec<usize>,
}

/// The bytes of a container that are held where it begins at this offset.
fn held_count(offset: u16) -> usize {
    if offset == 0 { 0 } else { CONTAINER - 3 * usize::from(offset) }
}

/// Units of one source at this offset, with an adjustment asked for in every fourth where `adjusting`: up, and down again.
fn run(offset: u16, adjusting: bool) -> Run {
    let given = second::Given { label: LABEL, f2: 1, h4: 2, f3: 3, k3: 4, n1: 5, violations: 0, remote: false };
    let mut containers = second::ContainerSource::fresh();
    let mut source = second::UnitSource { offset, wait: 3 };
    let mut queue: Vec<Vec<u8>> = Vec::new();
    let mut seed = 1;
    let mut made = Run { units: Vec::new(), copied: Vec::new() };
    for k in 0..160 {
        while queue.len() < 2 {
            let mut container = vec![0; CONTAINER];
            containers = second::container_source(AU4, containers, given, &TRACE, &bytes(PAYLOAD, seed), &mut container).expect("a container");
            queue.push(container);
            seed += 2;
        }
        let asked = match (adjusting && k >= 8 && k % 4 == 0, k / 4 % 2) {
            (false, _) => second::Asked::Nothing,
            (true, 0) => second::Asked::Increment,
            (true, _) => second::Asked::Decrement,
        };
        let mut unit = vec![0; UNIT];
        let before = held_count(source.offset);
        let (ended, after) = second::unit_source(AU4, source, asked, &queue[0], &queue[1], &mut unit).expect("a unit");
        source = after;
        queue.drain(..usize::from(ended));
        // a container begun earlier is completed: the held bytes, and the others from the unit; what is left is held
        made.copied.push(if before > 0 { CONTAINER } else { 0 } + held_count(source.offset));
        made.units.push(unit);
    }
    made
}

fn settings() -> c::Settings {
    c::Settings { label: LABEL, trace: TRACE, flags: c::Flags { monitored: true, rdi: true, ssf: true, ais: true } }
}

fn carries(took: f64) {
    println!("    {:<44} {:>11.0} VC-4", "one core carries, at 8000 units a second", 1e9 / UNITS_A_SECOND / took);
}

/// A run on a sink that the same run has settled, so that nothing but the units differs between calls.
fn sinks(what: &str, run: &Run) {
    let n = run.units.len() as f64;
    // the same buffers for all, so that none has a better place in memory than another
    let (held, done) = (RefCell::new(vec![0u8; CONTAINER]), RefCell::new(vec![0u8; CONTAINER]));
    let proved_turn = |mut s: c::Plain| {
        let (mut held, mut done) = (held.borrow_mut(), done.borrow_mut());
        for unit in &run.units {
            s = proved::sink(s, settings(), unit, &mut held, &mut done).state;
        }
        s
    };
    let fast_turn = |s: &mut second::Sink| {
        let (mut held, mut done) = (held.borrow_mut(), done.borrow_mut());
        for unit in &run.units {
            let _ = black_box(fast::sink(s, &EXPECTED, unit, &mut held, &mut done));
        }
    };
    let plain_turn = |mut s: second::Sink| {
        let (mut held, mut done) = (held.borrow_mut(), done.borrow_mut());
        for unit in &run.units {
            match second::sink(AU4, &s, &EXPECTED, unit, &mut held, &mut done, &mut |_| {}) {
                Ok((after, answer)) => {
                    black_box(answer);
                    s = after;
                }
                Err(refusal) => panic!("refused {refusal}"),
            }
        }
        s
    };
    let settled = Cell::new(proved_turn(proved::fresh_sink()));
    let fast_state = RefCell::new(second::Sink::fresh());
    fast_turn(&mut fast_state.borrow_mut());
    let plain_state = RefCell::new(plain_turn(second::Sink::fresh()));
    assert!(*fast_state.borrow() == *plain_state.borrow() && settled.get().total == plain_state.borrow().unsettled);
    let timed = |f: &mut dyn FnMut()| once(1, f) / n;
    let took = show(
        what,
        TURNS,
        &mut [
            ("proved", &mut || timed(&mut || {
                settled.set(proved_turn(settled.get()));
            })),
            ("(a) second program, fast", &mut || timed(&mut || fast_turn(&mut fast_state.borrow_mut()))),
            ("second program", &mut || timed(&mut || {
                let after = plain_turn(plain_state.borrow().clone());
                *plain_state.borrow_mut() = after;
            })),
            ("(b) one parity and one copy", &mut || timed(&mut || {
                let mut done = done.borrow_mut();
                for unit in &run.units {
                    black_box(fast::parity(&unit[9..]));
                    memcpy(&unit[9..], &mut done);
                }
            })),
            ("one parity and the copies of this run", &mut || timed(&mut || {
                let (mut held, mut done) = (held.borrow_mut(), done.borrow_mut());
                for (unit, copied) in run.units.iter().zip(&run.copied) {
                    black_box(fast::parity(&unit[9..]));
                    let first = (*copied).min(CONTAINER);
                    memcpy(&unit[9..9 + first], &mut done[..first]);
                    memcpy(&unit[9..9 + copied - first], &mut held[..copied - first]);
                }
            })),
        ],
    );
    carries(took);
}

fn all_ones() {
    let run = Run { units: vec![vec![0xFF; UNIT]; 160], copied: vec![0; 160] };
    sinks("sink, all ones (nothing is copied, no parity is taken)", &run);
}

// ---- many sinks in turn

/// The buffers of sinks that take their units in turn, one after another in memory; where they share a done buffer there is one.
struct Port {
    count: usize,
    held: Vec<u8>,
    done: Vec<u8>,
    shared: bool,
}

impl Port {
    fn new(count: usize, shared: bool) -> Port {
        Port { count, held: vec![0; count * CONTAINER], done: vec![0; if shared { 1 } else { count } * CONTAINER], shared }
    }

    /// Each sink takes its next unit, `rounds` times. The first is at the unit `at`, and each one further than the sink before it.
    fn play(&mut self, run: &Run, at: &Cell<usize>, rounds: usize, call: &mut dyn FnMut(usize, &[u8], &mut [u8], &mut [u8])) {
        let next = |place: usize| if place + 1 < run.units.len() { place + 1 } else { 0 };
        for _ in 0..rounds {
            let mut place = at.get();
            at.set(next(place));
            for k in 0..self.count {
                let own = if self.shared { 0 } else { k };
                call(k, &run.units[place], &mut self.held[k * CONTAINER..][..CONTAINER], &mut self.done[own * CONTAINER..][..CONTAINER]);
                place = next(place);
            }
        }
    }
}

/// Of one sink that is called again and again, state and buffers lie in the nearest cache. Of many in turn they do not.
fn sinks_in_turn(offset: u16, count: usize, shared: bool) {
    let run = run(offset, false);
    let rounds = 16_000 / count;
    // the same buffers for all, so that none has a better place in memory than another
    let port = RefCell::new(Port::new(count, shared));
    let states = RefCell::new(vec![proved::fresh_sink(); count]);
    let fast_states = RefCell::new(vec![second::Sink::fresh(); count]);
    let (at, fast_at, plain_at) = (Cell::new(0), Cell::new(0), Cell::new(0));
    let proved_turn = |rounds: usize| {
        let mut states = states.borrow_mut();
        port.borrow_mut().play(&run, &at, rounds, &mut |k, unit, held, done| {
            states[k] = proved::sink(states[k], settings(), unit, held, done).state;
        });
    };
    let fast_turn = |rounds: usize| {
        let mut states = fast_states.borrow_mut();
        port.borrow_mut().play(&run, &fast_at, rounds, &mut |k, unit, held, done| {
            let _ = black_box(fast::sink(&mut states[k], &EXPECTED, unit, held, done));
        });
    };
    let kept = held_count(offset);
    let plain_turn = |rounds: usize| {
        port.borrow_mut().play(&run, &plain_at, rounds, &mut |_, unit, held, done| {
            if kept == 0 {
                // it lies inside the unit
                black_box(fast::parity(&unit[9..]));
                return;
            }
            memcpy(&held[..kept], &mut done[..kept]);
            memcpy(&unit[9..9 + CONTAINER - kept], &mut done[kept..]);
            black_box(fast::parity(done));
            memcpy(&unit[UNIT - kept..], &mut held[..kept]);
        });
    };
    proved_turn(run.units.len());
    fast_turn(run.units.len());
    assert!(states.borrow().iter().zip(fast_states.borrow().iter()).all(|(s, f)| s.total == f.unsettled && s.held == usize::from(f.held)));
    let timed = |turn: &dyn Fn(usize)| once(1, &mut || turn(rounds)) / (rounds * count) as f64;
    let took = show(
        &format!("sinks in turn, {count} of them, {}, plain units at offset {offset}", if shared { "one done buffer for all" } else { "each with its own" }),
        TURNS / 10,
        &mut [
            ("proved", &mut || timed(&proved_turn)),
            ("(a) second program, fast", &mut || timed(&fast_turn)),
            ("one parity and the copies of this run", &mut || timed(&plain_turn)),
        ],
    );
    carries(took);
}

// ---- the sources

/// The limit of a container source: one copy of the payload and one parity of the container, by the best plain code.
#[inline(never)]
fn copy_and_parity(payload: &[u8], container: &mut [u8]) -> u8 {
    container[..PAYLOAD].copy_from_slice(payload);
    fast::parity(container)
}

fn sources() {
    let payload = bytes(PAYLOAD, 29);
    let other = bytes(CONTAINER, 13);
    let room = RefCell::new(vec![0u8; UNIT]);
    let given = second::Given { label: LABEL, f2: 1, h4: 2, f3: 3, k3: 4, n1: 5, violations: 3, remote: false };
    // calls in turn, so that one in 16 works a check out; each keeps its own state
    let state = Cell::new((0u8, 0u8));
    let plain_state = Cell::new(second::ContainerSource::fresh());
    let fast_state = RefCell::new(second::ContainerSource::fresh());
    let took = show(
        "container source, calls in turn",
        TURNS,
        &mut [
            ("proved", &mut || once(1600, &mut || {
                let (place, parity) = state.get();
                let mut to = room.borrow_mut();
                let r = unsafe {
                    c::probe_container(
                        black_box(payload.as_ptr()), PAYLOAD, to.as_mut_ptr(), CONTAINER, &TRACE,
                        place, parity, given.label, given.f2, given.h4, given.f3, given.k3, given.n1, given.violations, given.remote,
                    )
                };
                state.set(((r >> 8) as u8, r as u8));
            })),
            ("(a) second program, fast", &mut || once(1600, &mut || {
                let mut to = room.borrow_mut();
                let _ = black_box(fast::container_source(&mut fast_state.borrow_mut(), black_box(&given), &TRACE, black_box(&payload), &mut to[..CONTAINER]));
            })),
            ("second program", &mut || once(1600, &mut || {
                let mut to = room.borrow_mut();
                let r = second::container_source(AU4, plain_state.get(), black_box(given), &TRACE, black_box(&payload), &mut to[..CONTAINER]);
                plain_state.set(r.expect("a container"));
            })),
            ("(b) one parity and one copy", &mut || once(1600, &mut || {
                let mut to = room.borrow_mut();
                black_box(copy_and_parity(black_box(&payload), &mut to[..CONTAINER]));
            })),
        ],
    );
    let mut slowest = 0f64;
    for (what, offset, asked) in [
        ("unit source, plain at offset 0", 0u16, second::Asked::Nothing),
        ("unit source, plain at offset 1", 1, second::Asked::Nothing),
        ("unit source, plain at offset 400", 400, second::Asked::Nothing),
        ("unit source, plain at offset 782", 782, second::Asked::Nothing),
        ("unit source, increment at 400", 400, second::Asked::Increment),
        ("unit source, decrement at 400", 400, second::Asked::Decrement),
    ] {
        let number = asked as u8;
        let unit = show(
            what,
            TURNS,
            &mut [
                ("proved", &mut || once(2000, &mut || {
                    let mut to = room.borrow_mut();
                    black_box(unsafe {
                        c::probe_unit(black_box(other.as_ptr()), CONTAINER, black_box(other.as_ptr()), CONTAINER, to.as_mut_ptr(), UNIT, black_box(offset), 3, number)
                    });
                })),
                ("(a) second program, fast", &mut || once(2000, &mut || {
                    let mut to = room.borrow_mut();
                    let mut s = second::UnitSource { offset: black_box(offset), wait: 3 };
                    let _ = black_box(fast::unit_source(&mut s, asked, black_box(&other), black_box(&other), &mut to));
                    black_box(s);
                })),
                ("second program", &mut || once(2000, &mut || {
                    let mut to = room.borrow_mut();
                    let s = second::UnitSource { offset: black_box(offset), wait: 3 };
                    black_box(second::unit_source(AU4, s, asked, black_box(&other), black_box(&other), &mut to).is_ok());
                })),
                ("one memcpy", &mut || once(2000, &mut || memcpy(black_box(&other), black_box(&mut room.borrow_mut()[..CONTAINER])))),
            ],
        );
        slowest = slowest.max(unit);
    }
    println!("both sources");
    println!("    {:<44} {:>11.0} VC-4", "one core sends, at 8000 units a second", 1e9 / UNITS_A_SECOND / (took + slowest));
    for ais in [false, true] {
        show(
            if ais { "payload call, AIS" } else { "payload call" },
            TURNS,
            &mut [
                ("proved", &mut || once(2000, &mut || {
                    let mut to = room.borrow_mut();
                    black_box(unsafe { c::probe_payload(black_box(other.as_ptr()), CONTAINER, to.as_mut_ptr(), PAYLOAD, ais) });
                })),
                ("(a) second program, fast", &mut || once(2000, &mut || {
                    let mut to = room.borrow_mut();
                    black_box(fast::payload_call(black_box(&other), ais, &mut to[..PAYLOAD]).is_ok());
                })),
                ("second program", &mut || once(2000, &mut || {
                    let mut to = room.borrow_mut();
                    black_box(second::payload_call(AU4, black_box(&other), ais, &mut to[..PAYLOAD]).is_ok());
                })),
            ],
        );
    }
}

// ---- how the cost grows

/// A good catalogue of n records with these traces.
fn catalogue_of(n: usize, trace: fn(usize) -> [u8; 15]) -> Vec<u8> {
    let mut b = Vec::new();
    for k in 0..n {
        b.extend_from_slice(&[0x5A, 0x4D]);
        b.extend_from_slice(&(k as u16 + 1).to_be_bytes());
        b.push(LABEL);
        b.extend_from_slice(&trace(k));
        b.push(0x0F);
    }
    b
}

/// Traces that end in a number of four digits: up to 1000 records they agree in their first 12 characters.
fn numbered(k: usize) -> [u8; 15] {
    let mut trace = *b"CIRCUIT-VC-0000";
    trace[11..].copy_from_slice(format!("{k:04}").as_bytes());
    trace
}

/// Traces that differ in their last two characters alone, with as many as can be that differ in the last alone.
fn differ_last(k: usize) -> [u8; 15] {
    let mut trace = *b"CIRCUIT-VC-0000";
    trace[13] = b'0' + (k / 95) as u8;
    trace[14] = b' ' + (k % 95) as u8;
    trace
}

/// Traces that differ in their first two.
fn differ_first(k: usize) -> [u8; 15] {
    let mut trace = *b"00-CIRCUIT-VC-4";
    trace[0] = b'0' + (k / 95) as u8;
    trace[1] = b' ' + (k % 95) as u8;
    trace
}

/// No trace is repeated, so that all n(n-1)/2 pairs are compared: the most that n records can have, which a pair's time turns into a bound on the check's.
/// What a record itself costs is in a pair's time too, and is most of it where records are few.
fn catalogues() {
    for n in [1usize, 2, 4, 8, 16, 32, 64, 128, 256, 512] {
        pairs_of(n, "that end in a number", numbered);
    }
    // where two traces differ moves a pair's time, so a bound wants the dearest
    pairs_of(512, "that differ in their last two characters", differ_last);
    pairs_of(512, "that differ in their first two characters", differ_first);
}

/// The check of a good catalogue, and what it takes a record and a pair.
fn pairs_of(n: usize, which: &str, trace: fn(usize) -> [u8; 15]) {
    let b = catalogue_of(n, trace);
    let pairs = second::catalogue_check(&b).pairs;
    assert!(pairs == n * (n - 1) / 2 && proved::check(&b) >> 40 == pairs as u64);
    let calls = (200 * 64 / (n * n)).clamp(2, 400);
    let times = show_all(
        &format!("catalogue check, {n} records with traces {which}"),
        if n < 256 { TURNS } else { 100 },
        &mut [
            ("proved", &mut || once(calls, &mut || {
                black_box(unsafe { c::probe_check(black_box(b.as_ptr()), b.len()) });
            })),
            ("second program", &mut || once(calls, &mut || {
                black_box(second::catalogue_check(black_box(&b)));
            })),
        ],
    );
    for (what, took) in ["proved", "second program"].iter().zip(times) {
        let a_pair = if pairs == 0 { "no pair".to_string() } else { format!("{:.2} ns a pair of {pairs}", took / pairs as f64) };
        println!("    {what:<44} {:>11.1} ns a record, {a_pair}", took / n as f64);
    }
}

/// Text in and out. Both check the catalogue, all of whose pairs are compared, so the check alone stands beside them. The fast one compares a number for each
/// trace before it compares traces.
fn spreadsheets() {
    let catalogue = RefCell::new(Box::new([0u8; 10_752]));
    for n in [1usize, 64, 512] {
        let b = catalogue_of(n, numbered);
        let text = second::export(&b).expect("a text");
        assert!(proved::import(&text, &mut catalogue.borrow_mut()) == n as u64 && catalogue.borrow()[..b.len()] == b);
        assert!(fast::import(&text, &mut catalogue.borrow_mut()) == Ok(n) && catalogue.borrow()[..b.len()] == b);
        let calls = (200 * 64 / (n * n)).clamp(2, 400);
        let times = show_all(
            &format!("import, {n} line{}, {} bytes", if n == 1 { "" } else { "s" }, text.len()),
            if n < 256 { TURNS } else { 100 },
            &mut [
                ("proved", &mut || once(calls, &mut || {
                    black_box(unsafe { c::probe_import(black_box(text.as_ptr()), text.len(), &mut **catalogue.borrow_mut()) });
                })),
                ("second program, fast", &mut || once(calls, &mut || {
                    let _ = black_box(fast::import(black_box(&text), &mut catalogue.borrow_mut()));
                })),
                ("second program", &mut || once(calls, &mut || {
                    let _ = black_box(second::import(black_box(&text)));
                })),
                ("proved, the check of the result alone", &mut || once(calls, &mut || {
                    black_box(unsafe { c::probe_check(black_box(b.as_ptr()), b.len()) });
                })),
            ],
        );
        println!("    {:<44} {:>11.1} ns a line, {:.1} ns of them without the check", "proved", times[0] / n as f64, (times[0] - times[3]) / n as f64);
    }
    let b = catalogue_of(512, numbered);
    let text = RefCell::new(Box::new([0u8; 23_552]));
    let want = second::export(&b).expect("a text");
    let length = proved::export(&b, &mut text.borrow_mut()) as usize;
    assert!(text.borrow()[..length] == want);
    let length = fast::export(&b, &mut text.borrow_mut()).expect("a text");
    assert!(text.borrow()[..length] == want);
    show(
        &format!("export, 512 records, {} bytes", want.len()),
        100,
        &mut [
            ("proved", &mut || once(2, &mut || {
                black_box(unsafe { c::probe_export(black_box(b.as_ptr()), b.len(), &mut **text.borrow_mut()) });
            })),
            ("second program, fast", &mut || once(2, &mut || {
                let _ = black_box(fast::export(black_box(&b), &mut text.borrow_mut()));
            })),
            ("second program", &mut || once(2, &mut || {
                let _ = black_box(second::export(black_box(&b)));
            })),
            ("proved, the check alone", &mut || once(2, &mut || {
                black_box(unsafe { c::probe_check(black_box(b.as_ptr()), b.len()) });
            })),
        ],
    );
}

fn stacks() {
    let container = bytes(CONTAINER, 13);
    let mut room = vec![0u8; UNIT];
    let mut done = vec![0u8; CONTAINER];
    let text = bytes(16, 3);
    let catalogue = catalogue_of(512, numbered);
    let mut list = Box::new([0u8; 15898]);
    let mut trace = [0u8; 15];
    println!("stack of each entry point, in bytes");
    stack::show("parity", &mut || {
        black_box(unsafe { c::card_parity(container.as_ptr(), CONTAINER) });
    });
    stack::show("trace check", &mut || {
        black_box(unsafe { c::card_trace_check(text.as_ptr(), 16) });
    });
    stack::show("word reading", &mut || {
        black_box(unsafe { c::card_word_reading(text.as_ptr(), 2) });
    });
    stack::show("container source", &mut || {
        black_box(unsafe { c::probe_container(container.as_ptr(), PAYLOAD, room.as_mut_ptr(), CONTAINER, &TRACE, 0, 0, LABEL, 1, 2, 3, 4, 5, 3, false) });
    });
    stack::show("unit source", &mut || {
        black_box(unsafe { c::probe_unit(container.as_ptr(), CONTAINER, container.as_ptr(), CONTAINER, room.as_mut_ptr(), UNIT, 400, 3, 2) });
    });
    let unit = &run(400, false).units[0];
    let mut s = proved::fresh_sink();
    for _ in 0..3 {
        s = proved::sink(s, settings(), unit, &mut room[..CONTAINER], &mut done).state;
    }
    stack::show("sink (its state and answer, in and out, are counted too)", &mut || {
        black_box(proved::sink(s, settings(), unit, &mut room[..CONTAINER], &mut done));
    });
    stack::show("payload call", &mut || {
        black_box(unsafe { c::probe_payload(container.as_ptr(), CONTAINER, room.as_mut_ptr(), PAYLOAD, false) });
    });
    stack::show("catalogue check", &mut || {
        black_box(unsafe { c::probe_check(catalogue.as_ptr(), catalogue.len()) });
    });
    stack::show("lookup", &mut || {
        black_box(unsafe { c::probe_lookup(catalogue.as_ptr(), catalogue.len(), 512, &mut trace) });
    });
    stack::show("listing", &mut || {
        black_box(unsafe { c::probe_list(catalogue.as_ptr(), catalogue.len(), &mut *list) });
    });
    let text = second::export(&catalogue).expect("a text");
    let mut records = Box::new([0u8; 10_752]);
    stack::show("import", &mut || {
        black_box(unsafe { c::probe_import(text.as_ptr(), text.len(), &mut *records) });
    });
    let mut written = Box::new([0u8; 23_552]);
    stack::show("export", &mut || {
        black_box(unsafe { c::probe_export(catalogue.as_ptr(), catalogue.len(), &mut *written) });
    });
}

fn main() {
    for offset in [0, 1, 400, 782] {
        sinks(&format!("sink, plain units at offset {offset}"), &run(offset, false));
    }
    sinks("sink, an adjustment in every fourth unit, about offset 400", &run(400, true));
    all_ones();
    for offset in [0, 1, 400, 782] {
        for (count, shared) in [(1, false), (100, false), (1000, false), (100, true), (1000, true)] {
            sinks_in_turn(offset, count, shared);
        }
    }
    sources();
    parts();
    catalogues();
    spreadsheets();
    stacks();
}
