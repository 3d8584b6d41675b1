//! The fault load: `load UNITS [SEED]` feeds about UNITS units of random scripts, damaged and not, to the proved card and to the second program, call by
//! call, and counts disagreements. Of every call the answer, the state and each lent byte are compared, refused calls too; and each container that the sink
//! hands back, which the proved card takes through its view. After some units one more call is made with a state that no call need have left: its numbers in
//! and out of their ranges, the total near its stop.
//!
//! Built and run by load/run. The seed is printed; the same seed and number give the same run; how far a long one is it says on standard error. It fails where anything differs, and where a long run has not met each case of the
//! sink's rules that the second program names. Links libprobe_sources.a and libprobe_sink.a. With FENCED in the environment every
//! block that is lent has a fence (tests/fence.rs).

#[path = "../second/bench.rs"]
mod bench;
#[path = "../tests/fence.rs"]
mod fence;
#[path = "../tests/proved.rs"]
mod proved;
#[path = "../tests/random.rs"]
mod random;
#[path = "../tests/scripts.rs"]
mod scripts;
#[path = "../second/second.rs"]
mod second;

use bench::words::next_line;
use bench::{Bench, Command};
use proved::c::{Accepted, Defect, Flags, Gathered, Monitor, Parity, Plain, Refusal, Rows, Run, Settings, Shown, Told, Trace, Watch};
use random::Random;
use second::coverage::{Counts, NAMES};
use second::{Asked, Ended, Pointer, Sink, AU4};
use std::fmt::Write as _;
use std::time::{Duration, Instant};

/// How long a script is. A shorter one would not settle; a longer one starts fresh less often.
const SCRIPT: usize = 480;
/// From how many units on each named case must have been met.
const LONG: usize = 100_000;
/// How many disagreements are printed.
const PRINTED: u64 = 10;
/// How long it is silent at least between two lines that say how far it is.
const BETWEEN: Duration = Duration::from_secs(5);

// ---- the second program's state, as the proved sink has it

fn defect(w: second::Watch) -> Defect {
    Defect { with: if w.last { w.run } else { 0 }, without: if w.last { 0 } else { w.run }, stands: w.stands }
}

/// What has no meaning, as the value of a run of none, is 0 here.
fn plain(s: &Sink) -> Plain {
    let (kind, offset) = match s.pointer.state {
        Pointer::Lost => (0, 0),
        Pointer::Alarm => (1, 0),
        Pointer::Normal(offset) => (2, offset),
    };
    let mut chars = [0; 15];
    let gathered = usize::from(s.place.min(16));
    if gathered > 1 {
        chars[..gathered - 1].copy_from_slice(&s.message[1..gathered]);
    }
    Plain {
        kind,
        offset,
        rows: Rows { alarms: s.pointer.alarm_words, news: s.pointer.enabled_words, invalids: s.pointer.invalid_words },
        run: Run { count: s.pointer.run, value: if s.pointer.run > 0 { s.pointer.run_value } else { 0 } },
        wait: s.pointer.wait,
        held: usize::from(s.held),
        monitor: Monitor {
            parity: Parity { known: s.parity.is_some(), value: s.parity.unwrap_or(0) },
            watch: Watch {
                label: Accepted {
                    last: if s.label_run > 0 { s.label } else { 0 },
                    run: s.label_run,
                    known: s.accepted_label.is_some(),
                    value: s.accepted_label.unwrap_or(0),
                },
                plm: s.plm,
                uneq: defect(s.uneq),
                rdi: defect(s.remote),
                trace: Trace {
                    gathered: Gathered { place: s.place, start: if gathered > 0 { s.message[0] } else { 0 }, chars },
                    last: if s.message_run > 0 { s.characters } else { [0; 15] },
                    run: s.message_run,
                    known: s.accepted_trace.is_some(),
                    accepted: s.accepted_trace.unwrap_or([0; 15]),
                    without: s.without,
                    tim: s.tim,
                },
            },
        },
        total: s.unsettled,
    }
}

/// The proved sink's state with 0 for what has no meaning, so that two are compared by what they say.
fn meaning(mut p: Plain) -> Plain {
    if p.kind != 2 {
        p.offset = 0;
    }
    if p.run.count == 0 {
        p.run.value = 0;
    }
    let m = &mut p.monitor;
    if !m.parity.known {
        m.parity.value = 0;
    }
    let w = &mut m.watch;
    if w.label.run == 0 {
        w.label.last = 0;
    }
    if !w.label.known {
        w.label.value = 0;
    }
    let t = &mut w.trace;
    if t.gathered.place == 0 {
        t.gathered.start = 0;
    }
    for k in usize::from(t.gathered.place.max(1) - 1)..15 {
        t.gathered.chars[k] = 0;
    }
    if t.run == 0 {
        t.last = [0; 15];
    }
    if !t.known {
        t.accepted = [0; 15];
    }
    p
}

// ---- what a call answers, as the second program's bench prints it, with no sums of bytes: the bytes themselves are compared

/// The names of those that stand, as the bench prints them.
fn names<const N: usize>(list: [(bool, &str); N]) -> String {
    let those: Vec<&str> = list.iter().filter(|(stands, _)| *stands).map(|(_, name)| *name).collect();
    if those.is_empty() { "-".to_string() } else { those.join(",") }
}

/// The refusal of a call of the proved sink, its place too.
fn refusal(s: &Shown) -> Refusal {
    Refusal { number: s.number, place: s.place }
}

/// What is told of a container: how many columns are violated, which where there are any, and the violations returned.
fn of_container(t: &Told) -> String {
    let columns = if t.violated == 0 { String::new() } else { format!(",p={:02X}", t.violated) };
    format!("v={}{columns},fe={}", t.violated.count_ones(), t.returned)
}

fn told(s: &Shown) -> String {
    if s.number != 0 {
        return format!("refused {}", refusal(s));
    }
    let p = &s.state;
    let (state, offset) = match p.kind {
        0 => ("lost", "-".to_string()),
        1 => ("alarm", "-".to_string()),
        _ => ("normal", p.offset.to_string()),
    };
    let mut text = format!("ok st={state} off={offset} held={} ended={}", p.held, s.ended.number);
    if s.ended.completed {
        let _ = write!(text, " c=D@0,{}", of_container(&s.ended.first));
    }
    if s.ended.inside {
        let _ = write!(text, " c=U@{},{}", s.ended.place, of_container(&s.ended.second));
    }
    let a = &s.actions;
    let d = &s.defects;
    let c = &s.causes;
    let _ = write!(
        text,
        " ssf={} tsf={} ais={} rdi={} d={} cause={} settled={} total={}",
        u8::from(a.ssf),
        u8::from(a.tsf),
        u8::from(a.ais),
        u8::from(a.rdi),
        names([(d.uneq, "dUNEQ"), (d.tim, "dTIM"), (d.plm, "dPLM"), (d.rdi, "dRDI")]),
        names([
            (c.ais, "cAIS"),
            (c.lop, "cLOP"),
            (c.ssf, "cSSF"),
            (c.uneq, "cUNEQ"),
            (c.tim, "cTIM"),
            (c.rdi, "cRDI"),
            (c.plm, "cPLM"),
        ]),
        u8::from(s.settled),
        p.total
    );
    text
}

/// The same of a line that the second program's bench printed.
fn printed(line: &str) -> String {
    let mut words = Vec::new();
    for word in line.split_whitespace() {
        if word.starts_with("hb=") || word.starts_with("db=") {
            continue;
        }
        match word.strip_prefix("c=") {
            // place, sum, and what is told of it
            Some(rest) => {
                let parts: Vec<&str> = rest.splitn(3, ',').collect();
                words.push(format!("c={},{}", parts[0], parts[2]));
            }
            None => words.push(word.to_string()),
        }
    }
    words.join(" ")
}

// ---- the load

/// The proved card on the path that the second program's bench drives.
struct Card {
    containers: proved::Path,
    units: proved::Unit,
    queue: Vec<Vec<u8>>,
    seed: u32,
    sink: Plain,
    held: Box<[u8]>,
    done: Box<[u8]>,
}

impl Card {
    fn fresh() -> Self {
        let (containers, units) = proved::fresh();
        let buffer = || vec![0; AU4.container()].into_boxed_slice();
        Card { containers, units, queue: Vec::new(), seed: 0, sink: proved::fresh_sink(), held: buffer(), done: buffer() }
    }
}

struct Load {
    r: Random,
    script: u64,
    line: usize,
    units: usize,
    calls: u64,
    containers: u64,
    states: u64,
    refused_8: u64,
    stopped: u64,
    differed: u64,
}

impl Load {
    fn same<T: PartialEq + std::fmt::Debug>(&mut self, what: &str, second: T, proved: T) {
        if second != proved {
            self.differed += 1;
            if self.differed <= PRINTED {
                println!("load: {what} differs at line {} of script {}: second {second:?}, proved {proved:?}", self.line, self.script);
            }
        }
    }

    fn same_bytes(&mut self, what: &str, second: &[u8], proved: &[u8]) {
        if second != proved {
            let place = second.iter().zip(proved).position(|(a, b)| a != b);
            self.same(what, (second.len(), None), (proved.len(), place.map(|p| (p, second[p], proved[p]))));
        }
    }

    /// `src`: the containers that are asked for, then the unit. `said` is what the second program's bench printed, and `b` as it is after the line.
    fn source(&mut self, card: &mut Card, asked: u8, b: &Bench, before: &[u8], said: &str) {
        let given = proved::Given {
            label: b.given.label,
            unexamined: [b.given.f2, b.given.h4, b.given.f3, b.given.k3, b.given.n1],
            violations: b.given.violations,
            remote: b.given.remote,
        };
        let mut answer = String::new();
        while card.queue.len() < 2 {
            let mut container = vec![0; AU4.container()];
            let (refusal, after) = proved::container_source(card.containers, given, &b.sent_trace, &bench::payload(card.seed), &mut container);
            self.calls += 1;
            if refusal.number != 0 {
                self.same("the state after a refused container", card.containers, after);
                self.same_bytes("the room for a refused container", &vec![0; AU4.container()], &container);
                answer = format!("container refused {refusal}");
                break;
            }
            card.containers = after;
            card.queue.push(container);
            card.seed = card.seed.wrapping_add(1);
        }
        if answer.is_empty() {
            let mut line = before.to_vec();
            line.resize(AU4.unit(), 0);
            let (number, ended, after) = proved::unit_source(card.units, asked, &card.queue[0], &card.queue[1], &mut line);
            self.calls += 1;
            self.same_bytes("the unit", &b.line, &line);
            card.units = after;
            card.queue.drain(..usize::from(ended));
            answer = if number != 0 { format!("unit refused {number}") } else { format!("unit ended={ended} off={}", after.0) };
        }
        let words: Vec<&str> = said.split_whitespace().filter(|w| !w.starts_with("word=") && !w.starts_with("fnv=")).collect();
        self.same("the source's answer", words.join(" "), answer);
        self.same("the container source's state", (b.containers.place, b.containers.parity), card.containers);
        self.same("the unit source's state", (b.units.offset, b.units.wait), card.units);
        let queued: Vec<&[u8]> = b.queue.iter().map(|c| &c[..]).collect();
        let made: Vec<&[u8]> = card.queue.iter().map(|c| &c[..]).collect();
        if queued != made {
            self.same("a container", "one", "another");
        }
    }

    fn sink(&mut self, card: &mut Card, b: &Bench, said: &str) {
        let e = &b.expected;
        let unit: Box<[u8]> = b.line.clone().into();
        let shown = proved::sink(proved::between_fields_0(&card.sink), settings(e), &unit, &mut card.held, &mut card.done);
        self.calls += 1;
        self.same("the sink's answer", printed(said), told(&shown));
        if shown.number != 0 {
            self.same("the state after a refusal", card.sink, shown.state);
        }
        card.sink = shown.state;
        self.same("the sink's state", plain(&b.sink), meaning(card.sink));
        self.same_bytes("held", &b.held, &card.held);
        self.same_bytes("done", &b.done, &card.done);
        self.handed("handed back", &b.ended, (&b.line, &b.done), &shown, (&unit, &card.done));
    }

    /// What a call handed back, of the second program by its own places and of the proved card through the view: as many containers, in one order, byte for byte. A buffer that is a
    /// byte too short is left as it was. Of each program the unit and the done buffer are given.
    fn handed(&mut self, what: &str, ended: &[Ended], second: (&[u8], &[u8]), shown: &Shown, proved: (&[u8], &[u8])) {
        for k in 0..=2 {
            let want = ended.get(k).map_or(&[][..], |x| x.place.container(AU4, second.0, second.1));
            let mut room = vec![0xEE; AU4.container()].into_boxed_slice();
            let number = proved::handed(shown.ended, proved.0, proved.1, k, &mut room);
            self.same_bytes(what, want, &room[..number]);
            self.same("what lies behind it", true, room[number..].iter().all(|x| *x == 0xEE));
            self.containers += u64::from(number > 0);
            if number > 0 {
                let mut short = vec![0xEE; number - 1].into_boxed_slice();
                self.same("the answer to a short buffer", 0, proved::handed(shown.ended, proved.0, proved.1, k, &mut short));
                self.same("a short buffer", true, short.iter().all(|x| *x == 0xEE));
            }
        }
    }

    /// One call with a state made from where the path stands, for the unit on the line.
    fn any_state(&mut self, b: &Bench) {
        let s = self.state(&b.sink);
        let e = &b.expected;
        let (mut held, mut done): (Box<[u8]>, Box<[u8]>) = (b.held.clone().into(), b.done.clone().into());
        let (mut held_2, mut done_2) = (b.held.clone(), b.done.clone());
        let unit: Box<[u8]> = b.line.clone().into();
        let given = plain(&s);
        let shown = proved::sink(proved::between_fields_0(&given), settings(e), &unit, &mut held, &mut done);
        self.states += 1;
        match second::sink(AU4, &s, e, &b.line, &mut held_2, &mut done_2, &mut |_| {}) {
            Err(refusal) => {
                self.same("the refusal of any state", refusal.to_string(), crate::refusal(&shown).to_string());
                self.same("the state after its refusal", given, shown.state);
                self.refused_8 += u64::from(refusal.number == 8);
            }
            Ok((after, answer)) => {
                self.same("the answer to any state", 0, shown.number);
                self.same("the state after any state", plain(&after), meaning(shown.state));
                self.same("settled after any state", answer.settled, shown.settled);
                let c = &shown.causes;
                self.same("the causes after any state", answer.causes, [c.ais, c.lop, c.ssf, c.uneq, c.tim, c.rdi, c.plm]);
                let ended: Vec<(u8, u8)> = answer.ended.iter().map(|x| (x.columns, x.returned)).collect();
                let x = &shown.ended;
                let both = [(x.completed, x.first), (x.inside, x.second)];
                let told: Vec<(u8, u8)> = both.iter().filter(|(is, _)| *is).map(|(_, t)| (t.violated, t.returned)).collect();
                self.same("what ended after any state", ended, told);
                self.handed("handed back after any state", &answer.ended, (&b.line, &done_2), &shown, (&unit, &done));
                self.stopped += u64::from(s.unsettled == u16::MAX && !answer.settled);
            }
        }
        self.same_bytes("held after any state", &held_2, &held);
        self.same_bytes("done after any state", &done_2, &done);
    }

    /// The state with some of its numbers changed, within their ranges for the most part. Where one is outside, it is the only one.
    fn state(&mut self, from: &Sink) -> Sink {
        let r = &mut self.r;
        let mut s = from.clone();
        for _ in 0..1 + r.below(4) {
            match r.below(14) {
                0 => s.pointer.alarm_words = r.below(4) as u8,
                1 => s.pointer.enabled_words = r.below(9) as u8,
                2 => s.pointer.invalid_words = r.below(9) as u8,
                3 => s.pointer.run = r.below(4) as u8,
                4 => s.pointer.run_value = [0, 1, 400, 782, r.below(783) as u16][r.below(5)],
                5 => s.pointer.wait = r.below(4) as u8,
                6 => s.label_run = r.below(6) as u8,
                7 => s.uneq = second::Watch { last: r.below(2) == 0, run: r.below(6) as u8, stands: r.below(2) == 0 },
                8 => s.remote = second::Watch { last: r.below(2) == 0, run: r.below(6) as u8, stands: r.below(2) == 0 },
                9 => s.message_run = r.below(4) as u8,
                10 => s.without = [0, 46, 47, 48, r.below(49) as u8][r.below(5)],
                11 => s.tim = !s.tim,
                12 => s.parity = [None, Some(r.byte())][r.below(2)],
                _ => s.unsettled = [0, 65_533, 65_534, 65_535][r.below(4)],
            }
        }
        if r.below(3) == 0 {
            match r.below(11) {
                0 => s.pointer.alarm_words = 4 + r.below(252) as u8,
                1 => s.pointer.enabled_words = 9 + r.below(247) as u8,
                2 => s.pointer.invalid_words = 9 + r.below(247) as u8,
                3 => s.pointer.run = 4 + r.below(252) as u8,
                4 => {
                    s.pointer.run = 1;
                    s.pointer.run_value = 783 + r.below(64_000) as u16;
                }
                5 => s.pointer.wait = 4 + r.below(252) as u8,
                6 => s.held = s.held.wrapping_add(1 + r.below(65_535) as u16),
                7 => s.label_run = 6 + r.below(250) as u8,
                8 => s.place = 16 + r.below(240) as u8,
                9 => s.message_run = 4 + r.below(252) as u8,
                _ => s.without = 49 + r.below(207) as u8,
            }
        }
        s
    }

    /// One script on both. Every case that the second program meets is counted.
    fn script(&mut self, seed: u64, units: usize, counts: &mut Counts) {
        self.script = seed;
        let text = scripts::script(seed, units);
        let mut b = Bench::new();
        let mut card = Card::fresh();
        let mut input = &text[..];
        let mut line = Vec::new();
        self.line = 0;
        while next_line(&mut input, &mut line).expect("it is all there") {
            self.line += 1;
            // Call by call, those of a `run` too.
            for command in b.commands(&line, self.line, &mut |name| counts.note(name)).unwrap_or_default() {
                let before = if matches!(command, Command::Src(_)) { b.line.clone() } else { Vec::new() };
                let said = b.play(&command, &mut |name| counts.note(name));
                match command {
                    Command::Fresh => card = Card::fresh(),
                    Command::Fill(..) | Command::Lens(..) => {
                        card.held = b.held.clone().into();
                        card.done = b.done.clone().into();
                    }
                    Command::Src(asked) => {
                        let asked = match asked {
                            Asked::Nothing => 0,
                            Asked::Increment => 1,
                            Asked::Decrement => 2,
                        };
                        self.source(&mut card, asked, &b, &before, &said);
                    }
                    Command::Sink => {
                        self.units += 1;
                        self.sink(&mut card, &b, &said);
                        if self.r.below(8) == 0 {
                            self.any_state(&b);
                        }
                    }
                    _ => {}
                }
            }
        }
    }
}

fn settings(e: &second::Expected) -> Settings {
    let flags = Flags { monitored: e.monitored, rdi: e.rdi_reported, ssf: e.ssf_reported, ais: e.ais_reported };
    Settings { label: e.label, trace: e.trace, flags }
}

fn main() {
    if fence::touched() {
        return;
    }
    let arguments: Vec<Option<u64>> = std::env::args().skip(1).map(|text| text.parse().ok()).collect();
    let (units, seed) = match arguments[..] {
        [Some(units)] if units > 0 => (units as usize, 1),
        [Some(units), Some(seed)] if units > 0 && seed > 0 => (units as usize, seed),
        _ => {
            eprintln!("usage: load UNITS [SEED]  (numbers from 1 up; the seed is 1 where none is given)");
            std::process::exit(2);
        }
    };
    println!("load: {units} units, seed {seed}");
    let mut counts = Counts::new();
    let mut load = Load { r: Random(seed), script: 0, line: 0, units: 0, calls: 0, containers: 0, states: 0, refused_8: 0, stopped: 0, differed: 0 };
    let mut script = seed;
    let mut scripts = 0;
    let mut told = (0, Instant::now());
    while load.units < units {
        load.script(script, SCRIPT.min(units - load.units), &mut counts);
        script = script.wrapping_add(1);
        scripts += 1;
        // Nine times at most, and not in a run that is soon over.
        let tenths = (load.units as u128 * 10 / units as u128).min(10);
        if tenths > told.0 && tenths < 10 && told.1.elapsed() >= BETWEEN {
            eprintln!("load: {} of {units} units, {} disagreements so far", load.units, load.differed);
            told = (tenths, Instant::now());
        }
    }
    let unmet: Vec<&str> = counts.unmet();
    println!(
        "load: {} units of {scripts} scripts, {} calls compared, {} containers handed back, and {} calls with any state ({} refused with 8, {} at the total's stop); {} of {} cases of the rules met; {} disagreements",
        load.units,
        load.calls,
        load.containers,
        load.states,
        load.refused_8,
        load.stopped,
        NAMES.len() - unmet.len(),
        NAMES.len(),
        load.differed
    );
    let mut failed = load.differed > 0;
    if load.units >= LONG && !(unmet.is_empty() && load.refused_8 >= 100 && load.stopped >= 100) {
        println!("load: too little was met; not met: {unmet:?}");
        failed = true;
    }
    std::process::exit(i32::from(failed));
}
