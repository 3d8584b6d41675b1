//! The proved sources and the payload call against the second program's: single
//! calls with any number of faults at once, and long runs.

use super::{hex, proved, second, Random, Tally};
use second::{Asked, ContainerSource, Given, UnitSource, AU4};

/// How often each answer of a call came, and how often with a fault that stands later in the order.
struct Met {
    what: &'static str,
    order: &'static [u8],
    times: [u64; 22],
    over: [u64; 22],
}

impl Met {
    fn new(what: &'static str, order: &'static [u8]) -> Self {
        Met { what, order, times: [0; 22], over: [0; 22] }
    }

    /// `faults` are those that the call was given.
    fn note(&mut self, answer: u8, faults: &[u8]) {
        self.times[answer as usize] += 1;
        let after = self.order.iter().skip_while(|number| **number != answer).skip(1);
        if after.into_iter().any(|number| faults.contains(number)) {
            self.over[answer as usize] += 1;
        }
    }

    /// Every answer was met, and every one but the last decided over another fault.
    fn check(&self, t: &mut Tally) {
        for (k, number) in self.order.iter().enumerate() {
            let (times, over) = (self.times[*number as usize], self.over[*number as usize]);
            let last = k + 1 == self.order.len();
            if times < 20 || (!last && over < 20) {
                println!("compare: {}: refusal {number} was met {times} times, {over} of them with a fault that stands later in the order", self.what);
                t.differed += 1;
            }
        }
        if self.times[0] < 20 {
            println!("compare: {}: only {} calls were done", self.what, self.times[0]);
            t.differed += 1;
        }
    }
}

/// Two buffers, of which a difference is shown by its first place.
fn same_bytes(t: &mut Tally, what: &str, of: &dyn Fn() -> String, second: &[u8], proved: &[u8]) {
    let place = second.iter().zip(proved).position(|(a, b)| a != b);
    let shown = place.map(|p| format!("place {p}: second {:02X}, proved {:02X}", second[p], proved[p]));
    t.same(what, of, (second.len(), None), (proved.len(), shown));
}

const CONTAINER: usize = 2349;
const PAYLOAD: usize = 2340;
const UNIT: usize = 2358;

/// A length that is right, or a wrong one: none, about the right one, or that of another buffer.
fn length(r: &mut Random, right: usize, wrong: bool) -> usize {
    if !wrong {
        return right;
    }
    loop {
        let n = [0, 1, right - 1, right + 1, right / 2, CONTAINER, PAYLOAD, UNIT, right + 9][r.below(9)];
        if n != right {
            return n;
        }
    }
}

/// A trace that is not refused: any characters, or spaces but for one.
fn trace(r: &mut Random) -> [u8; 15] {
    let mut t = [b' '; 15];
    if r.below(4) > 0 {
        for c in &mut t {
            *c = 0x20 + r.below(0x5F) as u8;
        }
    }
    t[r.below(15)] = [b'!', b'~', 0x21 + r.below(0x5E) as u8][r.below(3)];
    t
}

/// A trace that is refused by this number: one character or two of any place, the earlier of them below or above; or spaces alone.
fn wrong_trace(r: &mut Random, number: u8) -> [u8; 15] {
    if number == 21 {
        return [b' '; 15];
    }
    let mut t = if r.below(4) == 0 { [b' '; 15] } else { trace(r) };
    let below = [0x00, 0x1F, r.below(0x20) as u8][r.below(3)];
    let above = [0x7F, 0x80, 0xFF, 0x7F + r.below(0x81) as u8][r.below(4)];
    let (first, other) = if number == 5 { (below, above) } else { (above, below) };
    let at = r.below(15);
    t[at] = first;
    if at < 14 && r.below(2) == 0 {
        t[at + 1 + r.below(14 - at)] = [first, other][r.below(2)];
    }
    t
}

fn given(r: &mut Random) -> Given {
    Given {
        label: 1 + r.below(0xFE) as u8,
        f2: r.byte(),
        h4: r.byte(),
        f3: r.byte(),
        k3: r.byte(),
        n1: r.byte(),
        violations: r.below(9) as u8,
        remote: r.below(2) == 1,
    }
}

/// Which of n faults a call gets: none of them in a quarter of the calls, one in another, any number in the rest.
fn faults(r: &mut Random, n: usize) -> Vec<bool> {
    let mut f = vec![false; n];
    match r.below(4) {
        0 => {}
        1 => f[r.below(n)] = true,
        _ => f.iter_mut().for_each(|x| *x = r.below(3) == 0),
    }
    f
}

fn container_calls(r: &mut Random, t: &mut Tally) {
    // a trace has one of 5, 20 and 21, in one place of the order
    let mut met = Met::new("container source", &[8, 4, 5, 20, 21, 2, 3, 6]);
    for _ in 0..3000 {
        let f = faults(r, 6);
        let order = &[8, 4, [5, 20, 21][r.below(3)], 2, 3, 6];
        let s = ContainerSource {
            place: if f[0] { [16, 17, 128, 255][r.below(4)] } else { r.below(16) as u8 },
            parity: r.byte(),
        };
        let mut g = given(r);
        if f[1] {
            g.label = [0x00, 0xFF][r.below(2)];
        }
        let characters = if f[2] { wrong_trace(r, order[2]) } else { trace(r) };
        let n = length(r, PAYLOAD, f[3]);
        let payload = r.bytes(n);
        let n = length(r, CONTAINER, f[4]);
        let before = r.bytes(n);
        if f[5] {
            g.violations = [9, 15, 16, 255][r.below(4)];
        }
        one_container(t, &mut met, s, g, &characters, &payload, &before, &given_faults(order, &f));
    }
    met.check(t);
}

fn given_faults(order: &[u8], f: &[bool]) -> Vec<u8> {
    order.iter().zip(f).filter(|(_, given)| **given).map(|(number, _)| *number).collect()
}

/// One call of both, and what it left; the state after it.
#[allow(clippy::too_many_arguments)]
fn one_container(t: &mut Tally, met: &mut Met, s: ContainerSource, g: Given, characters: &[u8; 15], payload: &[u8], before: &[u8], faults: &[u8]) -> (ContainerSource, Vec<u8>) {
    let mut want = before.to_vec();
    let answer = second::container_source(AU4, s, g, characters, payload, &mut want);
    let (number, answer) = match answer {
        Ok(next) => (0, ("0".to_string(), next)),
        Err(refusal) => (refusal.number, (refusal.to_string(), s)),
    };
    let mut got = before.to_vec();
    let to_proved = proved::Given { label: g.label, unexamined: [g.f2, g.h4, g.f3, g.k3, g.n1], violations: g.violations, remote: g.remote };
    let (refusal, (place, parity)) = proved::container_source((s.place, s.parity), to_proved, characters, payload, &mut got);
    let said = (refusal.to_string(), ContainerSource { place, parity });
    let of = || format!("{s:?} {g:?} trace {}, payload {} bytes, container {} bytes, faults {faults:?}", hex(characters), payload.len(), before.len());
    t.same("container source", &of, &answer, &said);
    same_bytes(t, "container source's container", &of, &want, &got);
    met.note(number, faults);
    (answer.1, want)
}

fn unit_calls(r: &mut Random, t: &mut Tally) {
    let order = &[8, 3, 1, 7];
    let mut met = Met::new("unit source", order);
    for round in 0..4000 {
        let f = faults(r, 4);
        let mut s = UnitSource {
            offset: if round % 2 == 0 { [0, 1, 2, 521, 522, 781, 782][r.below(7)] } else { r.below(783) as u16 },
            wait: 3,
        };
        let mut asked = [Asked::Nothing, Asked::Increment, Asked::Decrement][r.below(3)];
        if f[3] {
            s.wait = r.below(3) as u8;
            asked = [Asked::Increment, Asked::Decrement][r.below(2)];
        } else if asked == Asked::Nothing {
            s.wait = r.below(4) as u8;
        }
        if f[0] {
            // a wait out of range would undo the fault of one too short
            match if f[3] { 0 } else { r.below(2) } {
                0 => s.offset = [783, 784, 1023, 1024, 65535][r.below(5)],
                _ => s.wait = [4, 5, 255][r.below(3)],
            }
        }
        let which = r.below(3); // the current container, the next, or both
        let n = length(r, CONTAINER, f[1] && which != 1);
        let current = r.bytes(n);
        let n = length(r, CONTAINER, f[1] && which != 0);
        let next = r.bytes(n);
        let n = length(r, UNIT, f[2]);
        let before = r.bytes(n);
        one_unit(t, &mut met, s, asked, &current, &next, &before, &given_faults(order, &f));
    }
    met.check(t);
}

/// One call of both, and what it left; the count and the state after it.
#[allow(clippy::too_many_arguments)]
fn one_unit(t: &mut Tally, met: &mut Met, s: UnitSource, asked: Asked, current: &[u8], next: &[u8], before: &[u8], faults: &[u8]) -> (u8, UnitSource) {
    let mut want = before.to_vec();
    let (number, ended, after) = match second::unit_source(AU4, s, asked, current, next, &mut want) {
        Ok((ended, after)) => (0, ended, after),
        Err(refusal) => (refusal.number, 0, s),
    };
    let mut got = before.to_vec();
    let said = proved::unit_source((s.offset, s.wait), asked as u8, current, next, &mut got);
    let of = || format!("{s:?} {asked:?}, containers {} and {} bytes, unit {} bytes, faults {faults:?}", current.len(), next.len(), before.len());
    t.same("unit source", &of, (number, ended, (after.offset, after.wait)), said);
    same_bytes(t, "unit source's unit", &of, &want, &got);
    met.note(number, faults);
    (ended, after)
}

fn payload_calls(r: &mut Random, t: &mut Tally) {
    let order = &[3, 2];
    let mut met = Met::new("payload call", order);
    for _ in 0..1000 {
        let f = faults(r, 2);
        let n = length(r, CONTAINER, f[0]);
        let container = r.bytes(n);
        let n = length(r, PAYLOAD, f[1]);
        let before = r.bytes(n);
        let ais = r.below(2) == 1;
        let mut want = before.clone();
        let answer = second::payload_call(AU4, &container, ais, &mut want).map_or_else(|refusal| refusal.number, |()| 0);
        let mut got = before.clone();
        let said = proved::payload_call(&container, ais, &mut got);
        let of = || format!("container {} bytes, payload {} bytes, AIS {ais}", container.len(), before.len());
        t.same("payload call", &of, answer, said);
        same_bytes(t, "payload call's payload", &of, &want, &got);
        met.note(answer, &given_faults(order, &f));
    }
    met.check(t);
}

/// A path from a fresh start: containers in order, requests in any, refused ones among them; each payload comes back from its container.
fn runs(r: &mut Random, t: &mut Tally) {
    let (container, unit) = (ContainerSource::fresh(), UnitSource::fresh());
    t.same("fresh sources", &|| "nothing".into(), ((container.place, container.parity), (unit.offset, unit.wait)), proved::fresh());
    for start in [0u16, 1, 521, 522, 781, 782] {
        let mut met = [Met::new("containers of a run", &[]), Met::new("units of a run", &[])];
        let (mut source, characters) = (ContainerSource::fresh(), trace(r));
        let mut unit = UnitSource { offset: start, wait: 3 };
        let mut queue: Vec<Vec<u8>> = Vec::new();
        let mut line = r.bytes(UNIT);
        for _ in 0..100 {
            while queue.len() < 2 {
                let (g, payload, before) = (given(r), r.bytes(PAYLOAD), r.bytes(CONTAINER));
                let (after, container) = one_container(t, &mut met[0], source, g, &characters, &payload, &before, &[]);
                let mut back = r.bytes(PAYLOAD);
                let said = proved::payload_call(&container, false, &mut back);
                t.same("payload call", &|| format!("{g:?}"), 0, said);
                same_bytes(t, "payload handed back", &|| format!("{g:?}"), &payload, &back);
                source = after;
                queue.push(container);
            }
            // about every second request is an adjustment, so that many come too soon
            let asked = [Asked::Nothing, Asked::Increment, Asked::Nothing, Asked::Decrement][r.below(4)];
            let (ended, after) = one_unit(t, &mut met[1], unit, asked, &queue[0], &queue[1], &line, &[]);
            queue.drain(..ended as usize);
            unit = after;
            line[r.below(UNIT)] ^= 0x40; // whatever stands in the buffer
        }
    }
}

pub fn compare(r: &mut Random, t: &mut Tally) {
    container_calls(r, t);
    unit_calls(r, t);
    payload_calls(r, t);
    runs(r, t);
}
