//! The sink: fed by a source of its own shape, and container by container.

use super::*;

fn quiet() -> impl FnMut(&'static str) {
    |_| {}
}

/// All reported.
fn expects(trace: &[u8; 15]) -> Expected {
    Expected {
        label: 0x12,
        trace: *trace,
        monitored: true,
        rdi_reported: true,
        ssf_reported: true,
        ais_reported: true,
    }
}

/// A source and a sink joined: each unit fed with what was asked of the
/// source, an answer for each.
struct Path {
    shape: Shape,
    made: Vec<Vec<u8>>,
    current: usize,
    source: UnitSource,
    sink: Sink,
    held: Vec<u8>,
    done: Vec<u8>,
    unit: Vec<u8>,
}

impl Path {
    fn new(shape: Shape, offset: u16, seed: u32) -> Self {
        let mut seed = seed;
        Path {
            shape,
            made: containers(shape, 420, &padded(b"03E5"), &mut seed),
            current: 0,
            source: UnitSource { offset, wait: 3 },
            sink: Sink::fresh(),
            held: vec![0x77; shape.container()],
            done: vec![0x88; shape.container()],
            unit: vec![0; shape.unit()],
        }
    }

    fn step(&mut self, asked: Asked) -> Answer {
        let shape = self.shape;
        let (current, next) = (&self.made[self.current], &self.made[self.current + 1]);
        let (ended, after) = unit_source(shape, self.source, asked, current, next, &mut self.unit).unwrap();
        self.source = after;
        let expected = expects(&padded(b"03E5"));
        let (sink_after, answer) =
            sink(shape, &self.sink, &expected, &self.unit, &mut self.held, &mut self.done, &mut quiet()).unwrap();
        self.sink = sink_after;
        assert!(self.sink.well_formed(shape));
        for (index, one) in answer.ended.iter().enumerate() {
            let container = match one.place {
                Place::Done => &self.done[..],
                Place::Unit(from) => &self.unit[from..from + shape.container()],
            };
            // Handed back as it was sent.
            let back = usize::from(ended) - answer.ended.len() + index;
            assert_eq!(container, &self.made[self.current + back][..]);
            assert_eq!(one.columns, 0x00);
        }
        self.current += usize::from(ended);
        answer
    }

    fn places(&mut self, asked: Asked) -> Vec<Place> {
        self.step(asked).ended.iter().map(|one| one.place).collect()
    }
}

over_both!(p5_ends_two_p2_none_and_p3_starts_in_h3_and_a_step_before_the_end);
fn p5_ends_two_p2_none_and_p3_starts_in_h3_and_a_step_before_the_end(shape: Shape) {
    let (step, head, last) = (shape.step, shape.head(), shape.last_value());
    // "byte offset 2346"
    let all_but_a_step = shape.container() - step;
    let mut path = Path::new(shape, 1, 5);
    assert_eq!(path.places(Asked::Nothing), []);
    assert_eq!(path.places(Asked::Nothing), []);
    // Rule 3: begun here, none ended.
    assert_eq!(path.places(Asked::Nothing), []);
    assert_eq!(usize::from(path.sink.held), all_but_a_step);
    assert_eq!(path.places(Asked::Nothing), [Place::Done]);
    // P5
    assert_eq!(path.places(Asked::Decrement), [Place::Done, Place::Unit(head)]);
    assert_eq!((path.sink.pointer.state, path.sink.held), (Pointer::Normal(0), 0));
    for _ in 0..3 {
        assert_eq!(path.places(Asked::Nothing), [Place::Unit(head)]);
    }
    // P2
    assert_eq!(path.places(Asked::Increment), []);
    assert_eq!((path.sink.pointer.state, usize::from(path.sink.held)), (Pointer::Normal(1), all_but_a_step));
    for _ in 0..3 {
        assert_eq!(path.places(Asked::Nothing), [Place::Done]);
    }
    path.places(Asked::Decrement);
    for _ in 0..3 {
        path.places(Asked::Nothing);
    }
    // P3
    let (held, done) = (path.held.clone(), path.done.clone());
    assert_eq!(path.places(Asked::Decrement), [Place::Unit(2 * step)]);
    assert_eq!((path.sink.pointer.state, usize::from(path.sink.held)), (Pointer::Normal(last), step));
    assert_eq!(path.held[..step], path.unit[head + all_but_a_step..]);
    assert_eq!(path.held[step..], held[step..]);
    assert_eq!(path.done, done);
    for _ in 0..3 {
        assert_eq!(path.places(Asked::Nothing), [Place::Done]);
    }
    // P4: no container begins in its own unit.
    let held = path.held.clone();
    assert_eq!(path.places(Asked::Increment), [Place::Done]);
    assert_eq!((path.sink.pointer.state, path.sink.held), (Pointer::Normal(0), 0));
    assert_eq!(path.held, held);
}

over_both!(a_good_path_settles_and_hands_back_every_container);
fn a_good_path_settles_and_hands_back_every_container(shape: Shape) {
    for (seed, offset) in marked_offsets(shape).into_iter().enumerate() {
        let mut path = Path::new(shape, offset, 11 + seed as u32);
        let mut seed = 3 + seed as u32;
        for unit in 1..=300 {
            let asked = match next(&mut seed) % 4 {
                0 if path.source.wait == 3 && unit > 3 => Asked::Increment,
                1 if path.source.wait == 3 && unit > 3 => Asked::Decrement,
                _ => Asked::Nothing,
            };
            let answer = path.step(asked);
            if unit > 66 {
                assert!(answer.settled);
                assert!(path.sink.accepted_trace.is_some());
                assert!(!path.sink.tim && !path.sink.uneq.stands);
            }
            assert_eq!(answer.ssf, unit < 3);
            assert_eq!(path.sink.pointer.state, if unit < 3 { Pointer::Lost } else { Pointer::Normal(path.source.offset) });
        }
    }
}

/// Feeds single containers to a sink in normal state at offset 0.
fn feed(shape: Shape, s: &mut Sink, expected: &Expected, j1: u8, c2: u8, g1: u8) -> Answer {
    let mut unit = vec![0; shape.unit()];
    unit[0] = 0x68;
    let container = &mut unit[shape.head()..];
    container[0] = j1;
    container[2 * shape.columns] = c2;
    container[3 * shape.columns] = g1;
    let (mut held, mut done) = (vec![0; shape.container()], vec![0; shape.container()]);
    let (after, answer) = sink(shape, s, expected, &unit, &mut held, &mut done, &mut quiet()).unwrap();
    assert!(after.well_formed(shape));
    *s = after;
    answer
}

fn at_0(without: u8) -> Sink {
    Sink {
        pointer: reader(0),
        without,
        ..Sink::fresh()
    }
}

over_both!(label_and_defects_by_five);
fn label_and_defects_by_five(shape: Shape) {
    let expected = expects(&padded(b"A"));
    let mut s = at_0(0);
    for _ in 0..4 {
        assert_eq!(feed(shape, &mut s, &expected, 0, 0x13, 0x08).defects, [false; 4]);
    }
    assert_eq!(feed(shape, &mut s, &expected, 0, 0x13, 0x08).defects, [false, false, true, true]);
    // A label of 00 is accepted like another, and dUNEQ set.
    for _ in 0..4 {
        assert_eq!(feed(shape, &mut s, &expected, 0, 0x00, 0x00).defects, [false, false, true, true]);
    }
    let answer = feed(shape, &mut s, &expected, 0, 0x00, 0x00);
    assert_eq!(answer.defects, [true, false, true, false]);
    assert_eq!(answer.causes, [false, false, false, true, false, false, false]);
    // Any labels that are not 00 clear it.
    for label in 1..5 {
        assert_eq!(feed(shape, &mut s, &expected, 0, label, 0x00).defects, [true, false, true, false]);
    }
    let answer = feed(shape, &mut s, &expected, 0, 5, 0x00);
    assert_eq!(answer.defects, [false, false, true, false]);
    assert_eq!(answer.causes, [false, false, false, false, false, false, true]);
    for _ in 0..4 {
        assert!(feed(shape, &mut s, &expected, 0, 0x12, 0x90).defects[2]);
    }
    let answer = feed(shape, &mut s, &expected, 0, 0x12, 0x80);
    assert_eq!(answer.defects, [false; 4]);
    assert_eq!(answer.ended[0].returned, 8);
    assert_eq!(feed(shape, &mut s, &expected, 0, 0x12, 0x90).ended[0].returned, 0);
}

over_both!(columns_of_one_container_after_the_other);
fn columns_of_one_container_after_the_other(shape: Shape) {
    let b3 = shape.columns;
    let feed = |s: &mut Sink, word: u16, damaged: &[(usize, u8)]| {
        let mut unit = vec![0; shape.unit()];
        [unit[0], unit[shape.step]] = word.to_be_bytes();
        for (place, with) in damaged {
            unit[shape.head() + place] ^= with;
        }
        let (mut held, mut done) = (vec![0; shape.container()], vec![0; shape.container()]);
        let (after, answer) = sink(shape, s, &expects(&padded(b"A")), &unit, &mut held, &mut done, &mut quiet()).unwrap();
        *s = after;
        answer.ended.iter().map(|one| (one.columns, one.violations())).collect::<Vec<_>>()
    };
    let (plain, new_data) = (0x6800, 0x9800);
    let mut s = at_0(0);
    // None with no last parity, whatever B3 is; then that B3 is missed.
    assert_eq!(feed(&mut s, plain, &[(b3, 0xA5)]), [(0x00, 0)]);
    assert_eq!(feed(&mut s, plain, &[]), [(0xA5, 4)]);
    assert_eq!(feed(&mut s, plain, &[]), [(0x00, 0)]);
    // Another byte shows in the next alone, B3 in its own container and the next.
    for column in 1..=8 {
        let bit = (0x100u16 >> column) as u8;
        assert_eq!(feed(&mut s, plain, &[(b3 + 5, bit)]), [(0x00, 0)]);
        assert_eq!(feed(&mut s, plain, &[(b3, bit), (7, bit)]), [(0x00, 0)]);
        assert_eq!(feed(&mut s, plain, &[(b3, bit)]), [(bit, 1)]);
        assert_eq!(feed(&mut s, plain, &[]), [(bit, 1)]);
        assert_eq!(feed(&mut s, plain, &[]), [(0x00, 0)]);
    }
    assert_eq!(feed(&mut s, plain, &[(b3, 0xFF)]), [(0xFF, 8)]);
    assert_eq!(feed(&mut s, plain, &[(b3, 0xF0)]), [(0x0F, 4)]);
    // New data forgets.
    assert_eq!(feed(&mut s, new_data, &[(b3, 0x33)]), [(0x00, 0)]);
    assert_eq!(feed(&mut s, plain, &[]), [(0x33, 4)]);
}

over_both!(messages_and_the_count_to_48);
fn messages_and_the_count_to_48(shape: Shape) {
    let expected = expects(&padded(b"03E5"));
    let good = message(&padded(b"03E5"));
    let mut s = at_0(48);
    // After a clearing the first container without a message sets dTIM.
    assert!(feed(shape, &mut s, &expected, good[0], 0x12, 0).defects[1]);
    for j1 in &good[1..] {
        feed(shape, &mut s, &expected, *j1, 0x12, 0);
    }
    assert_eq!((s.message_run, s.without), (1, 0));
    for round in 2..=3 {
        for j1 in &good {
            assert!(s.tim);
            feed(shape, &mut s, &expected, *j1, 0x12, 0);
        }
        assert_eq!(s.message_run, round);
    }
    assert!(!s.tim);
    assert_eq!(s.accepted_trace, Some(padded(b"03E5")));
    // A cut ends the run, but not what was accepted.
    feed(shape, &mut s, &expected, good[0], 0x12, 0);
    assert_eq!(s.message_run, 3);
    feed(shape, &mut s, &expected, good[0], 0x12, 0);
    assert_eq!((s.message_run, s.place), (0, 1));
    // 48 without.
    let mut answer = None;
    for count in 3..=48 {
        assert!(!s.tim);
        answer = Some(feed(shape, &mut s, &expected, 0x41, 0x12, 0));
        assert_eq!(s.without, count);
    }
    assert!(answer.unwrap().defects[1]);
    assert_eq!(s.accepted_trace, Some(padded(b"03E5")));
    // The 48th may be the good one.
    let mut s = Sink { without: 47, place: 15, ..at_0(0) };
    s.message.copy_from_slice(&good);
    assert!(!feed(shape, &mut s, &expected, good[15], 0x12, 0).defects[1]);
    assert_eq!((s.without, s.message_run), (0, 1));
}

over_both!(a_trace_that_comes_is_not_refused);
fn a_trace_that_comes_is_not_refused(shape: Shape) {
    for trace in [[0x20; 15], [0x00; 15], [0x7F; 15]] {
        let mut s = at_0(0);
        for j1 in message(&trace).repeat(3) {
            assert!(!s.tim);
            feed(shape, &mut s, &expects(&padded(b"03E5")), j1, 0x12, 0);
        }
        assert!(s.tim);
        assert_eq!(s.accepted_trace, Some(trace));
    }
}

over_both!(sink_refusals_come_in_the_order_8_4_trace_1_3);
fn sink_refusals_come_in_the_order_8_4_trace_1_3(shape: Shape) {
    let (last, size, full) = (shape.last_value(), shape.container(), shape.unit());
    let ask = |s: &Sink, label, character, unit: usize, held: usize, done: usize| {
        let mut expected = expects(&padded(b""));
        expected.label = label;
        expected.trace[7] = character;
        let (mut h, mut d) = (vec![0x77; held], vec![0x88; done]);
        let answer = sink(shape, s, &expected, &vec![0; unit], &mut h, &mut d, &mut quiet());
        if answer.is_err() {
            assert!(h.iter().all(|byte| *byte == 0x77) && d.iter().all(|byte| *byte == 0x88));
        }
        answer.err().unwrap_or(refused(0, &[]))
    };
    let good = at_0(0);
    let bad = Sink { held: 3, ..at_0(0) };
    assert_eq!(ask(&bad, 0x00, 0x1F, full - 1, size - 1, size + 1), refused(8, &[]));
    assert_eq!(ask(&good, 0x00, 0x1F, full - 1, size - 1, size + 1), refused(4, &[]));
    assert_eq!(ask(&good, 0xFF, 0x7F, full - 1, size - 1, size + 1), refused(4, &[]));
    assert_eq!(ask(&good, 0xFF, 0x20, full - 1, size - 1, size + 1), refused(4, &[]));
    assert_eq!(ask(&good, 0xFE, 0x1F, full - 1, size - 1, size + 1), refused(5, &[8]));
    assert_eq!(ask(&good, 0xFE, 0x7F, full - 1, size - 1, size + 1), refused(20, &[8]));
    assert_eq!(ask(&good, 0xFE, 0x20, full - 1, size - 1, size + 1), refused(21, &[]));
    assert_eq!(ask(&good, 0xFE, 0x7E, full - 1, size - 1, size + 1), refused(1, &[]));
    assert_eq!(ask(&good, 0xFE, 0x7E, full, size - 1, size + 1), refused(3, &[]));
    assert_eq!(ask(&good, 0xFE, 0x7E, full, size, size + 1), refused(3, &[]));
    assert_eq!(ask(&good, 0xFE, 0x7E, full, size - 1, size), refused(3, &[]));
    assert_eq!(ask(&good, 0xFE, 0x7E, full, size, size), refused(0, &[]));
    let eight = |s: Sink| ask(&s, 0x12, 0x41, full, size, size).number;
    let pointer = |pointer| Sink { pointer, ..Sink::fresh() };
    let p = PointerReader::fresh();
    assert_eq!(eight(pointer(PointerReader { alarm_words: 4, ..p })), 8);
    assert_eq!(eight(pointer(PointerReader { enabled_words: 9, ..p })), 8);
    assert_eq!(eight(pointer(PointerReader { invalid_words: 9, ..p })), 8);
    assert_eq!(eight(pointer(PointerReader { run: 4, ..p })), 8);
    assert_eq!(eight(pointer(PointerReader { run_value: last, ..p })), 0);
    assert_eq!(eight(pointer(PointerReader { run_value: last + 1, ..p })), 8);
    assert_eq!(eight(pointer(PointerReader { wait: 4, ..p })), 8);
    assert_eq!(eight(pointer(reader(last + 1))), 8);
    assert_eq!(eight(pointer(reader(last))), 8);
    assert_eq!(eight(Sink { held: shape.step as u16, ..pointer(reader(last)) }), 0);
    assert_eq!(eight(Sink { held: size as u16, ..pointer(reader(0)) }), 8);
    assert_eq!(eight(Sink { label_run: 6, ..at_0(0) }), 8);
    assert_eq!(eight(Sink { uneq: Watch { run: 6, ..Watch::NONE }, ..at_0(0) }), 8);
    assert_eq!(eight(Sink { remote: Watch { run: 6, ..Watch::NONE }, ..at_0(0) }), 8);
    assert_eq!(eight(Sink { place: 16, ..at_0(0) }), 8);
    assert_eq!(eight(Sink { message_run: 4, ..at_0(0) }), 8);
    assert_eq!(eight(at_0(49)), 8);
}

over_both!(each_character_of_an_expected_trace);
fn each_character_of_an_expected_trace(shape: Shape) {
    let ask = |trace: &[u8; 15]| {
        let (mut held, mut done) = (vec![0; shape.container()], vec![0; shape.container()]);
        let unit = vec![0; shape.unit()];
        sink(shape, &Sink::fresh(), &expects(trace), &unit, &mut held, &mut done, &mut quiet()).err()
    };
    for place in 0..15 {
        for character in 0..=255 {
            let mut trace = *b"ABCDEFGHIJKLMNO";
            trace[place] = character;
            assert_eq!(ask(&trace), refused_at(place, character));
        }
    }
    for (trace, refusal) in refused_traces() {
        assert_eq!(ask(&trace), Some(refusal));
    }
}

#[test]
fn what_has_the_lengths_of_the_other_shape_is_refused() {
    let ask = |shape: Shape, of: Shape, buffers: Shape| {
        let (mut held, mut done) = (vec![0; buffers.container()], vec![0; buffers.container()]);
        let (unit, expected) = (vec![0; of.unit()], expects(&padded(b"A")));
        let answer = sink(shape, &Sink::fresh(), &expected, &unit, &mut held, &mut done, &mut quiet());
        answer.err().map(|refusal| refusal.number)
    };
    for (shape, other) in [(AU4, TU3), (TU3, AU4)] {
        assert_eq!(ask(shape, other, other), Some(1));
        assert_eq!(ask(shape, shape, other), Some(3));
        assert_eq!(ask(shape, shape, shape), None);
    }
}

over_both!(the_unsettled_total_stays_at_65535);
fn the_unsettled_total_stays_at_65535(shape: Shape) {
    let expected = expects(&padded(b"A"));
    let mut s = Sink { unsettled: 65_533, ..at_0(0) };
    for total in [65_534, 65_535, 65_535] {
        assert!(!feed(shape, &mut s, &expected, 0, 0x12, 0).settled);
        assert_eq!(s.unsettled, total);
    }
}
