//! The container source and the payload call.

use super::*;

over_both!(column_1_from_the_top_and_payload_row_by_row);
fn column_1_from_the_top_and_payload_row_by_row(shape: Shape) {
    let mut seed = 11;
    let trace = padded(b"03E5");
    let payload = some_bytes(shape.payload(), &mut seed);
    let given = Given {
        label: 0xC2,
        f2: 1,
        h4: 2,
        f3: 3,
        k3: 4,
        n1: 5,
        violations: 7,
        remote: true,
    };
    let before = ContainerSource {
        place: 4,
        parity: 0xB3,
    };
    let mut container = vec![0xEE; shape.container()];
    let after = container_source(shape, before, given, &trace, &payload, &mut container).unwrap();

    let columns = shape.columns;
    let column: Vec<u8> = (0..9).map(|row| container[columns * row]).collect();
    assert_eq!(column, [b'5', 0xB3, 0xC2, 0x78, 1, 2, 3, 4, 5]);
    for row in 0..9 {
        for place in 0..columns - 1 {
            assert_eq!(container[columns * row + 1 + place], payload[(columns - 1) * row + place]);
        }
    }
    assert_eq!(
        after,
        ContainerSource {
            place: 5,
            parity: parity(&container)
        }
    );
}

over_both!(b3_is_the_parity_of_the_container_before_its_own_b3_included);
fn b3_is_the_parity_of_the_container_before_its_own_b3_included(shape: Shape) {
    let made = containers(shape, 40, &padded(b"03E5"), &mut 5);
    let b3 = shape.columns;
    assert_eq!(made[0][b3], 0x00);
    for pair in made.windows(2) {
        let mut all = 0x00;
        for byte in &pair[0] {
            all ^= byte;
        }
        assert_eq!(pair[1][b3], all);
    }
    // Some B3 was not 00, so that leaving it out would have been seen.
    assert!(made[..39].iter().any(|container| container[b3] != 0x00));
}

over_both!(j1_over_16_containers_is_the_message);
fn j1_over_16_containers_is_the_message(shape: Shape) {
    for trace in [padded(b"03E5"), *b"ABCDEFGHIJKLMNO", padded(b"!"), [0x7E; 15]] {
        let made = containers(shape, 40, &trace, &mut 6);
        let j1: Vec<u8> = made.iter().map(|container| container[0]).collect();
        assert_eq!(j1[..16], message(&trace));
        assert!(trace_check(&j1[..16]));
        assert_eq!(j1[16..32], j1[..16]);
        assert_eq!(j1[32..], j1[..8]);
    }
    assert_eq!(ContainerSource::fresh(), ContainerSource { place: 0, parity: 0 });
}

over_both!(g1_has_violations_in_bits_1_to_4_and_remote_defect_in_bit_5);
fn g1_has_violations_in_bits_1_to_4_and_remote_defect_in_bit_5(shape: Shape) {
    let payload = vec![0x55; shape.payload()];
    for violations in 0..=8 {
        for remote in [false, true] {
            let given = Given {
                violations,
                remote,
                ..GIVEN
            };
            let mut container = vec![0xEE; shape.container()];
            let done = container_source(
        shape,
                ContainerSource::fresh(),
                given,
                &padded(b"A"),
                &payload,
                &mut container,
            );
            assert!(done.is_ok());
            let expected = 0x10 * violations + if remote { 0x08 } else { 0x00 };
            assert_eq!(container[3 * shape.columns], expected);
        }
    }
}

over_both!(container_source_refusals_come_in_the_order_8_4_trace_2_3_6);
fn container_source_refusals_come_in_the_order_8_4_trace_2_3_6(shape: Shape) {
    let (carried, size) = (shape.payload(), shape.container());
    // Every fault at once; they are put right one by one in the order in
    // which they are named.
    let mut state = ContainerSource {
        place: 16,
        parity: 0x77,
    };
    let mut given = Given {
        label: 0x00,
        violations: 9,
        ..GIVEN
    };
    let mut trace = padded(b"A");
    trace[14] = 0x7F;
    let mut payload = vec![0x33; carried - 1];
    let mut container = vec![0xEE; size + 1];
    let mut ask = |s, g, trace: &[u8; 15], payload: &[u8], length| {
        container.resize(length, 0xEE);
        let answer = container_source(shape, s, g, trace, payload, &mut container);
        if answer.is_err() {
            // "Nothing lent is written."
            assert!(container.iter().all(|byte| *byte == 0xEE));
        }
        answer
    };

    assert_eq!(ask(state, given, &trace, &payload, size + 1), Err(refused(8, &[])));
    state.place = 15;
    assert_eq!(ask(state, given, &trace, &payload, size + 1), Err(refused(4, &[])));
    given.label = 0xFF;
    assert_eq!(ask(state, given, &trace, &payload, size + 1), Err(refused(4, &[])));
    given.label = 0xFE;
    assert_eq!(ask(state, given, &trace, &payload, size + 1), Err(refused(20, &[15])));
    trace[14] = 0x1F;
    assert_eq!(ask(state, given, &trace, &payload, size + 1), Err(refused(5, &[15])));
    trace.fill(0x20);
    assert_eq!(ask(state, given, &trace, &payload, size + 1), Err(refused(21, &[])));
    trace[14] = 0x7E;
    assert_eq!(ask(state, given, &trace, &payload, size + 1), Err(refused(2, &[])));
    payload.resize(carried + 1, 0x33);
    assert_eq!(ask(state, given, &trace, &payload, size + 1), Err(refused(2, &[])));
    payload.resize(carried, 0x33);
    assert_eq!(ask(state, given, &trace, &payload, size + 1), Err(refused(3, &[])));
    assert_eq!(ask(state, given, &trace, &payload, size - 1), Err(refused(3, &[])));
    assert_eq!(ask(state, given, &trace, &payload, 0), Err(refused(3, &[])));
    assert_eq!(ask(state, given, &trace, &payload, size), Err(refused(6, &[])));
    given.violations = 255;
    assert_eq!(ask(state, given, &trace, &payload, size), Err(refused(6, &[])));
    given.violations = 8;
    let after = ask(state, given, &trace, &payload, size).unwrap();
    assert_eq!(after.place, 0);
}

over_both!(each_container_source_refusal_alone);
fn each_container_source_refusal_alone(shape: Shape) {
    let (carried, size) = (shape.payload(), shape.container());
    let ask = |s: ContainerSource, g: Given, trace: &[u8; 15], payload: usize, container: usize| {
        let bytes = vec![0x33; payload];
        let mut written = vec![0xEE; container];
        container_source(shape, s, g, trace, &bytes, &mut written).map(|_| ())
    };
    let fresh = ContainerSource::fresh();
    let good = padded(b"A");
    assert_eq!(ask(fresh, GIVEN, &good, carried, size), Ok(()));
    for place in 0..=255 {
        let answer = if place <= 15 { Ok(()) } else { Err(refused(8, &[])) };
        for parity in [0x00, 0x5A, 0xFF] {
            assert_eq!(ask(ContainerSource { place, parity }, GIVEN, &good, carried, size), answer);
        }
    }
    for label in 0..=255 {
        let answer = if (1..=254).contains(&label) { Ok(()) } else { Err(refused(4, &[])) };
        assert_eq!(ask(fresh, Given { label, ..GIVEN }, &good, carried, size), answer);
    }
    for place in 0..15 {
        for character in 0..=255 {
            let mut trace = *b"ABCDEFGHIJKLMNO";
            trace[place] = character;
            let answer = refused_at(place, character).map_or(Ok(()), Err);
            assert_eq!(ask(fresh, GIVEN, &trace, carried, size), answer);
        }
    }
    for (trace, refusal) in refused_traces() {
        assert_eq!(ask(fresh, GIVEN, &trace, carried, size), Err(refusal));
    }
    for length in [0, 1, carried - 1, carried + 1, size] {
        assert_eq!(ask(fresh, GIVEN, &good, length, size), Err(refused(2, &[])));
    }
    for length in [0, 1, carried, size - 1, size + 1, shape.unit()] {
        assert_eq!(ask(fresh, GIVEN, &good, carried, length), Err(refused(3, &[])));
    }
    for violations in 0..=255 {
        let answer = if violations <= 8 { Ok(()) } else { Err(refused(6, &[])) };
        assert_eq!(ask(fresh, Given { violations, ..GIVEN }, &good, carried, size), answer);
    }
}

over_both!(the_payload_call_gives_back_what_was_sent_or_ff);
fn the_payload_call_gives_back_what_was_sent_or_ff(shape: Shape) {
    let mut seed = 12;
    let sent = some_bytes(shape.payload(), &mut seed);
    let mut container = vec![0; shape.container()];
    container_source(
        shape,
        ContainerSource::fresh(),
        GIVEN,
        &padded(b"A"),
        &sent,
        &mut container,
    )
    .unwrap();
    let mut payload = vec![0xEE; shape.payload()];
    assert_eq!(payload_call(shape, &container, false, &mut payload), Ok(()));
    assert_eq!(payload, sent);
    assert_eq!(payload_call(shape, &container, true, &mut payload), Ok(()));
    assert_eq!(payload, vec![0xFF; shape.payload()]);
}

over_both!(the_payload_call_refuses_3_then_2);
fn the_payload_call_refuses_3_then_2(shape: Shape) {
    let (carried, size) = (shape.payload(), shape.container());
    for ais in [false, true] {
        for container in [0, carried, size - 1, size, size + 1] {
            for length in [0, carried - 1, carried, carried + 1, size] {
                let mut payload = vec![0xEE; length];
                let answer = payload_call(shape, &vec![0x33; container], ais, &mut payload);
                let expected = match (container == size, length == carried) {
                    (true, true) => Ok(()),
                    (true, false) => Err(refused(2, &[])),
                    (false, _) => Err(refused(3, &[])),
                };
                assert_eq!(answer, expected);
                if answer.is_err() {
                    assert!(payload.iter().all(|byte| *byte == 0xEE));
                }
            }
        }
    }
}
