//! The unit source.

use super::*;

const ALL_ASKED: [Asked; 3] = [Asked::Nothing, Asked::Increment, Asked::Decrement];

/// The first place of a unit that carries container bytes: behind the three
/// parts of the head, one step later or one earlier.
fn first_place(shape: Shape, asked: Asked) -> usize {
    match asked {
        Asked::Nothing => 3 * shape.step,
        Asked::Increment => 4 * shape.step,
        Asked::Decrement => 2 * shape.step,
    }
}

/// One unit of a source free to adjust, out of two containers without
/// pattern.
fn one_unit(shape: Shape, offset: u16, asked: Asked) -> (u8, UnitSource, Vec<u8>, Vec<u8>, Vec<u8>) {
    let mut seed = 100 + u32::from(offset);
    let current = some_bytes(shape.container(), &mut seed);
    let next = some_bytes(shape.container(), &mut seed);
    let mut unit = vec![0xEE; shape.unit()];
    let state = UnitSource { offset, wait: 3 };
    let (ended, after) = unit_source(shape, state, asked, &current, &next, &mut unit).unwrap();
    (ended, after, current, next, unit)
}

over_both!(the_head_of_each_unit);
fn the_head_of_each_unit(shape: Shape) {
    for offset in 0..=shape.last_value() {
        for asked in ALL_ASKED {
            let (_, _, _, _, unit) = one_unit(shape, offset, asked);
            let step = shape.step;
            let word = u16::from_be_bytes([unit[0], unit[step]]);
            let expected = match asked {
                Asked::Nothing => plain_word(offset),
                Asked::Increment => increment_word(offset),
                Asked::Decrement => decrement_word(offset),
            };
            assert_eq!(word, expected);
            // TU-3 has neither Y nor 1*.
            assert!(unit[1..step].iter().all(|byte| *byte == 0x9B));
            assert!(unit[step + 1..2 * step].iter().all(|byte| *byte == 0xFF));
            assert!(unit[2 * step..first_place(shape, asked)].iter().all(|byte| *byte == 0x00));
        }
    }
}

#[test]
fn the_head_byte_by_byte() {
    // "H1 Y Y H2 1* 1* H3 H3 H3"
    let (_, _, _, _, unit) = one_unit(AU4, 5, Asked::Nothing);
    assert_eq!(unit[..9], [0x68, 0x9B, 0x9B, 0x05, 0xFF, 0xFF, 0x00, 0x00, 0x00]);
    // "H1, H2, H3"
    let (_, _, _, _, unit) = one_unit(TU3, 5, Asked::Nothing);
    assert_eq!(unit[..3], [0x68, 0x05, 0x00]);
}

over_both!(the_new_offset_wraps);
fn the_new_offset_wraps(shape: Shape) {
    let last = shape.last_value();
    for offset in 0..=last {
        let up = if offset == last { 0 } else { offset + 1 };
        let down = if offset == 0 { last } else { offset - 1 };
        assert_eq!(one_unit(shape, offset, Asked::Nothing).1, UnitSource { offset, wait: 3 });
        assert_eq!(one_unit(shape, offset, Asked::Increment).1, UnitSource { offset: up, wait: 0 });
        assert_eq!(one_unit(shape, offset, Asked::Decrement).1, UnitSource { offset: down, wait: 0 });
    }
}

over_both!(how_many_ended);
fn how_many_ended(shape: Shape) {
    for offset in 0..=shape.last_value() {
        for asked in ALL_ASKED {
            let expected = match (offset, asked) {
                // "P2 ends none"
                (0, Asked::Increment) => 0,
                // "P5 after plain units ends two containers"
                (1, Asked::Decrement) => 2,
                // 782 up to 0 and 0 down to 782 among them.
                _ => 1,
            };
            assert_eq!(one_unit(shape, offset, asked).0, expected);
        }
    }
}

over_both!(j1_stands_at_step_times_the_value_after_the_unit);
fn j1_stands_at_step_times_the_value_after_the_unit(shape: Shape) {
    let (size, step, last) = (shape.container(), shape.step, shape.last_value());
    for offset in 0..=last {
        for asked in ALL_ASKED {
            let (_, after, current, next, unit) = one_unit(shape, offset, asked);
            // "J1 is already displaced in the adjustment unit."
            let place = shape.head() + step * usize::from(after.offset);
            let here = &unit[place..];
            match (offset, asked) {
                // "an increment to 0 begins no container in its own unit"
                (_, Asked::Increment) if offset == last => assert_eq!(unit[4 * step..], current[step..]),
                // The whole of the current one begins here.
                (0, Asked::Nothing) => assert_eq!(here, current),
                (0, Asked::Increment) => assert_eq!(here, &current[..size - step]),
                // "P3 starts one container in H3 and the next at byte
                // offset 2346."
                (0, Asked::Decrement) => {
                    assert_eq!(unit[2 * step..2 * step + size], current);
                    assert_eq!(place, shape.head() + size - step);
                    assert_eq!(here, &next[..step]);
                }
                // The next one begins here, behind the end of the current.
                _ => {
                    assert_eq!(here, &next[..here.len()]);
                    let first = first_place(shape, asked);
                    let rest = step * usize::from(offset);
                    assert_eq!(place, first + rest);
                    assert_eq!(unit[first..place], current[size - rest..]);
                }
            }
        }
    }
}

over_both!(unit_source_refusals_come_in_the_order_8_3_1_7);
fn unit_source_refusals_come_in_the_order_8_3_1_7(shape: Shape) {
    let (last, size, full) = (shape.last_value(), shape.container(), shape.unit());
    // Every fault at once; they are put right one by one in the order in
    // which they are named.
    let ask = |offset, wait, asked, current: usize, next: usize, length: usize| {
        let mut unit = vec![0xEE; length];
        let answer = unit_source(
            shape,
            UnitSource { offset, wait },
            asked,
            &vec![0x33; current],
            &vec![0x44; next],
            &mut unit,
        );
        if answer.is_err() {
            // "Nothing lent is written."
            assert!(unit.iter().all(|byte| *byte == 0xEE));
        }
        answer
    };
    for asked in [Asked::Increment, Asked::Decrement] {
        assert_eq!(ask(last + 1, 4, asked, size - 1, size + 1, full - 1), Err(refused(8, &[])));
        assert_eq!(ask(last, 4, asked, size - 1, size + 1, full - 1), Err(refused(8, &[])));
        assert_eq!(ask(last + 1, 2, asked, size - 1, size + 1, full - 1), Err(refused(8, &[])));
        assert_eq!(ask(last, 2, asked, size - 1, size + 1, full - 1), Err(refused(3, &[])));
        assert_eq!(ask(last, 2, asked, size, size + 1, full - 1), Err(refused(3, &[])));
        assert_eq!(ask(last, 2, asked, size - 1, size, full - 1), Err(refused(3, &[])));
        assert_eq!(ask(last, 2, asked, size, size, full - 1), Err(refused(1, &[])));
        assert_eq!(ask(last, 2, asked, size, size, full + 1), Err(refused(1, &[])));
        assert_eq!(ask(last, 2, asked, size, size, full), Err(refused(7, &[])));
        assert!(ask(last, 3, asked, size, size, full).is_ok());
    }
    // Each alone.
    let plain = Asked::Nothing;
    for offset in [last + 1, last + 2, 1023, 1024, 65_535] {
        assert_eq!(ask(offset, 3, plain, size, size, full), Err(refused(8, &[])));
    }
    for wait in 4..=255 {
        assert_eq!(ask(0, wait, plain, size, size, full), Err(refused(8, &[])));
    }
    for length in [0, 1, shape.payload(), size - 1, size + 1, full] {
        assert_eq!(ask(5, 3, plain, length, size, full), Err(refused(3, &[])));
        assert_eq!(ask(5, 3, plain, size, length, full), Err(refused(3, &[])));
        // None of the next one is sent here, and yet it is checked.
        assert_eq!(ask(0, 3, plain, size, length, full), Err(refused(3, &[])));
    }
    for length in [0, 1, shape.head(), size, full - 1, full + 1] {
        assert_eq!(ask(5, 3, plain, size, size, length), Err(refused(1, &[])));
    }
    for wait in 0..=3 {
        assert!(ask(5, wait, plain, size, size, full).is_ok());
        for asked in [Asked::Increment, Asked::Decrement] {
            let answer = ask(5, wait, asked, size, size, full);
            assert_eq!(answer.is_ok(), wait == 3);
            assert_eq!(answer.err(), if wait == 3 { None } else { Some(refused(7, &[])) });
        }
    }
}

over_both!(an_adjustment_and_three_units_between);
fn an_adjustment_and_three_units_between(shape: Shape) {
    let bytes = vec![0x33; shape.container()];
    let mut unit = vec![0xEE; shape.unit()];
    let mut ask = |s, asked| unit_source(shape, s, asked, &bytes, &bytes, &mut unit).map(|(_, after)| after);
    // "Fresh, it stands at offset 0, free to adjust"
    let mut state = UnitSource::fresh();
    assert_eq!(state, UnitSource { offset: 0, wait: 3 });
    for asked in [Asked::Decrement, Asked::Increment, Asked::Increment] {
        state = ask(state, asked).unwrap();
        assert_eq!(state.wait, 0);
        for wait in 1..=3 {
            assert_eq!(ask(state, Asked::Increment), Err(refused(7, &[])));
            assert_eq!(ask(state, Asked::Decrement), Err(refused(7, &[])));
            state = ask(state, Asked::Nothing).unwrap();
            assert_eq!(state.wait, wait);
        }
    }
    assert_eq!(state.offset, 1);
    // Counts stop at the end of their range.
    state = ask(state, Asked::Nothing).unwrap();
    assert_eq!(state, UnitSource { offset: 1, wait: 3 });
}

over_both!(the_bytes_carried_are_the_containers_joined);
fn the_bytes_carried_are_the_containers_joined(shape: Shape) {
    for (seed, offset) in marked_offsets(shape).into_iter().enumerate() {
        let mut seed = 1 + seed as u32;
        let made = containers(shape, 420, &padded(b"03E5"), &mut seed);
        let mut state = UnitSource { offset, wait: 3 };
        let mut current = 0;
        let mut carried = Vec::new();
        let mut adjustments = 0;
        for _ in 0..400 {
            let asked = match next(&mut seed) % 8 {
                0..=2 => Asked::Increment,
                3..=5 => Asked::Decrement,
                _ => Asked::Nothing,
            };
            let mut unit = vec![0xEE; shape.unit()];
            let answer = unit_source(shape, state, asked, &made[current], &made[current + 1], &mut unit);
            if answer == Err(refused(7, &[])) {
                assert!(state.wait < 3);
                // "A refusal returns ... the old state": the unit is asked
                // for again without.
                let (ended, after) =
                    unit_source(shape, state, Asked::Nothing, &made[current], &made[current + 1], &mut unit).unwrap();
                carried.extend_from_slice(&unit[shape.head()..]);
                current += usize::from(ended);
                state = after;
                continue;
            }
            let (ended, after) = answer.unwrap();
            adjustments += usize::from(asked != Asked::Nothing);
            carried.extend_from_slice(&unit[first_place(shape, asked)..]);
            current += usize::from(ended);
            state = after;
        }
        assert!(adjustments > 60);
        // What was sent of the first container before is not among them.
        let before = shape.carried(offset);
        let joined = made.concat();
        assert_eq!(carried, joined[before..before + carried.len()]);
        // All up to the end of those that ended, and what the offset says
        // of the one then current.
        let behind = shape.carried(state.offset);
        assert_eq!(before + carried.len(), shape.container() * current + behind);
    }
}
