//! The numbers of both shapes, as the papers have them.

use super::*;

#[test]
fn the_numbers_of_au4_with_vc4() {
    assert_eq!((AU4.step, AU4.columns), (3, 261));
    assert_eq!((AU4.container(), AU4.payload()), (2349, 2340));
    assert_eq!((AU4.head(), AU4.unit()), (9, 2358));
    assert_eq!(AU4.last_value(), 782);
}

#[test]
fn the_numbers_of_tu3_with_vc3() {
    assert_eq!((TU3.step, TU3.columns), (1, 85));
    assert_eq!((TU3.container(), TU3.payload()), (765, 756));
    assert_eq!((TU3.head(), TU3.unit()), (3, 768));
    assert_eq!(TU3.last_value(), 764);
}

#[test]
fn the_last_value_goes_up_to_0_and_0_down_to_it() {
    assert_eq!((AU4.incremented(782), AU4.decremented(0)), (0, 782));
    assert_eq!((TU3.incremented(764), TU3.decremented(0)), (0, 764));
}

over_both!(each_value_up_and_down_again);
fn each_value_up_and_down_again(shape: Shape) {
    for value in 0..=shape.last_value() {
        let up = shape.incremented(value);
        assert!(up == value + 1 || (value == shape.last_value() && up == 0));
        assert_eq!(shape.decremented(up), value);
    }
}

over_both!(what_was_carried_and_what_is_left);
fn what_was_carried_and_what_is_left(shape: Shape) {
    assert_eq!(shape.carried(0), 0);
    for value in 1..=shape.last_value() {
        assert_eq!(shape.carried(value) + shape.step * usize::from(value), shape.container());
    }
    // At the last value one step was carried.
    assert_eq!(shape.carried(shape.last_value()), shape.step);
}
