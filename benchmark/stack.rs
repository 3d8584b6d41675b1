//! How much stack a call takes: the stack below is painted, the call is made, and how far down the paint is gone is counted. The same of a call of nothing is taken off.

use std::hint::black_box;

const DEPTH: usize = 32 * 1024;
/// Room for the frames of `paint` and `reached` themselves; a call begins below it.
const OWN: usize = 512;
const PAINT: u8 = 0xA5;

/// Every byte from OWN to DEPTH below this frame. They belong to this thread's stack, and nobody uses them now.
#[inline(never)]
fn paint() {
    let here = 0u8;
    let top = black_box(&here) as *const u8 as usize;
    for k in OWN..DEPTH {
        unsafe { ((top - k) as *mut u8).write_volatile(PAINT) };
    }
}

/// How far below this frame the deepest byte lies that is no longer paint.
#[inline(never)]
fn reached() -> usize {
    let here = 0u8;
    let top = black_box(&here) as *const u8 as usize;
    (OWN..DEPTH).rev().find(|k| unsafe { ((top - k) as *const u8).read_volatile() } != PAINT).unwrap_or(OWN)
}

#[inline(never)]
fn call(f: &mut dyn FnMut()) {
    let room = [0u8; 2 * OWN];
    black_box(&room);
    f();
    black_box(&room);
}

fn of(f: &mut dyn FnMut()) -> usize {
    call(f);
    paint();
    call(f);
    reached()
}

pub fn show(what: &str, f: &mut dyn FnMut()) {
    let nothing = of(&mut || {
        black_box(());
    });
    println!("    {what:<58} {:>8}", of(f).saturating_sub(nothing));
}
