//! An allocator that fences blocks of bytes, where the environment has FENCED: every second block ends right before a page that nobody may touch, and the
//! others begin right behind one. So whoever touches a byte beyond those that were lent is stopped at once, and where valgrind cannot run too.

use std::alloc::{GlobalAlloc, Layout, System};
use std::sync::atomic::{AtomicU8, AtomicUsize, Ordering::Relaxed};

extern "C" {
    fn getenv(name: *const u8) -> *const u8;
    fn mmap(at: *mut u8, length: usize, allowed: i32, kind: i32, file: i32, offset: i64) -> *mut u8;
    fn mprotect(at: *mut u8, length: usize, allowed: i32) -> i32;
    fn munmap(at: *mut u8, length: usize) -> i32;
}

const NOTHING: i32 = 0;
const READ_AND_WRITE: i32 = 3;
const OF_OUR_OWN: i32 = 0x22;
/// A page of x86-64, for which the card is compiled.
const PAGE: usize = 0x1000;

/// 0 until it was asked, then 1 for no and 2 for yes.
static FENCED: AtomicU8 = AtomicU8::new(0);
static BLOCKS: AtomicUsize = AtomicUsize::new(0);

#[global_allocator]
static FENCE: Fence = Fence;

struct Fence;

fn asked_for() -> bool {
    if FENCED.load(Relaxed) == 0 {
        let asked = unsafe { !getenv(b"FENCED\0".as_ptr()).is_null() };
        FENCED.store(1 + u8::from(asked), Relaxed);
    }
    FENCED.load(Relaxed) == 2
}

/// What need not be aligned is bytes.
fn fenced(layout: Layout) -> bool {
    layout.align() == 1 && asked_for()
}

/// The pages of a block.
fn room(layout: Layout) -> usize {
    (layout.size() + PAGE - 1) / PAGE * PAGE
}

unsafe impl GlobalAlloc for Fence {
    unsafe fn alloc(&self, layout: Layout) -> *mut u8 {
        if !fenced(layout) {
            return System.alloc(layout);
        }
        let room = room(layout);
        let from = mmap(std::ptr::null_mut(), room + 2 * PAGE, NOTHING, OF_OUR_OWN, -1, 0);
        if from as isize == -1 || mprotect(from.add(PAGE), room, READ_AND_WRITE) != 0 {
            return std::ptr::null_mut();
        }
        let at_the_end = BLOCKS.fetch_add(1, Relaxed) % 2 == 0;
        from.add(PAGE + if at_the_end { room - layout.size() } else { 0 })
    }

    unsafe fn dealloc(&self, block: *mut u8, layout: Layout) {
        if !fenced(layout) {
            return System.dealloc(block, layout);
        }
        let first = block.sub(block as usize % PAGE);
        munmap(first.sub(PAGE), room(layout) + 2 * PAGE);
    }
}

/// `PROGRAM beyond` and `PROGRAM before` touch a byte right behind a block, or right before one, and must be stopped where blocks are fenced.
pub fn touched() -> bool {
    let asked = std::env::args().nth(1).unwrap_or_default();
    let even = BLOCKS.load(Relaxed) % 2 == 0;
    let (one, other) = (vec![0u8; 2349], vec![0u8; 2349]);
    let (at_the_end, at_the_start) = if even { (one, other) } else { (other, one) };
    let byte = match asked.as_str() {
        "beyond" => at_the_end.as_ptr_range().end,
        "before" => at_the_start.as_ptr().wrapping_sub(1),
        _ => return false,
    };
    println!("{asked}: {}", unsafe { byte.read_volatile() });
    true
}
