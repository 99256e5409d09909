//! How much stack a call takes: the memory below the stack pointer is filled with a pattern, the call is made, and the
//! lowest place that it changed is looked for.

use std::thread;

const STACK: usize = 1 << 20;
const PAINTED: usize = STACK / 2;
const PATTERN: u8 = 0xa5;

/// Bytes that are left for the frames of the measuring itself: less is not told apart.
pub const LEAST: usize = 512;

/// The bytes below the caller's frame that the call changes, on a thread of its own.
pub fn taken(call: impl FnOnce() + Send) -> usize {
    thread::scope(|scope| {
        let made = thread::Builder::new().stack_size(STACK).spawn_scoped(scope, move || measured(call));
        made.expect("a thread").join().expect("the call ends")
    })
}

#[inline(never)]
fn measured(call: impl FnOnce()) -> usize {
    let mark = 0u8;
    let top = std::hint::black_box(&mark) as *const u8 as usize;
    let lowest = top - PAINTED;
    paint(lowest, top - LEAST);
    call();
    top - changed(lowest)
}

// Both leave their own frames alone: these lie in the bytes below the mark that are not painted.
#[inline(never)]
fn paint(from: usize, to: usize) {
    (from..to).for_each(|at| unsafe { std::ptr::write_volatile(at as *mut u8, PATTERN) });
}

#[inline(never)]
fn changed(from: usize) -> usize {
    (from..).find(|at| unsafe { std::ptr::read_volatile(*at as *const u8) } != PATTERN).expect("the mark at least")
}
