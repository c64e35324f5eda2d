//! The memory of a call: a counting allocator around the system's. It counts only in runs that are not timed.

use std::{
    alloc::{GlobalAlloc, Layout, System},
    sync::atomic::{AtomicBool, AtomicUsize, Ordering::Relaxed},
    thread,
};

pub struct Counting;

static ON: AtomicBool = AtomicBool::new(false);
static HELD: AtomicUsize = AtomicUsize::new(0);
static PEAK: AtomicUsize = AtomicUsize::new(0);

/// The Rust's walk calls itself once a level; the deepest input has 4,096.
const STACK: usize = 64 << 20;

fn gained(bytes: usize) {
    if ON.load(Relaxed) {
        let held = HELD.fetch_add(bytes, Relaxed) + bytes;
        PEAK.fetch_max(held, Relaxed);
    }
}

/// What was allocated before counting began may be given back, so the count stops at 0.
fn lost(bytes: usize) {
    if ON.load(Relaxed) {
        HELD.store(HELD.load(Relaxed).saturating_sub(bytes), Relaxed);
    }
}

// Sound: every call goes to the system's allocator as it came.
unsafe impl GlobalAlloc for Counting {
    unsafe fn alloc(&self, layout: Layout) -> *mut u8 {
        gained(layout.size());
        unsafe { System.alloc(layout) }
    }

    unsafe fn alloc_zeroed(&self, layout: Layout) -> *mut u8 {
        gained(layout.size());
        unsafe { System.alloc_zeroed(layout) }
    }

    unsafe fn dealloc(&self, at: *mut u8, layout: Layout) {
        lost(layout.size());
        unsafe { System.dealloc(at, layout) }
    }

    /// The system may grow a block where it stands, so the old one and the new one are not both counted.
    unsafe fn realloc(&self, at: *mut u8, layout: Layout, size: usize) -> *mut u8 {
        lost(layout.size());
        gained(size);
        unsafe { System.realloc(at, layout, size) }
    }
}

/// The most bytes that a call held at once, beyond what stood before it. A thread of its own, because the
/// stand-in keeps its fingerprint table, grown, from one merge of a thread to the next.
pub fn peak<T>(prepare: impl FnOnce() -> T + Send, call: impl FnOnce(T) + Send) -> usize {
    thread::scope(|scope| {
        let run = thread::Builder::new().stack_size(STACK).spawn_scoped(scope, || {
            let ready = prepare();
            HELD.store(0, Relaxed);
            PEAK.store(0, Relaxed);
            ON.store(true, Relaxed);
            call(ready);
            ON.store(false, Relaxed);
        });
        run.expect("a thread").join().expect("a call that ends");
    });
    PEAK.load(Relaxed)
}
