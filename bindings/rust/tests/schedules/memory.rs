//! The bytes of Rust's heap that each thread allocated and has not freed.
use std::alloc::{GlobalAlloc, Layout, System};
use std::cell::Cell;

thread_local! {
    static NOW: Cell<isize> = const { Cell::new(0) };
    static MOST: Cell<isize> = const { Cell::new(0) };
}

struct Counting;

fn count(bytes: isize) {
    let now = NOW.get() + bytes;
    NOW.set(now);
    MOST.set(now.max(MOST.get()));
}

unsafe impl GlobalAlloc for Counting {
    unsafe fn alloc(&self, layout: Layout) -> *mut u8 {
        count(layout.size() as isize);
        System.alloc(layout)
    }

    unsafe fn dealloc(&self, at: *mut u8, layout: Layout) {
        count(-(layout.size() as isize));
        System.dealloc(at, layout);
    }
}

#[global_allocator]
static HEAP: Counting = Counting;

/// The result of a call, the most bytes that it had at once, and those that it left behind.
pub fn counted<T>(call: impl FnOnce() -> T) -> (T, isize, isize) {
    let before = NOW.get();
    MOST.set(before);
    let answer = call();
    (answer, MOST.get() - before, NOW.get() - before)
}
