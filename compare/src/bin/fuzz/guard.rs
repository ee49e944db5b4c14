//! Heap blocks between guard bytes.

use std::alloc::{GlobalAlloc, Layout, System};
use std::cell::Cell;
use std::ptr;
use std::slice;

/// Guard bytes on each side of a block, and what they hold.
const GUARD: usize = 64;
const HELD: u8 = 0xa5;

thread_local! {
    static DAMAGED: Cell<u64> = const { Cell::new(0) };
}

/// How many blocks this thread has given back whose guard bytes were written.
pub fn damaged() -> u64 {
    DAMAGED.get()
}

/// The system's allocator; each block that it gives has guard bytes on both sides, which are looked at
/// when the block is given back. A list of no entries has no block: what is written there is no memory.
pub struct Guarded;

/// The guard bytes before a block keep its alignment.
fn before(layout: Layout) -> usize {
    GUARD.max(layout.align())
}

fn with_guards(layout: Layout) -> Layout {
    let size = before(layout) + layout.size() + GUARD;
    Layout::from_size_align(size, layout.align()).expect("a block is not that long")
}

/// Where the guard bytes of a block start, and how many there are, before it and behind it.
///
/// # Safety
/// `whole` is what the system has given for the layout with guards.
unsafe fn guards(whole: *mut u8, layout: Layout) -> [(*mut u8, usize); 2] {
    let before = before(layout);
    let behind = unsafe { whole.add(before + layout.size()) };
    [(whole, before), (behind, GUARD)]
}

// SAFETY: what the system gives is kept, with more room on both sides and in its alignment.
unsafe impl GlobalAlloc for Guarded {
    unsafe fn alloc(&self, layout: Layout) -> *mut u8 {
        unsafe {
            let whole = System.alloc(with_guards(layout));
            if whole.is_null() {
                return whole;
            }
            for (guard, length) in guards(whole, layout) {
                ptr::write_bytes(guard, HELD, length);
            }
            whole.add(before(layout))
        }
    }

    unsafe fn dealloc(&self, block: *mut u8, layout: Layout) {
        unsafe {
            let whole = block.sub(before(layout));
            let guards = guards(whole, layout);
            let held = guards.map(|(guard, length)| slice::from_raw_parts(guard, length));
            if held.iter().copied().flatten().any(|&byte| byte != HELD) {
                DAMAGED.set(DAMAGED.get() + 1);
            }
            System.dealloc(whole, with_guards(layout));
        }
    }
}
