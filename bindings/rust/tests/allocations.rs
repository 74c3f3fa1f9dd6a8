//! The driver allocates where an area grows and nowhere else: as many times for many rows as for few.
use std::alloc::{GlobalAlloc, Layout, System};
use std::cell::Cell;

use rowkeeper::{Frame, Options, asof};

/// The system's allocator, which counts for each thread.
struct Counting;

thread_local! {
    static COUNT: Cell<usize> = const { Cell::new(0) };
}

// SAFETY: every call is the system's.
unsafe impl GlobalAlloc for Counting {
    /// Counts, and allocates.
    unsafe fn alloc(&self, layout: Layout) -> *mut u8 {
        COUNT.set(COUNT.get() + 1);
        unsafe { System.alloc(layout) }
    }

    /// Frees.
    unsafe fn dealloc(&self, place: *mut u8, layout: Layout) {
        unsafe { System.dealloc(place, layout) }
    }
}

#[global_allocator]
static ALLOCATOR: Counting = Counting;

/// How many allocations a join of so many frames of ten rows on each side makes, where right rows carry P columns.
fn allocations<const P: usize>(frames: i64) -> usize {
    let keys = |i: i64| (10 * i..10 * i + 10).collect::<Vec<_>>();
    let lefts: Vec<Frame> = (0..frames).map(|i| Frame::of_keys(&keys(i)).unwrap()).collect();
    let rights: Vec<Frame> = (0..frames).map(|i| Frame::of_columns(&vec![&keys(i)[..]; 1 + P]).unwrap()).collect();
    let options = Options { carried: P, ..Options::default() };
    let before = COUNT.get();
    let joined = asof(&options, &lefts, &rights).unwrap().carrying::<P>();
    let matched = joined.filter(|found| matches!(found, Ok(Some(_)))).count();
    assert_eq!(matched as i64, 10 * frames);
    COUNT.get() - before
}

/// Ten times, a hundred times the rows: not one allocation more.
#[test]
fn none_in_the_loop() {
    let few = allocations::<0>(10);
    assert!((1..=20).contains(&few), "{few} allocations");
    assert_eq!((allocations::<0>(100), allocations::<0>(1000)), (few, few));
    assert_eq!((allocations::<3>(10), allocations::<3>(1000)), (few, few));
}
