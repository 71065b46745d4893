//! Input that is refused for its size is not allocated for.

use ponguriena::trial::{ROW_NUMBERS, game_tunings};
use ponguriena::{Map, Refusal, Totals, Trial};
use std::alloc::{GlobalAlloc, Layout, System};
use std::cell::Cell;

/// The system's allocator, which keeps the size of the largest request.
struct Watched;

thread_local! {
    static LARGEST: Cell<usize> = const { Cell::new(0) };
}

// SAFETY: each call is the system's own; a `Cell` of a number allocates nothing.
unsafe impl GlobalAlloc for Watched {
    unsafe fn alloc(&self, layout: Layout) -> *mut u8 {
        LARGEST.set(LARGEST.get().max(layout.size()));
        // SAFETY: as the caller ensures.
        unsafe { System.alloc(layout) }
    }

    unsafe fn dealloc(&self, memory: *mut u8, layout: Layout) {
        // SAFETY: as the caller ensures.
        unsafe { System.dealloc(memory, layout) }
    }
}

#[global_allocator]
static WATCHED: Watched = Watched;

/// The largest request of a call, in bytes, with its answer.
fn largest<A>(call: impl FnOnce() -> A) -> (A, usize) {
    LARGEST.set(0);
    let answer = call();
    (answer, LARGEST.get())
}

const BAD_MAP: Option<Refusal> = Some(Refusal::BadMap);

/// Many tiles, and sides that they do not fit or that are too long.
#[test]
fn totals_are_for_valid_maps() {
    const COUNT: u32 = 1 << 22;
    let mut tiles = vec![0; COUNT as usize];
    for (width, height) in [
        (1, 1),
        (1, COUNT),
        (COUNT, 1),
        (2048, 2048),
        (1024, 1024),
        (0, 0),
        (u32::MAX, u32::MAX),
    ] {
        let (refusal, size) = largest(|| Totals::build(width, height, &mut tiles).err());
        assert_eq!((refusal, size), (BAD_MAP, 0), "{width} by {height}");
    }
    let tiles = &mut tiles[..1 << 20];
    let (refusal, size) = largest(|| Totals::build(1024, 1024, tiles).err());
    assert_eq!((refusal, size), (None, 1 << 22));
}

/// However many tunings there are, nine rows at most are allocated; a bad map comes first.
#[test]
fn rows_are_for_few_tunings() {
    let trial = (0..10_000).fold(Trial::new(), |trial, _| trial.tuning(game_tunings()));
    let map = Map {
        width: 1,
        height: 1,
        tiles: &[0],
    };
    let (answer, size) = largest(|| trial.run(&map, 0));
    assert_eq!(answer, Err(Refusal::BadTrial));
    assert!(size <= 9 * ROW_NUMBERS * size_of::<i32>(), "{size}");
    assert_eq!(trial.run(&Map { width: 2, ..map }, 0).err(), BAD_MAP);
}
