//! Plays a few calls without std; ends with 0 where all is as it should be.

#![no_std]
#![no_main]

use core::alloc::{GlobalAlloc, Layout};
use core::panic::PanicInfo;
use core::ptr::null_mut;
use ponguriena::{CharacterId, Map, PlayerInput, Refusal, Role, World};

#[link(name = "c")]
unsafe extern "C" {
    safe fn abort() -> !;
}

/// Nothing that is called here allocates.
struct Nothing;

// SAFETY: it hands out nothing.
unsafe impl GlobalAlloc for Nothing {
    unsafe fn alloc(&self, _: Layout) -> *mut u8 {
        null_mut()
    }

    unsafe fn dealloc(&self, _: *mut u8, _: Layout) {}
}

#[global_allocator]
static NOTHING: Nothing = Nothing;

#[panic_handler]
fn stop(_: &PanicInfo<'_>) -> ! {
    abort()
}

/// The compiled `alloc` names it; nobody unwinds.
// SAFETY: without std no other function has this name.
#[unsafe(no_mangle)]
extern "C" fn rust_eh_personality() {}

const ID: CharacterId = CharacterId(7);

/// Where one who runs to the right is after a step.
fn x_after_a_step() -> Result<i32, Refusal> {
    let map = Map {
        width: 3,
        height: 3,
        tiles: &[0, 0, 0, 0, 0, 0, 1, 1, 1],
    };
    let mut world = World::fresh();
    world.join(Role::Referee, &map, ID, 20, 49)?;
    let right = PlayerInput {
        direction: 1,
        ..PlayerInput::default()
    };
    world.input(Role::Seat(ID), ID, right)?;
    let records = world.step(Role::Referee, &map)?;
    records.get(ID).map(|core| core.x).ok_or(Refusal::Absent)
}

// SAFETY: no other function has this name.
#[unsafe(no_mangle)]
extern "C" fn main() -> i32 {
    i32::from(x_after_a_step() != Ok(22))
}
