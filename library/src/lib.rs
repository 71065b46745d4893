//! The character physics of Teeworlds 0.6, ported from the `world` part of libtw2 to Rattle, a
//! language in which every function is proved to meet its contract. These are safe Rust functions
//! over the C interface of what was proved; `include/ponguriena.h` is for C.
//!
//! The [`World`] of characters has its calls, each for whoever has the [`Role`] to make it.
//! Beside it: what goes from there to the screens ([`Sender`] and [`Screen`]), the same calls on
//! lent numbers ([`buffers`] and [`send_buffers`]), records as packed bytes ([`packed`]), how many
//! tiles of an [`Area`] are solid ([`Totals`]), how near players come to a tile under a tuning
//! ([`Trial`]), a [`Way`] to a place, and the [`aim`] angle of a target.
//!
//! ```
//! use ponguriena::{CharacterId, Map, PlayerInput, Refusal, Role, World};
//!
//! let map = Map { width: 3, height: 3, tiles: &[0, 0, 0, 0, 0, 0, 1, 1, 1] };
//! let mut world = World::fresh();
//! world.join(Role::Referee, &map, CharacterId(7), 20, 48)?;
//! // 50 times a second: the inputs that came, a step, and its records to the players.
//! let input = PlayerInput { direction: 1, ..PlayerInput::default() };
//! world.input(Role::Seat(CharacterId(7)), CharacterId(7), input)?;
//! for (id, core) in &world.step(Role::Referee, &map)? {
//!     assert_eq!((id, core.x, core.y), (CharacterId(7), 22, 49));
//! }
//! # Ok::<(), Refusal>(())
//! ```
//!
//! # What it needs
//!
//! - **x86-64 Linux alone**: what was proved is compiled for it. The archive `libponguriena.a` is
//!   found in the folder that the environment variable `PONGURIENA_STATICLIB` names when this is
//!   built, else in `lib` beside the manifest, as in a package.
//! - **`no_std`**, with `alloc` for [`Totals`], [`Trial`] and [`Passed::numbers`].
//! - **Stack**: a step needs 14 KB at most, [`Screen::receive`] 43 KB, a search and a trial 37 KB, a
//!   call through a [`Sender`] 165 KB, every other call 12 KB; beside them what the types here are
//!   themselves: a [`World`] 6 KB, [`Records`] 4.5 KB, a [`Sender`] and a [`Screen`] 6 KB each,
//!   [`PassedAlong`] 11 KB.
//! - **Time**, measured before the compiler changed: a step of 64 players takes 30 µs in play.
//!   The slowest found by legal calls, which is no bound, takes 12 to 17 ms, through a [`Sender`]
//!   too. A search makes up to 306 steps, a [`Trial`] up to 24,000: they belong on another thread
//!   than the one that steps the world.
//! - **Threads**: a call reads and writes what it is lent and keeps nothing. All types here are
//!   [`Send`] and [`Sync`]; any thread may step any world.
//! - **Buffers** that one call is lent do not overlap, which the borrows here see to.
//! - **Byte order**: numbers are `i32`. Who sends or keeps a world says in which order their
//!   bytes go (`to_le_bytes`), and with which [`LAYOUT`].

#![no_std]
#![deny(missing_docs)]

extern crate alloc;

mod aim;
pub mod area;
pub mod buffers;
mod character_id;
// As tools/c_interface makes it.
#[rustfmt::skip]
mod ffi;
mod hook_state;
mod layout;
mod map;
pub mod packed;
mod passed;
mod refusal;
mod role;
mod screen;
mod search;
pub mod send_buffers;
mod sender;
mod snap_obj;
pub mod trial;
mod tuning;
mod world;

pub use aim::{Aim, aim};
pub use area::{Area, Totals};
pub use buffers::SEATS;
pub use character_id::CharacterId;
pub use hook_state::HookState;
pub use layout::LAYOUT;
pub use map::Map;
pub use passed::{Passed, PassedAlong, PassedIter};
pub use refusal::Refusal;
pub use role::Role;
pub use screen::Screen;
pub use search::{Buttons, Way};
pub use sender::Sender;
pub use snap_obj::{CORE_NUMBERS, CharacterCore, INPUT_NUMBERS, PlayerInput};
pub use trial::{Nearest, Run, Trial};
pub use tuning::{LONGEST_HOLD, SHORTEST_HOLD, Tuning};
pub use world::{Records, RecordsIter, World};
