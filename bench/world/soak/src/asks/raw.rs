//! The functions of the C interface on the world, with what they are lent.

use crate::fence::{Access, Loan};
use crate::ffi;
use crate::server::Server;
use compare_world::lent_asks::Turn;
use harness::Call;
use harness::roles::Ask;
use original::input_numbers;

/// As the call takes them.
pub struct Loans {
    world: Loan<i32>,
    sides: (u32, u32),
    tiles: Loan<u8>,
    records: Loan<i32>,
    removed: Loan<i32>,
    record: Loan<i32>,
    input: Loan<i32>,
    number: Loan<i32>,
    count: Loan<usize>,
}

/// Also what this call does not take: nobody may write there.
pub fn lend(server: &mut Server, turn: &Turn) -> Loans {
    let [world, records, removed, record, input] = turn.lengths;
    let is_call = matches!(turn.ask, Ask::Call(_));
    let access = if is_call {
        Access::Change
    } else {
        Access::Read
    };
    let tiles = server.tiles.lend(turn.map.tiles.len(), Access::Read);
    Loans {
        world: server.world.lend(world, access),
        sides: (turn.map.width as u32, turn.map.height as u32),
        tiles,
        records: server.records.lend(records, Access::Write),
        removed: server.removed.lend(removed, Access::Write),
        record: server.record.lend(record, Access::Write),
        input: server.input.lend(input, Access::Write),
        number: server.number.lend_one(),
        count: server.count.lend_one(),
    }
}

/// # Safety
///
/// What is lent is there, and nothing overlaps.
pub unsafe fn asked(loans: &Loans, turn: &Turn) -> u32 {
    let (role, Loan { pointer, length }) = (turn.role, loans.world);
    let (record, input) = (loans.record, loans.input);
    // SAFETY: as the caller says.
    unsafe {
        match turn.ask {
            Ask::Call(call) => called(loans, role, call),
            Ask::Record { id } => {
                ffi::ponguriena_record(role, pointer, length, id, record.pointer, record.length)
            }
            Ask::FloorMark { id } => {
                ffi::ponguriena_floor_mark(role, pointer, length, id, &mut *loans.number.pointer)
            }
            Ask::StoredInput { id } => {
                let (to, room) = (input.pointer, input.length);
                ffi::ponguriena_player_input(role, pointer, length, id, to, room)
            }
            Ask::Tuning { index } => {
                ffi::ponguriena_tuning(role, pointer, length, index, &mut *loans.number.pointer)
            }
        }
    }
}

/// # Safety
///
/// As for `asked`.
unsafe fn called(loans: &Loans, role: i32, call: Call) -> u32 {
    let Loan { pointer, length } = loans.world;
    let ((width, height), tiles) = (loans.sides, loans.tiles);
    // SAFETY: as the caller says.
    unsafe {
        match call {
            Call::Join { id, x, y } => ffi::ponguriena_join(
                role,
                pointer,
                length,
                width,
                height,
                tiles.pointer,
                tiles.length,
                id,
                x,
                y,
            ),
            Call::Leave { id } => ffi::ponguriena_leave(role, pointer, length, id),
            Call::Input { id, input } => {
                let [direction, x, y, jump, hook] = input_numbers(input);
                ffi::ponguriena_input(role, pointer, length, id, direction, x, y, jump, hook)
            }
            Call::Tune { index, hundredths } => {
                ffi::ponguriena_tune(role, pointer, length, index, hundredths)
            }
            Call::Step => stepped(loans, role),
        }
    }
}

/// # Safety
///
/// As for `asked`.
unsafe fn stepped(loans: &Loans, role: i32) -> u32 {
    let ((width, height), world, tiles) = (loans.sides, loans.world, loans.tiles);
    let (records, removed) = (loans.records, loans.removed);
    // SAFETY: as the caller says.
    unsafe {
        ffi::ponguriena_step(
            role,
            world.pointer,
            world.length,
            width,
            height,
            tiles.pointer,
            tiles.length,
            records.pointer,
            records.length,
            removed.pointer,
            removed.length,
            &mut *loans.count.pointer,
        )
    }
}
