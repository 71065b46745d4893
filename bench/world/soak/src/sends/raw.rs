//! The functions of the C interface through a sender, with what they are lent.

use super::Turn;
use crate::fence::{Access, Loan};
use crate::ffi;
use crate::function::Function;
use crate::server::Server;
use harness::Call;

/// As the call takes them.
pub struct Loans {
    world: Loan<i32>,
    sender: Loan<i32>,
    sides: (u32, u32),
    tiles: Loan<u8>,
    records: Loan<i32>,
    removed: Loan<i32>,
    removed_count: Loan<usize>,
    passed: Loan<i32>,
    count: Loan<usize>,
}

/// Also what this call does not take: nobody may write there.
pub fn lend(server: &mut Server, turn: &Turn) -> Loans {
    let [world, sender, passed, records, removed] = turn.lengths;
    Loans {
        world: server.world.lend(world, Access::Change),
        sender: server.sender.lend(sender, Access::Change),
        sides: (turn.map.width as u32, turn.map.height as u32),
        tiles: server.tiles.lend(turn.map.tiles.len(), Access::Read),
        records: server.records.lend(records, Access::Write),
        removed: server.removed.lend(removed, Access::Write),
        removed_count: server.removed_count.lend_one(),
        passed: server.passed.lend(passed, Access::Write),
        count: server.count.lend_one(),
    }
}

/// # Safety
///
/// What is lent is there, and nothing overlaps.
pub unsafe fn called(loans: &Loans, turn: &Turn) -> (Function, u32) {
    let (role, world, sender, passed) = (turn.role, loans.world, loans.sender, loans.passed);
    // SAFETY: as the caller says.
    unsafe {
        match turn.call {
            Call::Leave { id } => {
                let answer = ffi::ponguriena_send_leave(
                    role,
                    world.pointer,
                    world.length,
                    sender.pointer,
                    sender.length,
                    id,
                    passed.pointer,
                    passed.length,
                    &mut *loans.count.pointer,
                );
                (Function::SendLeave, answer)
            }
            Call::Tune { index, hundredths } => {
                let answer = ffi::ponguriena_send_tune(
                    role,
                    world.pointer,
                    world.length,
                    sender.pointer,
                    sender.length,
                    index,
                    hundredths,
                    passed.pointer,
                    passed.length,
                    &mut *loans.count.pointer,
                );
                (Function::SendTune, answer)
            }
            _ => (Function::SendStep, stepped(loans, role)),
        }
    }
}

/// # Safety
///
/// As for `called`.
unsafe fn stepped(loans: &Loans, role: i32) -> u32 {
    let ((width, height), tiles) = (loans.sides, loans.tiles);
    // SAFETY: as the caller says.
    unsafe {
        ffi::ponguriena_send_step(
            role,
            loans.world.pointer,
            loans.world.length,
            loans.sender.pointer,
            loans.sender.length,
            width,
            height,
            tiles.pointer,
            tiles.length,
            loans.records.pointer,
            loans.records.length,
            loans.removed.pointer,
            loans.removed.length,
            &mut *loans.removed_count.pointer,
            loans.passed.pointer,
            loans.passed.length,
            &mut *loans.count.pointer,
        )
    }
}
