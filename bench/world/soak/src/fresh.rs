//! Worlds, senders and screens as they begin, and which layout they have.

use crate::fence::{Access, Fenced, take_back};
use crate::ffi;
use crate::function::Function;
use crate::maps::other_length;
use crate::played::{Compared, Played, same_answer};
use crate::server::Server;
use compare_world::differs::{Differs, same};
use harness::encoding::encoded;
use harness::sending::{Screen, Sender, encoded_screen, encoded_sender};
use harness::{Refusal, World};
use reference::Xorshift;
use tile_map::draw::{below, pick};

/// One in so many has the right length, since much is lost with it.
const RIGHT_EVERY: usize = 40;

type Fresh = unsafe extern "C" fn(*mut i32, usize) -> u32;

pub fn layout() -> Result<Played, Differs> {
    same("layout", ffi::ponguriena_layout(), ponguriena::LAYOUT)?;
    Ok(Played::of(Function::Layout, 0, Compared::Whole))
}

pub fn any(server: &mut Server, random: &mut Xorshift) -> Result<Played, Differs> {
    let functions = [
        Function::Fresh,
        Function::SenderFresh,
        Function::ScreenFresh,
    ];
    let function = pick(random, &functions);
    let wrong = below(random, RIGHT_EVERY) != 0;
    play(server, function, wrong.then_some(random))
}

/// With any length but the right one, where one is drawn.
pub fn play(
    server: &mut Server,
    function: Function,
    wrong: Option<&mut Xorshift>,
) -> Result<Played, Differs> {
    let played = match function {
        Function::SenderFresh => {
            let expected = encoded_sender(&Sender::fresh());
            let call = ffi::ponguriena_sender_fresh;
            made(&mut server.sender, call, &expected, wrong)
        }
        Function::ScreenFresh => {
            let expected = encoded_screen(&Screen::fresh());
            let call = ffi::ponguriena_screen_fresh;
            made(&mut server.screen, call, &expected, wrong)
        }
        _ => {
            let expected = encoded(&World::fresh());
            made(&mut server.world, ffi::ponguriena_fresh, &expected, wrong)
        }
    };
    let answer = played.map_err(|what| what.at(function.name()))?;
    Ok(Played::of(function, answer, Compared::Whole))
}

fn made(
    kept: &mut Fenced<i32>,
    call: Fresh,
    expected: &[i32],
    wrong: Option<&mut Xorshift>,
) -> Result<u32, Differs> {
    let right = expected.len();
    let length = wrong.map_or(right, |random| other_length(right, random));
    let loan = kept.lend(length, Access::Change);
    // SAFETY: the loan is of so many numbers.
    let answer = unsafe { call(loan.pointer, loan.length) };
    take_back(answer, &mut [kept])?;
    let expected = match length == right {
        true => Ok(expected),
        false => Err(Refusal::Length),
    };
    if let Some(expected) = same_answer(answer, expected)? {
        kept.expect(expected)?;
    }
    Ok(answer)
}
