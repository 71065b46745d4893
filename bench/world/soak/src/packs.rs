//! Packed records, for a relay.

use crate::fence::{Access, take_back};
use crate::ffi;
use crate::function::Function;
use crate::maps::{other_length, room_for};
use crate::played::{Compared, Played};
use crate::server::Server;
use compare_world::any_numbers::any;
use compare_world::differs::{Differs, same};
use harness::SEATS;
use harness::encoding::RECORDS_NUMBERS;
use reference::Xorshift;
use reference::packed::{self, Fault, MOST_PACKED, NUMBERS};
use tile_map::draw::{below, pick};

const BAD_LENGTH: u32 = 17;

/// One in so many is lent a wrong length.
const WRONG_EVERY: usize = 12;

pub fn pack(server: &mut Server, random: &mut Xorshift) -> Result<Played, Differs> {
    let numbers = any_record(server, random);
    let lengths = [NUMBERS, MOST_PACKED].map(|right| drawn_length(right, random));
    server.record.put(&numbers);
    let record = server.record.lend(lengths[0], Access::Read);
    let bytes = server.bytes.lend(lengths[1], Access::Write);
    let count = server.count.lend_one();
    // SAFETY: each loan is of as many elements as it says, and none overlaps another.
    let answer = unsafe {
        let (to, room) = (bytes.pointer, bytes.length);
        ffi::ponguriena_pack(record.pointer, record.length, to, room, &mut *count.pointer)
    };
    let told = |what: Differs| what.at(format!("pack {numbers:?}, lengths {lengths:?}"));
    take_back(
        answer,
        &mut [&mut server.record, &mut server.bytes, &mut server.count],
    )
    .map_err(told)?;
    if lengths != [NUMBERS, MOST_PACKED] {
        same("answer", answer, BAD_LENGTH).map_err(told)?;
        return Ok(Played::of(Function::Pack, answer, Compared::Whole));
    }
    same("answer", answer, 0).map_err(told)?;
    let (bytes, count) = packed::pack(numbers);
    server.bytes.expect(&bytes).map_err(told)?;
    server.count.expect(&[count]).map_err(told)?;
    Ok(Played::of(Function::Pack, answer, Compared::Whole))
}

pub fn unpack(server: &mut Server, random: &mut Xorshift) -> Result<Played, Differs> {
    let packed = any_bytes(server, random);
    let length = drawn_length(NUMBERS, random);
    server.bytes.put(&packed);
    let bytes = server.bytes.lend(packed.len(), Access::Read);
    let record = server.record.lend(length, Access::Write);
    let used = server.count.lend_one();
    // SAFETY: as above.
    let answer = unsafe {
        let (to, room) = (record.pointer, record.length);
        ffi::ponguriena_unpack(bytes.pointer, bytes.length, to, room, &mut *used.pointer)
    };
    let told = |what: Differs| what.at(format!("unpack {packed:?} into {length}"));
    take_back(
        answer,
        &mut [&mut server.bytes, &mut server.record, &mut server.count],
    )
    .map_err(told)?;
    let expected = match length {
        NUMBERS => packed::unpack(&packed).map_err(number),
        _ => Err(BAD_LENGTH),
    };
    same("answer", answer, expected.err().unwrap_or(0)).map_err(told)?;
    if let Ok((numbers, used)) = expected {
        server.record.expect(&numbers).map_err(told)?;
        server.count.expect(&[used]).map_err(told)?;
    }
    Ok(Played::of(Function::Unpack, answer, Compared::Whole))
}

fn number(fault: Fault) -> u32 {
    match fault {
        Fault::Ends => 11,
        Fault::Wrong => 12,
    }
}

fn drawn_length(right: usize, random: &mut Xorshift) -> usize {
    match below(random, WRONG_EVERY) {
        0 => other_length(right, random),
        _ => right,
    }
}

/// One that a step has told, or any.
fn any_record(server: &Server, random: &mut Xorshift) -> [i32; NUMBERS] {
    let records = server.records.array::<RECORDS_NUMBERS>();
    let told = &records[below(random, SEATS) * (1 + NUMBERS) + 1..][..NUMBERS];
    match below(random, 2) {
        0 => told.try_into().expect("a record"),
        _ => [(); NUMBERS].map(|()| any(random)),
    }
}

/// A record's, with others behind them, cut off or with some overwritten; or any.
fn any_bytes(server: &Server, random: &mut Xorshift) -> Vec<u8> {
    let (record, count) = packed::pack(any_record(server, random));
    let mut bytes = record[..count].to_vec();
    match below(random, 5) {
        0 => bytes.truncate(below(random, count)),
        1 => {
            let byte = random.pattern() as u8;
            bytes[below(random, count)] = pick(random, &[0, 128, 255, byte]);
        }
        2 => bytes = (0..count).map(|_| random.pattern() as u8).collect(),
        _ => {}
    }
    let room = room_for(MOST_PACKED) - bytes.len();
    let behind = below(random, 2) * below(random, room);
    bytes.extend((0..behind).map(|_| random.pattern() as u8));
    bytes
}
