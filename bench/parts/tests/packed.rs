//! Packed records against plain Rust.

use ponguriena::{CharacterCore, Refusal, packed};
use reference::Xorshift;
use reference::packed::{Fault, NUMBERS, pack, unpack};

fn told(answer: Result<([i32; NUMBERS], usize), Fault>) -> Result<(CharacterCore, usize), Refusal> {
    match answer {
        Ok((numbers, used)) => Ok((CharacterCore::from_numbers(numbers), used)),
        Err(Fault::Ends) => Err(Refusal::BytesEnd),
        Err(Fault::Wrong) => Err(Refusal::BadBytes),
    }
}

fn drawn(random: &mut Xorshift) -> [i32; NUMBERS] {
    std::array::from_fn(|_| random.pattern() as i32 >> (random.pattern() % 32))
}

#[test]
fn records_are_packed_alike_and_come_back() {
    let mut random = Xorshift::default();
    for _ in 0..200_000 {
        let numbers = drawn(&mut random);
        let core = CharacterCore::from_numbers(numbers);
        let (bytes, count) = packed::pack(core);
        assert_eq!((bytes, count), pack(numbers));
        assert_eq!(packed::unpack(&bytes), Ok((core, count)));
    }
}

#[test]
fn any_bytes_are_read_alike() {
    let mut random = Xorshift::default();
    for _ in 0..200_000 {
        let (mut bytes, count) = pack(drawn(&mut random));
        for _ in 0..random.pattern() % 4 {
            let place = random.pattern() as usize % bytes.len();
            bytes[place] = random.pattern() as u8;
        }
        let length = (count + 2).min(bytes.len()) - random.pattern() as usize % 3;
        assert_eq!(
            packed::unpack(&bytes[..length]),
            told(unpack(&bytes[..length]))
        );
    }
}

/// Every number, fifteen at a time, on two threads.
#[test]
#[ignore = "all 2^32 numbers: bench/compare asks for it"]
fn every_number_comes_back() {
    std::thread::scope(|scope| {
        scope.spawn(|| come_back(i64::from(i32::MIN)..0));
        scope.spawn(|| come_back(0..i64::from(i32::MAX) + 1));
    });
}

fn come_back(all: std::ops::Range<i64>) {
    let last = all.end - 1;
    for start in all.step_by(NUMBERS) {
        let numbers = std::array::from_fn(|i| (start + i as i64).min(last) as i32);
        let core = CharacterCore::from_numbers(numbers);
        let (bytes, count) = packed::pack(core);
        assert_eq!((bytes, count), pack(numbers));
        assert_eq!(packed::unpack(&bytes), Ok((core, count)));
    }
}
