//! Prints test vectors for the program `test_packed`: how many bytes there are, 80
//! bytes, then the number, how many bytes were used, and the record, in 8 hex digits
//! each.

use reference::Xorshift;
use reference::packed::{Fault, NUMBERS, pack, pack_int, unpack};

const BYTES: usize = 80;

/// Numbers at which the count of bytes grows, and their neighbours.
const LIMITS: [i32; 22] = [
    0,
    1,
    62,
    63,
    64,
    65,
    8191,
    8192,
    8193,
    1_048_575,
    1_048_576,
    1_048_577,
    134_217_727,
    134_217_728,
    134_217_729,
    1_073_741_823,
    i32::MAX - 1,
    i32::MAX,
    255,
    256,
    65_535,
    65_536,
];

/// Bytes that are no number: not the shortest, too large, or cut off.
const FAULTS: [&[u8]; 12] = [
    &[0x80, 0x00],
    &[0xc0, 0x00],
    &[0x80, 0x80, 0x00],
    &[0xbf, 0xff, 0xff, 0x00],
    &[0x80, 0x80, 0x80, 0x80, 0x00],
    &[0x80, 0x80, 0x80, 0x80, 0x10],
    &[0xff, 0xff, 0xff, 0xff, 0x1f],
    &[0xff, 0xff, 0xff, 0xff, 0x80],
    &[0xff, 0xff, 0xff, 0xff, 0x8f],
    &[0x80, 0x80, 0x80, 0x80, 0x80],
    &[0xc0, 0x80, 0x80, 0x80, 0x40],
    &[0x80, 0x80, 0x80, 0x80, 0xff],
];

fn main() {
    let mut random = Xorshift::default();
    for n in limits() {
        records_of(n)
            .iter()
            .for_each(|numbers| whole(*numbers, &[]));
    }
    for _ in 0..300 {
        let numbers = drawn(&mut random);
        let after = [random.pattern() as u8, 0xff];
        whole(numbers, &after);
        damaged(numbers, &mut random);
    }
    faults(&mut random);
    print(&[]);
    print(&[0; 15]);
    print(&[[0; 15].as_slice(), &[0xff]].concat());
}

fn limits() -> impl Iterator<Item = i32> {
    LIMITS.into_iter().flat_map(|n| [n, !n])
}

/// The number in the first place, in the last, and in all.
fn records_of(n: i32) -> [[i32; NUMBERS]; 3] {
    let mut first = [0; NUMBERS];
    first[0] = n;
    let mut last = [-1; NUMBERS];
    last[NUMBERS - 1] = n;
    [first, last, [n; NUMBERS]]
}

/// Numbers of every size.
fn drawn(random: &mut Xorshift) -> [i32; NUMBERS] {
    std::array::from_fn(|_| random.pattern() as i32 >> (random.pattern() % 32))
}

fn whole(numbers: [i32; NUMBERS], after: &[u8]) {
    let (bytes, count) = pack(numbers);
    print(&[&bytes[..count], after].concat());
}

/// One byte changed, and a part from the start.
fn damaged(numbers: [i32; NUMBERS], random: &mut Xorshift) {
    let (bytes, count) = pack(numbers);
    let mut changed = bytes[..count].to_vec();
    let place = random.pattern() as usize % count;
    changed[place] ^= 1 << (random.pattern() % 8);
    print(&changed);
    print(&bytes[..random.pattern() as usize % count]);
}

/// Each fault at every number, whole and cut off at its last byte.
fn faults(random: &mut Xorshift) {
    for place in 0..NUMBERS {
        let before: Vec<u8> = drawn(random)[..place]
            .iter()
            .flat_map(|&n| {
                let (bytes, count) = pack_int(n);
                bytes[..count].to_vec()
            })
            .collect();
        for fault in FAULTS {
            print(&[&before, fault].concat());
            print(&[&before, fault, &[0; 3]].concat());
            print(&[&before, &fault[..fault.len() - 1]].concat());
        }
    }
}

fn print(bytes: &[u8]) {
    let mut row = [0; BYTES];
    row[..bytes.len()].copy_from_slice(bytes);
    let digits: String = row.iter().map(|byte| format!("{byte:02x}")).collect();
    let (number, used, numbers) = match unpack(bytes) {
        Ok((numbers, used)) => (0, used, numbers),
        Err(Fault::Ends) => (11, 0, [0; NUMBERS]),
        Err(Fault::Wrong) => (12, 0, [0; NUMBERS]),
    };
    let words: Vec<String> = [number, used as i32]
        .into_iter()
        .chain(numbers)
        .map(|word| format!("{word:08x}"))
        .collect();
    println!("{:02x} {digits} {}", bytes.len(), words.join(" "));
}
