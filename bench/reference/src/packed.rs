//! Packed whole numbers and records, by the customer's words alone.

/// The numbers of a record.
pub const NUMBERS: usize = 15;

/// A number has at most five bytes.
pub const MOST_INT: usize = 5;

/// A record has at most so many bytes.
pub const MOST_PACKED: usize = MOST_INT * NUMBERS;

/// Why bytes are no record.
#[derive(Clone, Copy, Debug, Eq, PartialEq)]
pub enum Fault {
    /// 11: they end before the fifteenth number is complete.
    Ends,
    /// 12: a number is not in its shortest form, or its fifth byte has a bit above the
    /// lowest four.
    Wrong,
}

/// The bytes of a number, and how many they are; the others are 0.
#[inline]
pub fn pack_int(n: i32) -> ([u8; MOST_INT], usize) {
    let negative = n < 0;
    // -1 - n has the bits of n turned over.
    let mut kept = if negative { !n } else { n } as u32;
    let mut bytes = [0; MOST_INT];
    bytes[0] = (kept % 64) as u8 + if negative { 64 } else { 0 };
    kept /= 64;
    let mut count = 1;
    while kept != 0 {
        bytes[count - 1] += 128;
        bytes[count] = (kept % 128) as u8;
        kept /= 128;
        count += 1;
    }
    (bytes, count)
}

/// The number that bytes start with, and how many bytes it has.
#[inline]
pub fn unpack_int(bytes: &[u8]) -> Result<(i32, usize), Fault> {
    let first = *bytes.first().ok_or(Fault::Ends)?;
    let negative = first / 64 % 2 == 1;
    let mut kept = u32::from(first % 64);
    let mut count = 1;
    let mut more = first >= 128;
    while more {
        let byte = *bytes.get(count).ok_or(Fault::Ends)?;
        if byte == 0 || (count == MOST_INT - 1 && byte >= 16) {
            return Err(Fault::Wrong);
        }
        kept += u32::from(byte % 128) << (7 * count - 1);
        more = byte >= 128;
        count += 1;
    }
    let kept = kept as i32;
    Ok((if negative { !kept } else { kept }, count))
}

/// The bytes of a record, and how many they are; the others are 0.
#[inline]
pub fn pack(numbers: [i32; NUMBERS]) -> ([u8; MOST_PACKED], usize) {
    let mut bytes = [0; MOST_PACKED];
    let mut at = 0;
    for n in numbers {
        let (int, count) = pack_int(n);
        bytes[at..at + count].copy_from_slice(&int[..count]);
        at += count;
    }
    (bytes, at)
}

/// The record that bytes start with, and how many of them it has.
#[inline]
pub fn unpack(bytes: &[u8]) -> Result<([i32; NUMBERS], usize), Fault> {
    let mut numbers = [0; NUMBERS];
    let mut at = 0;
    for number in &mut numbers {
        let (n, count) = unpack_int(&bytes[at..])?;
        *number = n;
        at += count;
    }
    Ok((numbers, at))
}
