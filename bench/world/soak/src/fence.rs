//! Buffers that are lent: known numbers stand before and behind, and a copy is kept of all that
//! stands there, so that every write is seen that the call may not make.

use crate::memcheck;
use compare_world::differs::{Differs, same_numbers};
use std::fmt::Debug;
use std::ptr::null_mut;

/// So many stand on each side. Odd, so that no buffer begins where larger things than its elements
/// would.
const FENCE: usize = 37;

/// What buffers consist of.
pub trait Element: Copy + Debug + PartialEq {
    /// The one that stands at a place where nobody has written.
    fn unwritten(place: usize) -> Self;
}

/// What the call may do with it.
#[derive(Clone, Copy, Eq, PartialEq)]
pub enum Access {
    Read,
    /// Reads and writes, if it accepts.
    Change,
    /// As a change, and what stands there before tells nothing.
    Write,
}

/// As a call takes it.
#[derive(Clone, Copy)]
pub struct Loan<T> {
    pub pointer: *mut T,
    pub length: usize,
}

pub struct Fenced<T> {
    name: &'static str,
    /// The fence, the room, and the fence again.
    storage: Vec<T>,
    /// The same as it was lent.
    kept: Vec<T>,
    length: usize,
    access: Access,
    lent_empty: bool,
}

/// Any of them, when the call is over.
pub trait Lent {
    /// Fails where the call has written what it may not: a refused one anything.
    fn take_back(&mut self, accepted: bool) -> Result<(), Differs>;
}

/// All that one call was lent.
pub fn take_back(answer: u32, lent: &mut [&mut dyn Lent]) -> Result<(), Differs> {
    // Every one is allowed again before somebody tells what is wrong with the first.
    let answers: Vec<_> = lent
        .iter_mut()
        .map(|lent| lent.take_back(answer == 0))
        .collect();
    answers.into_iter().collect()
}

impl<T: Element> Fenced<T> {
    /// With room for so many.
    pub fn new(name: &'static str, room: usize) -> Fenced<T> {
        let storage: Vec<T> = (0..room + 2 * FENCE).map(T::unwritten).collect();
        Fenced {
            name,
            kept: storage.clone(),
            storage,
            length: 0,
            access: Access::Read,
            lent_empty: false,
        }
    }

    /// The first ones of the room.
    pub fn first(&self, count: usize) -> &[T] {
        &self.storage[FENCE..FENCE + count]
    }

    pub fn first_mut(&mut self, count: usize) -> &mut [T] {
        &mut self.storage[FENCE..FENCE + count]
    }

    pub fn array<const N: usize>(&self) -> &[T; N] {
        self.first(N).try_into().expect("as many")
    }

    pub fn put(&mut self, elements: &[T]) {
        self.first_mut(elements.len()).copy_from_slice(elements);
    }

    pub fn lend(&mut self, length: usize, access: Access) -> Loan<T> {
        let room = self.storage.len() - 2 * FENCE;
        assert!(length <= room, "{} has room for {room}", self.name);
        let end = FENCE + length;
        if access == Access::Write {
            let places = self.storage.iter_mut().enumerate();
            places
                .take(end)
                .skip(FENCE)
                .for_each(|(at, element)| *element = T::unwritten(at));
        }
        (self.length, self.access) = (length, access);
        self.kept.copy_from_slice(&self.storage);
        memcheck::forbid(&self.storage[..FENCE]);
        memcheck::forbid(&self.storage[end..]);
        Loan {
            pointer: self.pointer(),
            length,
        }
    }

    /// One number to be written.
    pub fn lend_one(&mut self) -> Loan<T> {
        self.lend(1, Access::Write)
    }

    /// Of nothing every other one is null, as C has it.
    fn pointer(&mut self) -> *mut T {
        if self.length == 0 {
            self.lent_empty = !self.lent_empty;
            if self.lent_empty {
                return null_mut();
            }
        }
        self.storage[FENCE..].as_mut_ptr()
    }

    /// What was lent, as it stands now.
    pub fn lent(&self) -> &[T] {
        self.first(self.length)
    }

    pub fn kept(&self) -> &[T] {
        &self.kept[FENCE..FENCE + self.length]
    }

    /// That this was left there.
    pub fn expect(&self, expected: &[T]) -> Result<(), Differs> {
        same_numbers(self.name, self.lent(), expected)
    }
}

impl<T: Element> Lent for Fenced<T> {
    fn take_back(&mut self, accepted: bool) -> Result<(), Differs> {
        memcheck::allow(&self.storage);
        let (from, to) = match (accepted, self.access) {
            (true, Access::Change | Access::Write) => (FENCE, FENCE + self.length),
            _ => (FENCE, FENCE),
        };
        let told = |what: Differs| what.at(format!("{}, written unasked", self.name));
        same_numbers("before", &self.storage[..from], &self.kept[..from]).map_err(told)?;
        same_numbers("behind", &self.storage[to..], &self.kept[to..]).map_err(told)
    }
}

impl Element for i32 {
    fn unwritten(place: usize) -> i32 {
        u32::unwritten(place).cast_signed()
    }
}

impl Element for u32 {
    fn unwritten(place: usize) -> u32 {
        // Numbers that no game leaves, each another one.
        0x5eed_0000 ^ (place as u32).wrapping_mul(0x0001_0081)
    }
}

impl Element for usize {
    fn unwritten(place: usize) -> usize {
        0x5eed_5eed_0000_0000 ^ place
    }
}

impl Element for u8 {
    fn unwritten(place: usize) -> u8 {
        // No map and no packed number ends with these.
        0xa0 | (place % 16) as u8
    }
}
