//! That every write is seen that a call may not make.

use crate::fence::{Access, Element, Fenced, Loan, take_back};

const ROOM: usize = 20;
const LENGTH: usize = 12;

/// What is said after a write at that place, seen from where the loan begins.
fn after_write<T: Element>(access: Access, answer: u32, place: isize) -> Result<(), String> {
    let mut fenced = Fenced::<T>::new("numbers", ROOM);
    let loan: Loan<T> = fenced.lend(LENGTH, access);
    // SAFETY: the fences are part of what is kept there.
    unsafe {
        let at = loan.pointer.offset(place);
        let other = (0..)
            .map(T::unwritten)
            .find(|&element| element != *at)
            .expect("another");
        *at = other;
    }
    take_back(answer, &mut [&mut fenced]).map_err(|what| what.to_string())
}

fn outside_is_seen<T: Element>() {
    let (length, room) = (LENGTH as isize, ROOM as isize);
    for access in [Access::Read, Access::Change, Access::Write] {
        for place in [-37, -1, length, room - 1, room, room + 36] {
            for answer in [0, 17] {
                let seen = after_write::<T>(access, answer, place);
                assert!(
                    seen.expect_err("a write")
                        .starts_with("numbers, written unasked")
                );
            }
        }
    }
}

#[test]
fn a_write_outside_is_seen() {
    outside_is_seen::<i32>();
    outside_is_seen::<u32>();
    outside_is_seen::<usize>();
    outside_is_seen::<u8>();
}

#[test]
fn a_write_inside_is_allowed_where_it_is_asked_for() {
    for place in [0, LENGTH as isize - 1] {
        assert_eq!(after_write::<i32>(Access::Change, 0, place), Ok(()));
        assert_eq!(after_write::<i32>(Access::Write, 0, place), Ok(()));
        assert!(after_write::<i32>(Access::Read, 0, place).is_err());
        assert!(after_write::<i32>(Access::Change, 9, place).is_err());
        assert!(after_write::<i32>(Access::Write, 9, place).is_err());
    }
}

#[test]
fn what_stands_next_to_each_other_differs() {
    for place in 0..3 * ROOM {
        assert_ne!(i32::unwritten(place), i32::unwritten(place + 1));
        assert_ne!(u8::unwritten(place), u8::unwritten(place + 1));
        assert_ne!(usize::unwritten(place), usize::unwritten(place + 1));
    }
}
