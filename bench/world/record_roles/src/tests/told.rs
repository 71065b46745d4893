//! What is read, and who is held while it is.

use super::each_line;
use crate::sequence::RoleLine;
use harness::roles::{Ask, Told};
use harness::{Call, SEATS, World};
use original::{CORE_NUMBERS, Hook, State, core_numbers};
use std::collections::BTreeSet;

const HOOKED_PLAYER: usize = 8;
const HOOK_STATE: usize = 9;

fn holds(world: &World, id: usize) -> Option<usize> {
    match State::from(world.slots[id].character).hook {
        Hook::Grabbed(held, _) => Some(held.0 as usize),
        _ => None,
    }
}

fn read(line: &RoleLine) -> Option<&[i32]> {
    match &line.answer {
        Ok(Told::Read(numbers)) => Some(numbers),
        _ => None,
    }
}

#[test]
fn a_leave_that_is_refused_lets_nobody_go() {
    let mut seen = BTreeSet::new();
    each_line(|before, line| {
        let Ask::Call(Call::Leave { id }) = line.ask else {
            return;
        };
        for holder in (0..SEATS).filter(|&holder| holds(before, holder) == Some(id as usize)) {
            let still = holds(&line.after, holder).is_some();
            assert_eq!(still, line.number() != 0);
            seen.insert((line.number(), holder < id as usize));
        }
    });
    let expected = [0, 13].map(|number| [(number, false), (number, true)]);
    assert_eq!(seen, expected.into_iter().flatten().collect());
}

/// After a leave and after a death, at once: the last step's record still tells the grab.
#[test]
fn a_record_is_not_that_of_the_last_step() {
    let mut published: [Option<[i32; CORE_NUMBERS]>; SEATS] = [None; SEATS];
    let (mut same, mut grabs, mut newcomers) = (0, BTreeSet::new(), 0);
    each_line(|_, line| {
        if line.fresh {
            published = [None; SEATS];
        }
        match (line.ask, &line.answer) {
            (Ask::Call(Call::Step), Ok(Told::Published(told))) => {
                published = told.records.map(|core| core.map(core_numbers));
            }
            (Ask::Record { id }, Ok(Told::Read(numbers))) => match published[id as usize] {
                Some(last) if last[..] == numbers[..] => same += 1,
                Some(last) if last[HOOK_STATE] == 5 && last[HOOKED_PLAYER] >= 0 => {
                    assert_eq!(numbers[HOOKED_PLAYER..][..2], [-1, -1]);
                    let held = last[HOOKED_PLAYER] as usize;
                    grabs.insert((id as usize) < held);
                }
                _ => newcomers += 1,
            },
            _ => {}
        }
    });
    assert_eq!(grabs.len(), 2);
    assert!(same > 20 && newcomers > 3, "{same} {newcomers}");
}

/// Each mark, and hooks and inputs of several kinds.
#[test]
fn what_is_read_differs() {
    let (mut marks, mut hooks, mut inputs) = (BTreeSet::new(), BTreeSet::new(), BTreeSet::new());
    each_line(|_, line| match (line.ask, read(line)) {
        (Ask::FloorMark { .. }, Some(numbers)) => {
            marks.insert(numbers.to_vec());
        }
        (Ask::Record { .. }, Some(numbers)) => {
            hooks.insert(numbers[HOOK_STATE]);
        }
        (Ask::StoredInput { .. }, Some(numbers)) => {
            inputs.insert(numbers.to_vec());
        }
        (Ask::Tuning { .. }, Some(numbers)) => assert_eq!(numbers.len(), 1),
        _ => {}
    });
    assert_eq!(marks, [vec![0], vec![1]].into());
    assert!(hooks.contains(&-1) && hooks.contains(&0) && hooks.contains(&5));
    assert!(
        hooks.len() >= 4 && inputs.len() >= 6,
        "{hooks:?} {inputs:?}"
    );
}
