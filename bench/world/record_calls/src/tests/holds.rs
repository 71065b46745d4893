//! Holds that are tuned before somebody is held and meanwhile.

use super::{all_lines, hook_of, is_step, lines_of};
use crate::hold_sequences;
use harness::tunings::HOOK_HOLD;
use harness::{Call, SEATS, World};
use original::Hook;
use std::cmp::Ordering;
use std::collections::BTreeSet;

/// For how many steps somebody's hook has held, where it holds somebody.
fn ticks(world: &World) -> Vec<Option<u32>> {
    let tick = |id| match hook_of(world, id) {
        Hook::Grabbed(_, tick) => Some(tick),
        _ => None,
    };
    (0..SEATS).map(tick).collect()
}

fn hold(world: &World) -> u32 {
    world.tunings[HOOK_HOLD].cast_unsigned()
}

/// With the button held a hook is counted up below the hold, and retracted at it and above.
#[test]
fn holds_end_at_every_limit() {
    let mut seen = BTreeSet::new();
    for (world, line) in lines_of(hold_sequences()) {
        let (before, after) = (ticks(&world), ticks(&line.after));
        for id in (0..SEATS).filter(|_| is_step(&line)) {
            let Some(tick) = before[id] else { continue };
            if world.slots[id].input.hook != 0 {
                let counted = (tick < hold(&world)).then_some(tick + 1);
                assert_eq!(after[id], counted);
                seen.insert((hold(&world), tick.cmp(&hold(&world))));
            }
        }
    }
    for hold in [1, 2, 59, 60] {
        assert!(seen.contains(&(hold, Ordering::Equal)), "{seen:?}");
    }
    for hold in [2, 59, 60] {
        assert!(seen.contains(&(hold, Ordering::Less)), "{seen:?}");
    }
    for hold in [1, 2, 4] {
        assert!(seen.contains(&(hold, Ordering::Greater)), "{seen:?}");
    }
}

/// While somebody is held, to what is a hold and to what is none.
#[test]
fn tunes_leave_every_hook() {
    let mut seen = BTreeSet::new();
    for (world, line) in all_lines() {
        if let Call::Tune { index, hundredths } = line.call {
            assert_eq!(ticks(&world), ticks(&line.after));
            let held = ticks(&world).iter().any(Option::is_some);
            if held && index >= HOOK_HOLD as i32 {
                seen.insert((index, hundredths, line.number()));
            }
        }
    }
    for expected in [
        (18, 0, 16),
        (18, 1, 0),
        (18, 2, 0),
        (18, 59, 0),
        (18, 60, 0),
        (18, 61, 16),
        (18, 6000, 16),
        (18, -1, 16),
        (19, 0, 3),
        (19, 61, 3),
    ] {
        assert!(seen.contains(&expected), "{seen:?}");
    }
}
