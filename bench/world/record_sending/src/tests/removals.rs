//! That copies come and go in every way.

use super::{each_line, each_step};
use harness::sending::Passed;
use harness::{Call, SEATS};
use std::collections::BTreeSet;

/// The true one, its copy, or both; with a message in the same step and without one.
#[test]
fn spikes_remove_on_either_side() {
    let mut seen = BTreeSet::new();
    each_step(|step| {
        let before = &step.line.before;
        for (id, _) in step.taken() {
            let copy = before.sender.copies[id];
            let map = step.line.line.told_map();
            let stepped = copy.stepped(id, &map, before.world.tunings);
            let removed = step.published.removed[id];
            seen.insert((copy.kept, removed, stepped.removed, step.has_message(id)));
        }
    });
    for expected in [
        (false, true, false, true),
        (true, true, true, false),
        (true, true, true, true),
        (true, true, false, true),
        (true, false, true, true),
    ] {
        assert!(seen.contains(&expected), "{seen:?}");
    }
}

/// It tells the grab of who died in one step, and in the next that nobody is held.
#[test]
fn who_held_the_dead_is_sent_twice() {
    let mut holders: BTreeSet<usize> = BTreeSet::new();
    let mut count = 0;
    each_step(|step| {
        for &id in &holders {
            if step.published.records[id].is_some() && step.line.before.sender.copies[id].kept {
                assert!(step.has_message(id));
                count += 1;
            }
        }
        let holds = |id: &usize| {
            let core = step.published.records[*id];
            let held = core.and_then(|core| usize::try_from(core.hooked_player).ok());
            held.is_some_and(|held| step.published.removed[held]) && !step.published.removed[*id]
        };
        holders = (0..SEATS).filter(holds).collect();
        assert!(holders.iter().all(|&id| step.has_message(id)));
    });
    assert!(count >= 2, "{count}");
}

/// With a copy and without one, while held by another and while not; the copies of
/// others are not touched.
#[test]
fn leaves_are_passed_along() {
    let mut seen = BTreeSet::new();
    each_line(|line| {
        let (Call::Leave { id }, Ok(sent)) = (line.line.call, &line.answer) else {
            return;
        };
        assert!(matches!(sent.passed[..], [Passed::Leave { id: who }] if who == id));
        let copies = &line.before.sender.copies;
        let holds = |id: i32| copies.iter().any(|copy| copy.core.hooked_player == id);
        seen.insert((copies[id as usize].kept, id > 0 && holds(id)));
        let kept = |other: usize| line.after.sender.copies[other].kept;
        let others = (0..SEATS).filter(|&other| other != id as usize);
        assert!(
            others
                .into_iter()
                .all(|other| kept(other) == copies[other].kept)
        );
        assert!(!kept(id as usize));
    });
    for expected in [(false, false), (true, false), (true, true)] {
        assert!(seen.contains(&expected), "{seen:?}");
    }
}

/// After a leave and after a removal, at once and later.
#[test]
fn who_comes_back_is_sent_again() {
    let mut counts = [0; 2];
    let mut gone = [None; SEATS];
    each_line(|line| {
        if line.line.fresh {
            gone = [None; SEATS];
        }
        let Ok(sent) = &line.answer else {
            return;
        };
        for passed in &sent.passed {
            match *passed {
                Passed::Leave { id } => gone[id as usize] = Some(0),
                Passed::Removal { id } => gone[id as usize] = Some(1),
                Passed::Message { id, .. } => {
                    let way = gone[id as usize].take();
                    way.into_iter().for_each(|way: usize| counts[way] += 1);
                }
                _ => {}
            }
        }
    });
    assert!(counts.iter().all(|&count| count >= 4), "{counts:?}");
}
