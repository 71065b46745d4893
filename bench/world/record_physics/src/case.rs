//! A tick or a move, the answer of the original, and both as a line of text.

use crate::scene::{SCENE, Scene};
use harness::tunings::tuning_of;
use harness::{Rules, Slot, Slots};
use original::{State, input_numbers};
use reference::Bits;

const ACCEPTED: u32 = 0;

#[derive(Clone, Copy, PartialEq)]
pub enum Op {
    Tick,
    Move,
}

pub struct Case {
    pub op: Op,
    pub scene: Scene,
}

pub struct Answer {
    pub number: u32,
    pub me: State,
    pub slots: Slots,
}

impl Case {
    pub fn tick(scene: Scene) -> Case {
        let op = Op::Tick;
        Case { op, scene }
    }

    pub fn moved(scene: Scene) -> Case {
        let op = Op::Move;
        Case { op, scene }
    }

    pub fn answer(&self) -> Answer {
        let scene = &self.scene;
        let rules = Rules {
            map: &scene.map,
            tuning: &tuning_of(scene.tunings),
        };
        let mut slots = scene.slots;
        let me = match self.op {
            Op::Tick => rules.ticked(&mut slots, scene.id),
            Op::Move => rules.moved(&mut slots, scene.id),
        };
        match me {
            Ok(me) => Answer {
                number: ACCEPTED,
                me: me.into(),
                slots,
            },
            Err(refusal) => Answer {
                number: refusal.number(),
                me: scene.me(),
                slots: scene.slots,
            },
        }
    }

    /// Op, map and words.
    pub fn text(&self) -> String {
        let op = match self.op {
            Op::Tick => 't',
            Op::Move => 'm',
        };
        let words: Vec<String> = self
            .words()
            .iter()
            .map(|word| format!("{word:08x}"))
            .collect();
        format!("{op} {} {}", self.scene.map.text(), words.join(" "))
    }

    /// Id, tunings, input, slots; the number, the character, the velocities in the slots.
    /// Beyond the slots of a scene nobody is.
    fn words(&self) -> Vec<u32> {
        let scene = &self.scene;
        let answer = self.answer();
        assert_only_velocities(&scene.slots, &answer.slots);
        let mut words = vec![scene.id as u32];
        words.extend(scene.tunings.map(i32::to_pattern));
        words.extend(input_numbers(scene.input()).map(i32::to_pattern));
        for &slot in &scene.slots[..SCENE] {
            words.push(slot.present.into());
            words.extend(state_of(slot).words());
        }
        words.push(answer.number);
        words.extend(answer.me.words());
        for &slot in &answer.slots[..SCENE] {
            let vel = state_of(slot).vel;
            words.extend([vel.x.to_pattern(), vel.y.to_pattern()]);
        }
        words
    }
}

fn state_of(slot: Slot) -> State {
    slot.character.into()
}

fn assert_only_velocities(before: &Slots, after: &Slots) {
    for (before, after) in before.iter().zip(after) {
        assert_eq!(before.present, after.present);
        let (before, after) = (state_of(*before), state_of(*after));
        let vel = before.vel;
        assert_eq!(before.words(), State { vel, ..after }.words());
    }
}
