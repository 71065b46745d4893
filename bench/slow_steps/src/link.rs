//! A world with a sender, and a screen that takes all that is passed along.

use crate::clock::timed;
use crate::scene::Scene;
use ponguriena::{Map, Passed, Refusal, Role, Screen, Sender, World};

pub struct Link {
    world: World,
    sender: Sender,
    screen: Screen,
}

impl Link {
    /// Of each accepted step and of its mark.
    pub fn times(scene: &Scene) -> Vec<[f64; 2]> {
        let tiles = scene.steps_ground().tiles();
        let map = scene.steps_ground().map(&tiles);
        let mut link = Link {
            world: scene.joined(),
            sender: Sender::fresh(),
            screen: Screen::fresh(),
        };
        let step = |turn| {
            for (index, value) in scene.tuned_before(turn) {
                // A hold outside its limits stays as it was.
                let _ = link.tune(&map, index, value);
            }
            link.step(&map).ok()
        };
        (0..scene.steps).map_while(step).collect()
    }

    fn tune(&mut self, map: &Map<'_>, index: i32, value: i32) -> Result<(), Refusal> {
        let passed = self
            .sender
            .tune(Role::Referee, &mut self.world, index, value)?;
        self.screen.receive(map, passed.numbers())
    }

    fn step(&mut self, map: &Map<'_>) -> Result<[f64; 2], Refusal> {
        let (sender, world, screen) = (&mut self.sender, &mut self.world, &mut self.screen);
        let (sent, answer) = timed(|| sender.step(Role::Referee, world, map));
        let (_, passed) = answer?;
        let mark = Passed::Mark.numbers();
        let (received, answer) = timed(|| screen.receive(map, &mark));
        answer?;
        screen.receive(map, &passed.numbers()[mark.len()..])?;
        Ok([sent, received])
    }
}
