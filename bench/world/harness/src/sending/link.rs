//! A server and one screen.

use super::screen::Screen;
use super::sender::{Sender, Sent};
use crate::call::Call;
use crate::refusal::Refusal;
use crate::world::World;
use tile_map::Map;

#[derive(Clone)]
pub struct Link {
    pub world: World,
    pub sender: Sender,
    /// All that is passed along arrives there, in order.
    pub screen: Screen,
}

impl Link {
    pub fn fresh() -> Link {
        Link {
            world: World::fresh(),
            sender: Sender::fresh(),
            screen: Screen::fresh(),
        }
    }

    pub fn call(&mut self, map: &Map, call: Call) -> Result<Sent, Refusal> {
        let sent = self.sender.call(&mut self.world, map, call)?;
        for &passed in &sent.passed {
            let received = self.screen.receive(map, passed);
            received.expect("a sender names seats and tunings alone");
        }
        Ok(sent)
    }
}
