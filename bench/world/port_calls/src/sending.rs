//! The same calls with a sender beside the port's world.

use crate::{id_of, input_of};
use harness::Call;
use ponguriena::{Map, Records, Refusal, Role, Screen, Sender, World};

/// A server's world with its sender, and a screen to which all that is passed along
/// arrives.
pub struct PortLink {
    pub world: World,
    pub sender: Sender,
    pub screen: Screen,
}

/// What an accepted call tells.
pub struct PortSent {
    /// After a step.
    pub records: Option<Records>,
    /// The numbers that are passed along.
    pub passed: Vec<i32>,
}

impl PortLink {
    pub fn fresh() -> PortLink {
        PortLink {
            world: World::fresh(),
            sender: Sender::fresh(),
            screen: Screen::fresh(),
        }
    }

    pub fn call(&mut self, role: Role, map: &Map, call: Call) -> Result<PortSent, Refusal> {
        let sent = self.send(role, map, call)?;
        self.screen.receive(map, &sent.passed)?;
        Ok(sent)
    }

    fn send(&mut self, role: Role, map: &Map, call: Call) -> Result<PortSent, Refusal> {
        let (world, sender) = (&mut self.world, &mut self.sender);
        let mut records = None;
        let passed = match call {
            Call::Join { id, x, y } => {
                world.join(role, map, id_of(id), x, y)?;
                Vec::new()
            }
            Call::Input { id, input } => {
                world.input(role, id_of(id), input_of(input))?;
                Vec::new()
            }
            Call::Leave { id } => sender.leave(role, world, id_of(id))?.numbers().to_vec(),
            Call::Tune { index, hundredths } => {
                let passed = sender.tune(role, world, index, hundredths)?;
                passed.numbers().to_vec()
            }
            Call::Step => {
                let (taken, passed) = sender.step(role, world, map)?;
                records = Some(taken);
                passed.numbers().to_vec()
            }
        };
        Ok(PortSent { records, passed })
    }
}
