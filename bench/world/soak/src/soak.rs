//! One call after another.

use crate::course::Course;
use crate::function::Function;
use crate::played::Played;
use crate::server::Server;
use crate::tally::Tally;
use crate::turns::{self, Asked};
use crate::{areas, asks, fresh, packs, screens, searches, sends, trials};
use compare_world::differs::Differs;
use harness::Call;
use harness::roles::Ask;
use reference::Xorshift;
use tile_map::draw::below;

/// In a life with a sender one call in so many passes it by all the same.
const PAST_EVERY: usize = 16;

/// One call in so many is made before what was passed along has arrived.
const AHEAD_EVERY: usize = 6;

pub struct Soak {
    seed: u64,
    random: Xorshift,
    server: Server,
    pub tally: Tally,
}

impl Soak {
    pub fn seeded(seed: u64) -> Soak {
        Soak {
            seed,
            random: Xorshift::seeded(seed),
            server: Server::new(),
            tally: Tally::default(),
        }
    }

    /// So many calls, up to the first with a difference.
    pub fn play(&mut self, calls: u64) -> Result<(), String> {
        for number in 1..=calls {
            let seed = self.seed;
            let at = |what: String| format!("call {number} of seed {seed}: {what}");
            let played = self.next().map_err(|what| at(what.to_string()))?;
            self.tally.add(played).map_err(at)?;
            self.note(played);
        }
        Ok(())
    }

    pub fn course(&self) -> &Course {
        &self.server.course
    }

    #[cfg(test)]
    pub fn server(&self) -> &Server {
        &self.server
    }

    fn note(&mut self, played: Played) {
        let server = &mut self.server;
        let removed = match (played.function, played.answer) {
            (Function::Step, 0) => &server.count,
            (Function::SendStep, 0) => &server.removed_count,
            _ => return,
        };
        let removed = removed.lent()[0];
        server.course.add_step(server.records.lent(), removed);
    }

    fn next(&mut self) -> Result<Played, Differs> {
        let (server, random) = (&mut self.server, &mut self.random);
        if server.life.calls == 0 {
            server.begin(random);
        }
        server.life.calls -= 1;
        match server.first_calls.pop() {
            Some(Function::AreaBuild) => return areas::build(server, false, random),
            Some(function) => return fresh::play(server, function, None),
            None => server.suffer(random),
        }
        if !server.pending.is_empty() && below(random, AHEAD_EVERY) != 0 {
            return screens::receive(server, false, random);
        }
        match below(random, 1000) {
            0..=1 => fresh::layout(),
            2..=9 => fresh::any(server, random),
            10..=24 => packs::pack(server, random),
            25..=44 => packs::unpack(server, random),
            45..=79 => areas::any_call(server, random),
            80..=99 => screens::receive(server, true, random),
            100..=129 => screens::shown(server, random),
            130..=133 => searches::play(server, random),
            134..=139 => trials::play(server, random),
            _ => ask(server, random),
        }
    }
}

/// Of the world, or by way of the sender.
fn ask(server: &mut Server, random: &mut Xorshift) -> Result<Played, Differs> {
    let asked = turns::drawn(server, random);
    let linked = server.life.linked == (below(random, PAST_EVERY) != 0);
    match sent(&asked) {
        Some(call) if linked => sends::play(server, asked, call, random),
        _ => asks::play(server, asked, random),
    }
}

/// The call that a sender takes too.
fn sent(asked: &Asked) -> Option<Call> {
    match asked.ask {
        Ask::Call(call @ (Call::Leave { .. } | Call::Tune { .. } | Call::Step)) => Some(call),
        _ => None,
    }
}
