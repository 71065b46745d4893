//! A state or a record, the answer of the original, and both as a line of text.

use libtw2_gamenet::snap_obj::CharacterCore;
use original::{CORE_NUMBERS, Character, STATE_WORDS, State, core_numbers};
use reference::Bits;

const ACCEPTED: u32 = 0;
const TICK_TOO_LARGE: u32 = 10;

pub enum Case {
    State(State),
    Record(CharacterCore),
}

impl Case {
    /// Op, the state, the number, the record, the state that the record gives.
    /// A record has no state before it; after a refusal there is nothing.
    pub fn text(&self) -> String {
        let (no_state, no_core) = ([0; STATE_WORDS], [0; CORE_NUMBERS]);
        match *self {
            Case::State(state) if number(state) == ACCEPTED => {
                let core = Character::from(state).to_net();
                let after = quantized(state).words();
                assert_eq!(after, from_net(core).words());
                line('s', state.words(), ACCEPTED, core_numbers(core), after)
            }
            Case::State(state) => line('s', state.words(), number(state), no_core, no_state),
            Case::Record(core) => {
                let after = from_net(core);
                let words = after.words();
                line('r', no_state, number(after), core_numbers(core), words)
            }
        }
    }
}

/// Whether `to_net` is accepted or refused, by document 01.
pub fn number(state: State) -> u32 {
    if state.has_record() {
        ACCEPTED
    } else {
        TICK_TOO_LARGE
    }
}

pub fn from_net(core: CharacterCore) -> State {
    Character::from_net(&core).into()
}

fn quantized(state: State) -> State {
    let mut character = Character::from(state);
    character.quantize();
    character.into()
}

fn line(
    op: char,
    state: [u32; STATE_WORDS],
    number: u32,
    core: [i32; CORE_NUMBERS],
    after: [u32; STATE_WORDS],
) -> String {
    let core = core.map(i32::to_pattern);
    let words = state.into_iter().chain([number]).chain(core).chain(after);
    let texts: Vec<String> = words.map(|word| format!("{word:08x}")).collect();
    format!("{op} {}", texts.join(" "))
}
