//! The functions of the C interface, and what each may answer.

use harness::Call;
use harness::roles::Ask;

#[derive(Clone, Copy, Debug, Eq, PartialEq)]
pub enum Function {
    AreaBuild,
    AreaCount,
    AreaChange,
    Fresh,
    Join,
    Leave,
    Input,
    Tune,
    Step,
    Layout,
    Pack,
    Unpack,
    Record,
    PlayerInput,
    Tuning,
    FloorMark,
    Search,
    SenderFresh,
    SendLeave,
    SendTune,
    SendStep,
    ScreenFresh,
    Receive,
    Shown,
    Trial,
}

use Function::*;

/// Each with its name behind `ponguriena_` and its answers, in the order of the numbers. The
/// layout is no answer of this kind and counts as 0.
pub const ALL: [(Function, &str, &[u32]); 25] = [
    (AreaBuild, "area_build", &[0, 1, 14]),
    (AreaCount, "area_count", &[0, 1, 14]),
    (AreaChange, "area_change", &[0, 1, 14]),
    (Fresh, "fresh", &[0, 17]),
    (Join, "join", &[0, 1, 2, 4, 5, 7, 13, 17]),
    (Leave, "leave", &[0, 2, 8, 13, 17]),
    (Input, "input", &[0, 2, 8, 13, 17]),
    (Tune, "tune", &[0, 3, 13, 16, 17]),
    (Step, "step", &[0, 1, 9, 13, 17]),
    (Layout, "layout", &[0]),
    (Pack, "pack", &[0, 17]),
    (Unpack, "unpack", &[0, 11, 12, 17]),
    (Record, "record", &[0, 2, 8, 13, 17]),
    (PlayerInput, "player_input", &[0, 2, 8, 13, 17]),
    (Tuning, "tuning", &[0, 3, 13, 17]),
    (FloorMark, "floor_mark", &[0, 2, 8, 13, 17]),
    (Search, "search", &[0, 1, 2, 8, 13, 17]),
    (SenderFresh, "sender_fresh", &[0, 17]),
    (SendLeave, "send_leave", &[0, 2, 8, 13, 17]),
    (SendTune, "send_tune", &[0, 3, 13, 16, 17]),
    (SendStep, "send_step", &[0, 1, 9, 13, 17]),
    (ScreenFresh, "screen_fresh", &[0, 17]),
    (Receive, "receive", &[0, 2, 3, 17]),
    (Shown, "shown", &[0, 2, 8, 17]),
    (Trial, "trial", &[0, 1, 2, 4, 5, 7, 15, 16, 17]),
];

impl Function {
    pub fn name(self) -> &'static str {
        ALL[self as usize].1
    }

    pub fn answers(self) -> &'static [u32] {
        ALL[self as usize].2
    }

    pub fn of_ask(ask: Ask) -> Function {
        match ask {
            Ask::Call(Call::Join { .. }) => Join,
            Ask::Call(Call::Leave { .. }) => Leave,
            Ask::Call(Call::Input { .. }) => Input,
            Ask::Call(Call::Step) => Step,
            Ask::Call(Call::Tune { .. }) => Tune,
            Ask::Record { .. } => Record,
            Ask::FloorMark { .. } => FloorMark,
            Ask::StoredInput { .. } => PlayerInput,
            Ask::Tuning { .. } => Tuning,
        }
    }
}
