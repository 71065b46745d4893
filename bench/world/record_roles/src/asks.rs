//! What is asked, in short.

use harness::Call;
use harness::roles::Ask;
use libtw2_gamenet::snap_obj::PlayerInput;

pub fn join(id: i32, (x, y): (i32, i32)) -> Ask {
    Ask::Call(Call::Join { id, x, y })
}

pub fn leave(id: i32) -> Ask {
    Ask::Call(Call::Leave { id })
}

pub fn input(id: i32, input: PlayerInput) -> Ask {
    Ask::Call(Call::Input { id, input })
}

pub fn step() -> Ask {
    Ask::Call(Call::Step)
}

pub fn tune(index: i32, hundredths: i32) -> Ask {
    Ask::Call(Call::Tune { index, hundredths })
}

/// All that is read of an id.
pub fn reads(id: i32) -> [Ask; 3] {
    [
        Ask::Record { id },
        Ask::FloorMark { id },
        Ask::StoredInput { id },
    ]
}
