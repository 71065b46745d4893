//! The states of a hook by name.

use crate::ffi;

/// What [`CharacterCore::hook_state`](crate::CharacterCore::hook_state) stands for.
#[derive(Clone, Copy, Debug, Eq, Hash, PartialEq)]
#[repr(i32)]
pub enum HookState {
    /// As idle, but it fires no new hook until the button is let go.
    Retracted = ffi::HOOK_RETRACTED,
    /// It waits for the button.
    Idle = ffi::HOOK_IDLE,
    /// On its way back, in three steps.
    Retracting0 = ffi::HOOK_RETRACTING0,
    /// The second of them.
    Retracting1 = ffi::HOOK_RETRACTING1,
    /// The third.
    Retracting2 = ffi::HOOK_RETRACTING2,
    /// On its way out.
    Flying = ffi::HOOK_FLYING,
    /// It holds a tile; or somebody, where `hooked_player` is not -1.
    AttachedGrabbed = ffi::HOOK_ATTACHED_GRABBED,
}

impl HookState {
    /// In the order of their numbers.
    const ALL: [HookState; 7] = [
        HookState::Retracted,
        HookState::Idle,
        HookState::Retracting0,
        HookState::Retracting1,
        HookState::Retracting2,
        HookState::Flying,
        HookState::AttachedGrabbed,
    ];

    /// The one with that number; a step publishes no other.
    ///
    /// ```
    /// use ponguriena::HookState;
    ///
    /// assert_eq!(HookState::of_number(-1), Some(HookState::Retracted));
    /// assert_eq!(HookState::of_number(4), Some(HookState::Flying));
    /// assert_eq!(HookState::of_number(6), None);
    /// ```
    pub fn of_number(number: i32) -> Option<HookState> {
        HookState::ALL
            .into_iter()
            .find(|&state| state as i32 == number)
    }
}
