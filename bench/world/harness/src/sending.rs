//! Change request 6, 'send only surprises': what the sender beside a world passes along
//! for each call, and what a screen makes of it.

mod copy;
mod link;
mod numbers;
mod passed;
mod screen;
mod sender;

pub use copy::{Copies, MOST_STEPS, SeatCopy};
pub use link::Link;
pub use numbers::{
    COPY_NUMBERS, SCREEN_NUMBERS, SENDER_NUMBERS, decoded_screen, decoded_sender, encoded_screen,
    encoded_sender,
};
pub use passed::{MESSAGE_NUMBERS, Passed, all_numbers};
pub use screen::Screen;
pub use sender::{Sender, Sent};
