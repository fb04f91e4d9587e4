//! The independent implementation of tests/peer made fast: the same grammar
//! with one function per field, the same questions one by one, but checks go
//! through tables, nothing is allocated, a line is noted as places in it, and
//! the signs have their values in KOI-7 alone.

mod block;
mod check;
mod fixed;
mod frame;
mod grammar;
mod interleave;
mod join;
mod link;
mod number;
mod replay;
mod sender;
mod signs;

pub use block::{read as read_block, write as write_block, Parts};
pub use check::{check_3, check_4, check_6};
pub use fixed::{read as read_fixed, write as write_fixed};
pub use frame::{read as read_frame, write as write_frame};
pub use interleave::{deinterleave, interleave};
pub use join::{join_3, join_4, join_6};
pub use link::{order, send, tell_block, tell_order};
pub use number::receive;
pub use replay::replay_panel;
pub use sender::{acknowledge, submit};
