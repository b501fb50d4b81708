//! Tables, sheets, marks, closing and steps in ordinary Rust.
//!
//! Written from `docs/` alone and not from the proved crates, so that the two can be compared: in what they answer, and in how long
//! they take.

pub mod bits;
pub mod book;
pub mod calls;
pub mod close;
pub mod examine;
pub mod expression;
pub mod groups;
pub mod mark;
pub mod random;
pub mod refusal;
pub mod sheet;
pub mod sites;
pub mod step;
pub mod table;
pub mod trace;

pub use book::{Book, Call, Room};
pub use close::{Plan, close, test};
pub use examine::examine;
pub use mark::{Marks, mark};
pub use refusal::{Fault, Place, Refusal};
pub use sheet::{Sheet, open, write};
pub use step::{Machine, Message, State, Step};
pub use table::Table;
