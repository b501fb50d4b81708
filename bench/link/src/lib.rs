//! The proved calls and the plain implementation side by side, answering in the same form.

pub mod booking;
pub mod heap;
pub mod packing;
pub mod plainly;
pub mod proved;
pub mod runs;
pub mod sheets;
pub mod side;
pub mod timing;

pub use side::Side;
