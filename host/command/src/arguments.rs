//! The arguments of a command: its options and operands.

mod given;
mod nearest;
mod parser;
mod table;

pub use given::Given;
pub use nearest::nearest;
pub use parser::{parse, Request};
pub use table::{Command, Operands, Opt};
