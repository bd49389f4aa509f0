//! A safe wrapper of the register's library: slices for pointers and lengths, and a register that owns its tables.

mod calls;
mod register;

pub use calls::{prepare, start, step, Limits, Reply, HEADER_WORDS, NODE_WORDS, RECORD_WORDS};
pub use register::{Kind, Refusal, Register, Step};
