//! The numbers that a call returns.

pub const GOING: u32 = 0;
pub const YES: u32 = 1;
pub const NO: u32 = 2;
pub const LIMIT: u32 = 10;
pub const SHORT: u32 = 11;
pub const DAMAGED: u32 = 12;
pub const NO_WORKER: u32 = 13;
pub const KEY_LIMIT: u32 = 14;
pub const BUSY: u32 = 15;
pub const IDLE: u32 = 16;
pub const UNKNOWN_KIND: u32 = 17;
pub const NO_KEY_NODE: u32 = 18;
pub const NO_DUMMY_NODE: u32 = 19;

/// A call's answer, with the operation's steps where it ended.
#[derive(Clone, Copy, Debug, PartialEq, Eq)]
pub struct Answer {
    pub number: u32,
    pub steps: u32,
}

impl Answer {
    /// An answer that ends no operation.
    pub fn bare(number: u32) -> Self {
        Answer { number, steps: 0 }
    }
}

/// A word or number that a step met and cannot go on with: answer 12.
pub struct Damaged;

/// How a step leaves its operation.
pub enum Flow {
    Going,
    Ended(u32),
}
