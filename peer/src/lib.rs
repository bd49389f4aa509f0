//! The scope paper's machine, written a second time from the paper's listings alone, to be held against the proved register.

pub mod answer;
pub mod header;
pub mod nodes;
pub mod places;
pub mod record;
pub mod register;
pub mod search;
pub mod split;
