//! The independent second program: the rules of the scope paper written again from the paper alone,
//! plus the tool that compares it with the proved program.
//!
//! It is made to be plain, not fast: whole numbers are `i128`, every value that a line ever sent is
//! kept, and nothing is shared with the proved program but the paper.

pub mod areas;
pub mod calls;
pub mod compare;
pub mod cosine;
pub mod ends;
pub mod latch;
pub mod layout;
pub mod limits;
pub mod list;
pub mod listing;
pub mod network;
pub mod node;
pub mod peaks;
pub mod reader;
pub mod record;
pub mod refusal;
pub mod run;
pub mod solve;
pub mod state;
pub mod step;
pub mod write;
