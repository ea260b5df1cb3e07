//! A second implementation of the formula checker, written from the description of the format and of the decision
//! alone. It shares no code with the proved one and exists to be compared with it.
//!
//! * [`reader`] reads a text, word by word, into a formula or a refusal.
//! * [`expansion`] gives the value of a small formula by trying every setting.
//! * [`walk`] decides on sets of sets. It is slow and meant to be obviously right.
//! * [`zdd`] decides on a hashed zero-suppressed diagram. It is the speed to compare with.
//! * [`c_abi`] hands them to C.

pub mod c_abi;
pub mod expansion;
pub mod reader;
pub mod walk;
pub mod zdd;

/// Limits that both engines share.
pub const GREATEST_V: u32 = 256;
pub const GREATEST_C: u32 = 2_048;
pub const GREATEST_LENGTH: usize = 60_000;
pub const GREATEST_NODES: usize = 4_096;
pub const GREATEST_PAIRS: usize = 1_024;
pub const GREATEST_OPEN: usize = 256;
pub const ALLOWANCE: u32 = 1_000_000;

/// The refusals of a formula that was read.
pub const TABLE_FULL: u8 = 10;
pub const SPENT: u8 = 11;
pub const TOO_DEEP: u8 = 12;

/// What is answered about a text.
#[derive(Clone, Copy, Debug, PartialEq, Eq)]
pub enum Answer {
    /// A verdict, the splits it took, and V and C of the problem line.
    Verdict { value: bool, splits: u32, v: u32, c: u32 },
    /// A refusal: its number, and the offset for 1 to 6, 0 for a load's 10, the splits made for a decision's 10 to 12.
    Refused { number: u8, at: u32 },
}

/// What a run may be given. The checker's own are the default; tests set smaller ones.
#[derive(Clone, Copy, Debug)]
pub struct Limits {
    pub nodes: usize,
    pub pairs: usize,
    pub open: usize,
    pub allowance: u32,
}

impl Default for Limits {
    fn default() -> Limits {
        Limits { nodes: GREATEST_NODES, pairs: GREATEST_PAIRS, open: GREATEST_OPEN, allowance: ALLOWANCE }
    }
}
