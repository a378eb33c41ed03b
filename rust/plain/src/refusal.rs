//! The refusal numbers of document 01.

use std::fmt;

/// Why a call was refused. `number` gives the document's number.
#[derive(Clone, Copy, Debug, PartialEq, Eq, PartialOrd, Ord, Hash)]
#[repr(u32)]
pub enum Refusal {
    /// Book length 0 or over 32,768.
    BookLength = 1,
    /// The contents break a rule.
    Contents = 2,
    /// A body breaks a rule, depth included.
    Body = 3,
    /// More than 64 loops.
    Loops = 4,
    /// The level table is not valid.
    LevelTable = 5,
    /// No such procedure.
    NoProcedure = 6,
    /// The number of inputs or levels is not the parameter count, or a level is not below n.
    Inputs = 7,
    /// Finder: the buffer is shorter than the size. Others: the summary's length is not the size.
    SummaryLength = 8,
    /// The flow rules are not satisfied.
    Rules = 9,
    /// The work space is below 1,024 cells.
    WorkSpace = 10,
    /// The budget is over 1,000,000.
    Budget = 11,
}

impl Refusal {
    pub fn number(self) -> u32 {
        self as u32
    }
}

impl fmt::Display for Refusal {
    fn fmt(&self, f: &mut fmt::Formatter<'_>) -> fmt::Result {
        write!(f, "refused {}", self.number())
    }
}

impl std::error::Error for Refusal {}
