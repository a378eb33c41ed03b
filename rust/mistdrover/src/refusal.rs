use std::fmt;
use std::num::NonZeroU32;

/// Why a call was refused: a number of the document's table, and a sentence that says what it means.
#[derive(Clone, Copy, Debug, PartialEq, Eq, PartialOrd, Ord, Hash)]
pub struct Refusal(NonZeroU32);

impl Refusal {
    /// The refusal that the library returned; `None` for 0.
    pub fn numbered(number: u32) -> Option<Refusal> {
        NonZeroU32::new(number).map(Refusal)
    }

    pub fn number(self) -> u32 {
        self.0.get()
    }

    pub fn sentence(self) -> &'static str {
        match self.number() {
            1 => "The book is empty or has more than 32,768 bytes.",
            2 => "The book's table of contents breaks a rule.",
            3 => "A body of the book breaks a rule.",
            4 => "The book has more than 64 loops.",
            5 => "The level table is not valid.",
            6 => "The book has no such procedure.",
            7 => {
                "The number of inputs or levels is not the procedure's number of parameters, \
                 or a level is not in the table."
            }
            8 => {
                "The summary's length is not the size that the book's summaries have, \
                 or the buffer is shorter than that size."
            }
            9 => "The summary does not satisfy the flow rules.",
            10 => "The work space has fewer than 1,024 cells.",
            11 => "The budget is over 1,000,000 steps.",
            _ => "The library gave a refusal that this wrapper does not know.",
        }
    }
}

impl fmt::Display for Refusal {
    fn fmt(&self, f: &mut fmt::Formatter<'_>) -> fmt::Result {
        write!(f, "refused {}: {}", self.number(), self.sentence())
    }
}

impl std::error::Error for Refusal {}
