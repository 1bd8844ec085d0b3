//! Limits set by the house (document 02, N6).
use crate::checks::Refusal;

/// How many words a written table may have, and how many until-like words a plain one.
#[derive(Clone, Copy, PartialEq, Eq, Hash, Debug)]
pub struct Limits {
    pub written: usize,
    pub until_like: usize,
}

impl Limits {
    /// Those of the program.
    pub const DESK: Limits = Limits { written: 64, until_like: 8 };
    /// The highest that a house may set.
    pub const HIGHEST: Limits = Limits { written: 256, until_like: 10 };

    /// Check 25, first of all.
    pub fn permitted(self) -> Result<(), Refusal> {
        if (1..=Limits::HIGHEST.written).contains(&self.written) && self.until_like <= Limits::HIGHEST.until_like {
            return Ok(());
        }
        Err(Refusal { number: 25, place: 0 })
    }

    /// How many words a plain table may have, where the limits are permitted.
    pub fn plain(self) -> usize {
        2 * self.written + 2
    }
}
