//! Limits that a house sets.

/// Limits that a house sets. A call under limits outside their ranges is refused as 25, before anything else is looked at.
///
/// ```
/// use showrule::Limits;
/// let table = [showrule::header(0x7F, 1), 0x3000_0001];
/// let small = Limits { written: 5, until_like: 0 };
/// let mut result = [0; 13];
/// assert_eq!(small.plain_room(), result.len());
/// assert_eq!(showrule::plain_form(&table, small, &mut result)?, table);
///
/// let refusal = showrule::plain_form(&table, Limits { written: 300, ..small }, &mut result).unwrap_err();
/// assert_eq!((refusal.number(), refusal.place()), (25, 0));
/// assert_eq!(refusal.to_string(), "the limit on written words is 300, and a house may set 1 to 256");
/// # Ok::<(), showrule::Refusal>(())
/// ```
#[derive(Clone, Copy, PartialEq, Eq, Hash, Debug)]
pub struct Limits {
    /// The most words of a written table, 1 to 256: for the plain-form step, and for the table of a text.
    pub written: usize,
    /// The most until-like words (kinds 8 to 11) of a plain table outside Delta-2, 0 to 10: for the normal-form step.
    pub until_like: usize,
}

impl Limits {
    /// Those of the program.
    pub const DESK: Limits = Limits { written: 64, until_like: 8 };
    /// The highest that a house may set.
    pub const HIGHEST: Limits = Limits { written: 256, until_like: 10 };

    /// The most words of a plain table, for the normal-form step: twice those of a written one and 2. A plain form never has more.
    pub const fn plain_words(self) -> usize {
        self.written.saturating_mul(2).saturating_add(2)
    }

    /// The length of a slice that is always enough for the table of a text.
    pub const fn written_room(self) -> usize {
        self.written.saturating_add(1)
    }

    /// The length of a slice that is always enough for a plain form.
    pub const fn plain_room(self) -> usize {
        self.plain_words().saturating_add(1)
    }
}

impl Default for Limits {
    fn default() -> Limits {
        Limits::DESK
    }
}
