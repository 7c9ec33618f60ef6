//! A refusal with its meaning in words, and what an answer word says.

use core::fmt;

/// A refusal of document 01's table, or of a change request's row behind it.
///
/// ```
/// let refusal = kalomivund::Refusal { number: 17, place: 2 };
/// assert_eq!(refusal.to_string(), "refusal 17 at carrier 2: a dock is twice in its list");
/// assert_eq!(refusal.meaning(), "a dock is twice in its list");
/// ```
#[derive(Clone, Copy, PartialEq, Eq, Hash, Debug)]
pub struct Refusal {
    /// The refusal's number in the table.
    pub number: u8,
    /// The place that the table says, up to 2^48 − 1; 0 where it says none.
    pub place: u64,
}

/// What each refusal counts its place in (nothing: it has no place), and its meaning, by its number from 1.
const TABLE: [(&str, &str); 17] = [
    ("byte", "the sheet's form is wrong"),
    ("field", "line 1 is outside its limits"),
    ("item", "a cell lies outside the grid, or a record's dock count outside 1 to 4"),
    ("item", "a wall is not above the one before"),
    ("carrier", "its start or one of its docks is a wall"),
    ("carrier", "an earlier carrier has the same start"),
    ("position", "no such step or carrier"),
    ("", "the carrier is not due"),
    ("", "lent memory is too short"),
    ("", "the lent memory is no state of this floor"),
    ("", "no such order of a trial"),
    ("carrier", "nothing is under way to it"),
    ("carrier", "the channel to it is full"),
    ("", "the floor has more than three carriers"),
    ("", "no run has that rank"),
    ("", "the carrier has a route"),
    ("carrier", "a dock is twice in its list"),
];

impl Refusal {
    fn row(&self) -> (&'static str, &'static str) {
        let row = usize::from(self.number).checked_sub(1).and_then(|k| TABLE.get(k));
        row.copied().unwrap_or(("place", "the library says no more"))
    }

    /// What the refusal means, in words.
    pub fn meaning(&self) -> &'static str {
        self.row().1
    }
}

impl fmt::Display for Refusal {
    fn fmt(&self, f: &mut fmt::Formatter) -> fmt::Result {
        let (unit, meaning) = self.row();
        match unit {
            "" => write!(f, "refusal {}: {meaning}", self.number),
            _ => write!(f, "refusal {} at {unit} {}: {meaning}", self.number, self.place),
        }
    }
}

impl core::error::Error for Refusal {}
