//! Switches with more than two positions.

use crate::place;
use crate::{raw, Formula, ENTRIES_MAX};
use std::error::Error;
use std::fmt;
use std::ops::Range;

/// Groups, at most.
pub const GROUPS_MAX: usize = 128;
/// Bytes of a printed table of groups, at most.
pub const GROUPS_TABLE_MAX: usize = 4_096;

/// A file of groups: each group has one variable a value, group after group, and exactly one of them holds.
///
/// ```
/// use igbezolum::{Groups, Limits, Status};
///
/// let card = Groups::read(b"2  3 2  2  -1 0  5 0")?;
/// assert_eq!(card.values(2), Some(4..6));
/// let run = card.formula().run(Limits::default()).unwrap();
/// let second = card.values(2).unwrap().map(|variable| run.status[variable as usize - 1]);
/// assert_eq!(second.collect::<Vec<_>>(), [Status::ForcedOff, Status::ForcedOn]);
/// # Ok::<(), igbezolum::GroupsRefusal>(())
/// ```
#[derive(Clone, Debug, PartialEq, Eq)]
pub struct Groups {
    sizes: Vec<u8>,
    formula: Formula,
}

impl Groups {
    /// Reads a file of groups.
    ///
    /// # Errors
    /// Refusals 2, 4 to 7, 9, 11 and 16, where the text breaks the rules.
    pub fn read(text: &[u8]) -> Result<Groups, GroupsRefusal> {
        let mut entries = vec![0; ENTRIES_MAX];
        let mut sizes = vec![0; GROUPS_MAX];
        let reading = raw::read_groups(text, &mut entries, &mut sizes);
        if reading.answer != 0 {
            return Err(GroupsRefusal { number: reading.answer, place: reading.place as usize });
        }
        entries.truncate(reading.count as usize);
        sizes.truncate(reading.groups as usize);
        Ok(Groups { sizes, formula: Formula::new(reading.vars, entries) })
    }

    /// How many groups there are.
    #[must_use]
    pub fn count(&self) -> usize {
        self.sizes.len()
    }

    /// The variables of a group's values, in order; groups are numbered from 1. None if there is no such group.
    #[must_use]
    pub fn values(&self, group: usize) -> Option<Range<u32>> {
        let before = self.sizes.get(..group.checked_sub(1)?)?;
        let size = u32::from(*self.sizes.get(group - 1)?);
        let first = 1 + before.iter().map(|&n| u32::from(n)).sum::<u32>();
        Some(first..first + size)
    }

    /// The expanded list: that exactly one value of each group holds, then the file's own clauses. A value that its run marks
    /// [`ForcedOff`](crate::Status::ForcedOff) is dead, no valid setup uses it; one that it marks [`ForcedOn`](crate::Status::ForcedOn) is settled,
    /// every one does.
    #[must_use]
    pub fn formula(&self) -> &Formula {
        &self.formula
    }
}

/// The table of a file of groups: one line of numbers and one for each value, or `refused N place P`. The run has
/// [`Limits::default`](crate::Limits::default).
#[must_use]
pub fn groups_table(text: &[u8]) -> String {
    let mut out = vec![0; GROUPS_TABLE_MAX];
    let length = raw::groups_table(text, &mut out);
    out.truncate(length);
    String::from_utf8(out).expect("a table is ASCII")
}

/// Why a file of groups is refused: the number of the rule, and the place.
#[derive(Clone, Copy, Debug, PartialEq, Eq, Hash)]
pub struct GroupsRefusal {
    number: u32,
    place: usize,
}

impl GroupsRefusal {
    /// The number of the rule: 2, 4 to 7, 9, 11 or 16.
    #[must_use]
    pub fn number(self) -> u32 {
        self.number
    }

    /// The byte of the text, from 0; 0 after 11.
    #[must_use]
    pub fn place(self) -> usize {
        self.place
    }
}

/// Number, place, what is wrong and what was expected.
impl fmt::Display for GroupsRefusal {
    fn fmt(&self, f: &mut fmt::Formatter<'_>) -> fmt::Result {
        let (what, expected) = place::groups_words(self.number);
        write!(f, "refused {} place {}: {what}: {expected}", self.number, self.place)
    }
}

impl Error for GroupsRefusal {}
