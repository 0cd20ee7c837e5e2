//! The refusals, by the words of the documents' table.

use std::error::Error;
use std::fmt;

/// Why a call was refused: the first number that applies. They are asked in the order of their numbers, but for 17, which comes before 16,
/// 18, which comes after 10, and 19, which comes before 1.
///
/// After a refusal every store is as it was before the call.
///
/// ```
/// use lockgraph::{verdict, Refusal};
///
/// let refusal = verdict(b"k\nmerk\ngoal k\n").unwrap_err();
/// assert_eq!(refusal, Refusal::Kinds);
/// assert_eq!(refusal.number(), 5);
/// assert!(refusal.to_string().starts_with("refused 5: "));
///
/// // Two symbols typed together are read as one, and line 1 does not have it.
/// assert_eq!(verdict(b"lock busy\nmark mark\ngoal lockbusy\n"), Err(Refusal::Symbol));
/// ```
#[derive(Clone, Copy, Debug, PartialEq, Eq, PartialOrd, Ord, Hash)]
#[repr(u8)]
pub enum Refusal {
    /// The sheet is empty or over 1,024 bytes, or a line of it is over 200.
    Length = 1,
    /// The sheet has a byte that is neither printable nor a newline.
    Byte = 2,
    /// The sheet has no final newline, not 3 to 7 lines, or a line with a wrong beginning.
    Layout = 3,
    /// Line 1 is not 1 to 8 different symbols, each of 1 to 8 lower-case letters, with single spaces between.
    Names = 4,
    /// Line 2 is not `mark`, `name`, `field` or `value` for each symbol, or has more than 2 names.
    Kinds = 5,
    /// A formula does not parse. Nor does a run of more than 8 lower-case letters, in braces or outside.
    Grammar = 6,
    /// A symbol that line 1 does not have, or one of the wrong kind for its place. Two symbols typed together are read as one.
    Symbol = 7,
    /// Empty braces, or a mode twice in them: a field in one direction.
    Braces = 8,
    /// More formulas with all their parts and expansions than the closure limit, 64 in a call without limits.
    Closure = 9,
    /// More basic formulas than the lean limit, 8 in a call without limits. Every value is one of them, used in a formula or not.
    Lean = 10,
    /// The naming is not below the number of namings.
    Naming = 11,
    /// A store is too short.
    Store = 12,
    /// The snapshot's text is over 1,024 bytes, or not a copy of line 1 and 1 to 16 lines of entries.
    Snapshot = 13,
    /// An entry of the snapshot is above 1 for a mark, a name or a value, or above the number of nodes for a field.
    Entry = 14,
    /// A name is on two nodes of the snapshot, used in a formula or not.
    Twice = 15,
    /// The row is shorter than the snapshot has nodes.
    Row = 16,
    /// A node of the snapshot has none of the values, or several. Asked before 16.
    Held = 17,
    /// The sheet written clean has a line over 200 bytes, is over 1,024 bytes, or has no room in the store. Asked after 10.
    Clean = 18,
    /// The lean limit is not 1 to 12, or the closure limit not 16 to 128. Asked before 1, and only in the calls with limits.
    Limits = 19,
}

impl Refusal {
    /// All refusals, in the order of their numbers.
    ///
    /// ```
    /// use lockgraph::Refusal;
    ///
    /// let numbers: Vec<u8> = Refusal::ALL.iter().map(|refusal| refusal.number()).collect();
    /// assert_eq!(numbers, (1..=19).collect::<Vec<u8>>());
    /// ```
    pub const ALL: [Refusal; 19] = [
        Refusal::Length,
        Refusal::Byte,
        Refusal::Layout,
        Refusal::Names,
        Refusal::Kinds,
        Refusal::Grammar,
        Refusal::Symbol,
        Refusal::Braces,
        Refusal::Closure,
        Refusal::Lean,
        Refusal::Naming,
        Refusal::Store,
        Refusal::Snapshot,
        Refusal::Entry,
        Refusal::Twice,
        Refusal::Row,
        Refusal::Held,
        Refusal::Clean,
        Refusal::Limits,
    ];

    /// The number in the documents' table, 1 to 19.
    ///
    /// ```
    /// assert_eq!(lockgraph::Refusal::Store.number(), 12);
    /// ```
    pub fn number(self) -> u8 {
        self as u8
    }

    /// The refusal of a number, if there is one.
    ///
    /// ```
    /// use lockgraph::Refusal;
    ///
    /// assert_eq!(Refusal::of_number(9), Some(Refusal::Closure));
    /// assert_eq!(Refusal::of_number(0), None);
    /// assert_eq!(Refusal::of_number(20), None);
    /// ```
    pub fn of_number(number: u8) -> Option<Refusal> {
        let place = usize::from(number).checked_sub(1)?;
        Refusal::ALL.get(place).copied()
    }

    fn reason(self) -> &'static str {
        match self {
            Refusal::Length => "the sheet is empty or over 1,024 bytes, or a line is over 200",
            Refusal::Byte => "the sheet has a byte that is neither printable nor a newline",
            Refusal::Layout => {
                "the sheet's lines are not 3 to 7 with the right beginnings and a final newline"
            }
            Refusal::Names => {
                "line 1 is not 1 to 8 different symbols of 1 to 8 lower-case letters with single spaces"
            }
            Refusal::Kinds => {
                "line 2 is not mark, name, field or value for each symbol, with at most 2 names"
            }
            Refusal::Grammar => "a formula does not parse",
            Refusal::Symbol => "a symbol is not in line 1 or is of the wrong kind for its place",
            Refusal::Braces => "braces are empty or have a mode twice",
            Refusal::Closure => {
                "there are more formulas, with all parts and expansions, than the closure limit (usually 64)"
            }
            Refusal::Lean => "there are more basic formulas than the lean limit (usually 8)",
            Refusal::Naming => "the naming is not below the number of namings",
            Refusal::Store => "a store is too short",
            Refusal::Snapshot => "the snapshot is not line 1 and 1 to 16 lines of entries",
            Refusal::Entry => "an entry of the snapshot is above 1 or above the number of nodes",
            Refusal::Twice => "a name is on two nodes of the snapshot",
            Refusal::Row => "the row is too short",
            Refusal::Held => "a node of the snapshot has none of the values, or several",
            Refusal::Clean => {
                "the clean sheet has a line over 200 bytes, is over 1,024, or has no room in the store"
            }
            Refusal::Limits => "the lean limit is not 1 to 12, or the closure limit not 16 to 128",
        }
    }
}

impl fmt::Display for Refusal {
    fn fmt(&self, f: &mut fmt::Formatter<'_>) -> fmt::Result {
        write!(f, "refused {}: {}", self.number(), self.reason())
    }
}

impl Error for Refusal {}
