//! Safe calls to the proved judge of lock graphs.
//!
//! A sheet is a text that asks one question about a lock drawing; docs/SHEETS.md says how it is written and what a verdict means.
//! Each function here is one operation on a sheet's bytes. It calls the library whose contracts are proved (include/lockgraph.h) and
//! adds nothing to its answers.
//!
//! - No function allocates or has a state, and calls from several threads are free.
//! - Stores are lent: `&mut` slices of any length. After a refusal they are as they were; otherwise only the part that a function
//!   describes has changed. The constants here are lengths that are always enough.
//! - A sheet has at most 8 basic formulas, and 64 with all parts and expansions, or is refused. Each function has a second one, whose
//!   name ends in `_within`, that takes [`Limits`] first: up to 12 and 128. `Limits` has the lengths that are always enough there.
//! - Each call needs a stack with 256 KiB left. A thread of the standard library has 2 MiB unless it asked for less.
//!
//! ```
//! use lockgraph::{verdict, Verdict};
//!
//! let sheet = b"thumb held\nmark field\ngoal EX{held}thumb&EX{held}!thumb\n";
//! assert_eq!(verdict(sheet), Ok(Verdict::Unsatisfiable));
//! ```
#![deny(missing_docs)]
#![deny(unsafe_code)]
#![warn(unsafe_op_in_unsafe_fn)]

mod limits;
#[allow(unsafe_code)]
pub mod raw;
mod refusal;
mod within;

pub use limits::Limits;
pub use refusal::Refusal;
pub use within::{
    book_within, clean_within, goal_text_within, list_within, snapshot_within, table_within,
    verdict_within,
};

/// So many words each of [`table`]'s stores has at least.
pub const TABLE_WORDS: usize = 4;

/// So many words are always enough for [`book`].
pub const BOOK_WORDS: usize = 65_536;

/// So many numbers are always enough for [`list`].
pub const LIST_NUMBERS: usize = 256;

/// So many bytes are always enough for [`clean`], and for [`clean_within`] within all limits.
pub const CLEAN_BYTES: usize = 1024;

/// So many bytes are always enough for [`snapshot`], and for [`snapshot_within`] within all limits.
pub const ROW_BYTES: usize = 16;

/// One of the two stores that are lent to [`table`].
#[derive(Clone, Copy, Debug, PartialEq, Eq, Hash)]
pub enum Store {
    /// The first store.
    First,
    /// The second store.
    Second,
}

/// What [`table`] gives.
#[derive(Clone, Copy, Debug, PartialEq, Eq)]
pub struct Table<'a> {
    /// The surviving types: the beginning of the store that was written last. Type `j` is bit `j % 64` of word `j / 64`.
    pub words: &'a [u64],
    /// The store that `words` is a part of.
    pub store: Store,
    /// How many types there are at the start.
    pub start: u64,
    /// How many types survive.
    pub left: u64,
    /// After how many rounds.
    pub rounds: u64,
}

impl<'a> Table<'a> {
    /// By the words that the library told.
    fn of(out: [u64; 5], first: &'a [u64], second: &'a [u64]) -> Table<'a> {
        let [words, start, left, rounds, last] = out;
        let (store, written) = match last {
            1 => (Store::First, first),
            _ => (Store::Second, second),
        };
        Table {
            words: &written[..words as usize],
            store,
            start,
            left,
            rounds,
        }
    }
}

/// What [`book`] gives.
#[derive(Clone, Copy, Debug, PartialEq, Eq)]
pub struct Book<'a> {
    /// The surviving types under all namings, one naming after the other: the beginning of the store.
    pub words: &'a [u64],
    /// How many namings there are: 1 to 16,384, or within limits up to 4,194,304.
    pub namings: u64,
    /// How many words each naming has: 1, 2 or 4, or within limits up to 64.
    pub words_each: usize,
}

impl<'a> Book<'a> {
    /// By the words that the library told.
    fn of([namings, words]: [u64; 2], store: &'a [u64]) -> Book<'a> {
        Book {
            words: &store[..(namings * words) as usize],
            namings,
            words_each: words as usize,
        }
    }

    /// The surviving types under a naming, or nothing if there is no such naming.
    ///
    /// ```
    /// let sheet = b"v f\nname field\ngoal EX{f}v\n";
    /// let mut store = vec![0; lockgraph::BOOK_WORDS];
    /// let book = lockgraph::book(sheet, &mut store)?;
    /// assert_eq!(book.under(1), Some(&book.words[1..2]));
    /// assert_eq!(book.under(book.namings), None);
    /// # Ok::<(), lockgraph::Refusal>(())
    /// ```
    pub fn under(&self, naming: u64) -> Option<&'a [u64]> {
        let naming = usize::try_from(naming).ok()?;
        self.words.chunks_exact(self.words_each).nth(naming)
    }
}

/// What [`verdict`] gives.
#[derive(Clone, Copy, Debug, PartialEq, Eq, Hash)]
pub enum Verdict {
    /// The elimination did not exclude the goal. This does not say that a snapshot has it.
    Open {
        /// The least naming under which a surviving type has the goal.
        naming: u64,
        /// The least such type.
        type_number: u16,
    },
    /// No snapshot of any size that obeys the sheet has the goal at any node.
    Unsatisfiable,
}

impl Verdict {
    /// By the words that the library told.
    fn of([verdict, naming, type_number]: [u64; 3]) -> Verdict {
        match verdict {
            1 => Verdict::Open {
                naming,
                type_number: type_number as u16,
            },
            2 => Verdict::Unsatisfiable,
            _ => unreachable!("the library tells 1 or 2"),
        }
    }
}

/// The surviving types under a naming.
///
/// Each store has at least [`TABLE_WORDS`] words. Afterwards both begin with the words that are handed back, and the words behind
/// those are as they were.
///
/// ```
/// use lockgraph::{table, Refusal, Store};
///
/// let sheet = b"capture thumb preview waits held
/// mark mark mark field field
/// all preview>AX{waits}0
/// goal capture&EX{waits}EX{held}(thumb&EX{waits}EX{held}preview)
/// ";
/// let (mut first, mut second) = ([7; 5], [7; 5]);
/// let table = table(sheet, 0, &mut first, &mut second)?;
/// assert_eq!((table.start, table.left, table.rounds), (192, 60, 3));
/// assert_eq!(table.words.iter().map(|word| word.count_ones()).sum::<u32>(), 60);
/// assert_eq!(table.store, Store::First);
/// assert_eq!(first, second);
/// assert_eq!(first[4], 7);
///
/// assert_eq!(lockgraph::table(sheet, 1, &mut first, &mut second), Err(Refusal::Naming));
/// assert_eq!(lockgraph::table(sheet, 0, &mut first, &mut []), Err(Refusal::Store));
/// # Ok::<(), Refusal>(())
/// ```
pub fn table<'a>(
    sheet: &[u8],
    naming: u64,
    first: &'a mut [u64],
    second: &'a mut [u64],
) -> Result<Table<'a>, Refusal> {
    let out = told(|out| raw::table(sheet, naming, first, second, out))?;
    Ok(Table::of(out, first, second))
}

/// The surviving types under every naming.
///
/// The store needs the words of all namings; [`BOOK_WORDS`] are always enough. The words behind those are as they were.
///
/// ```
/// use lockgraph::{book, Refusal, BOOK_WORDS};
///
/// let sheet = b"v f\nname field\ngoal EX{f}v\n";
/// let mut store = vec![7; BOOK_WORDS];
/// let book = book(sheet, &mut store)?;
/// assert_eq!((book.namings, book.words_each), (2, 1));
/// assert_eq!(book.words.len(), 2);
/// assert_eq!(store[2], 7);
///
/// assert_eq!(lockgraph::book(sheet, &mut store[..1]), Err(Refusal::Store));
/// # Ok::<(), Refusal>(())
/// ```
pub fn book<'a>(sheet: &[u8], store: &'a mut [u64]) -> Result<Book<'a>, Refusal> {
    let out = told(|out| raw::book(sheet, store, out))?;
    Ok(Book::of(out, store))
}

/// The surviving types under a naming as numbers, each once: those with the fewest true lean places first, among equals the smaller number.
///
/// They are the beginning of the store; [`LIST_NUMBERS`] numbers are always enough. The numbers behind those are as they were.
///
/// ```
/// use lockgraph::{list, Refusal, LIST_NUMBERS};
///
/// let sheet = b"lock waits\nmark field\nall lock>AX{waits}0\ngoal EX{waits}lock\n";
/// let mut store = [7; LIST_NUMBERS];
/// assert_eq!(list(sheet, 0, &mut store)?, [0, 2, 4, 3]);
/// assert_eq!(store[4], 7);
///
/// assert_eq!(list(sheet, 0, &mut []), Err(Refusal::Store));
/// # Ok::<(), Refusal>(())
/// ```
pub fn list<'a>(sheet: &[u8], naming: u64, store: &'a mut [u16]) -> Result<&'a [u16], Refusal> {
    let [left] = told(|out| raw::list(sheet, naming, store, out))?;
    Ok(&store[..left as usize])
}

/// Whether the goal is open or unsatisfiable.
///
/// ```
/// use lockgraph::{verdict, Refusal, Verdict};
///
/// let sheet = b"capture thumb preview waits held
/// mark mark mark field field
/// all preview>AX{waits}0
/// goal capture&EX{waits}EX{held}(thumb&EX{waits}EX{held}preview)
/// ";
/// assert_eq!(verdict(sheet), Ok(Verdict::Open { naming: 0, type_number: 129 }));
/// assert_eq!(verdict(b"k\nmark\ngoal k&!k\n"), Ok(Verdict::Unsatisfiable));
/// assert_eq!(verdict(b""), Err(Refusal::Length));
/// ```
pub fn verdict(sheet: &[u8]) -> Result<Verdict, Refusal> {
    told(|out| raw::verdict(sheet, out)).map(Verdict::of)
}

/// The goal's text, the part of the sheet after `goal ` without its newline.
///
/// ```
/// use lockgraph::{goal_text, Refusal};
///
/// assert_eq!(goal_text(b"k f\nmark field\ngoal EX{f} k\n"), Ok("EX{f} k"));
/// assert_eq!(goal_text(b"k f\nmark field\ngoal EX{f}\n"), Err(Refusal::Grammar));
/// ```
pub fn goal_text(sheet: &[u8]) -> Result<&str, Refusal> {
    let [place, length] = told(|out| raw::goal(sheet, out))?;
    Ok(printable(&sheet[place as usize..][..length as usize]))
}

/// The sheet written back in one way of typing: lines 1 and 2 as they are, then each formula in canonical print behind `all ` or `goal `.
///
/// The clean sheet is the beginning of the store; [`CLEAN_BYTES`] bytes are always enough. The bytes behind it are as they were. It is
/// accepted, has the same answer to every question but that for the goal's text, and cleaning it gives the same bytes: that is proved.
/// `!` stands before symbols alone in it, and `EF`, `AF`, `EG`, `AG` and `>` are written out, so a formula may become longer, and a
/// sheet that is accepted may be refused here.
///
/// ```
/// use lockgraph::{clean, Refusal, CLEAN_BYTES};
///
/// let sheet = b"lock waits\nmark field\nall EX { Waits , waits } lock > lock\ngoal !EF{waits}lock\n";
/// let mut store = [7; CLEAN_BYTES];
/// let text = clean(sheet, &mut store)?;
/// let written = "lock waits\nmark field\nall (AX{waits,Waits}!lock|lock)\ngoal A{waits}(0R!lock)\n";
/// assert_eq!(text, written);
/// let length = written.len();
/// assert_eq!(store[length], 7);
///
/// assert_eq!(clean(sheet, &mut store[..length])?, written);
/// assert_eq!(clean(sheet, &mut store[..length - 1]), Err(Refusal::Clean));
/// # Ok::<(), Refusal>(())
/// ```
pub fn clean<'a>(sheet: &[u8], store: &'a mut [u8]) -> Result<&'a str, Refusal> {
    let [length] = told(|out| raw::clean(sheet, store, out))?;
    Ok(printable(&store[..length as usize]))
}

/// At which nodes of a snapshot the goal and the globals hold.
///
/// Byte `i` of the row becomes 1 if the goal holds at node `i + 1`, plus 2 if all globals do. [`ROW_BYTES`] bytes are always enough.
/// The bytes behind those of the nodes are as they were.
///
/// The text is a copy of the sheet's line 1 and then a line for each node, each line with its newline. A node's line has an entry for each
/// symbol of line 1, in that order, with single spaces between: 1 or 0 for a mark, a name or a value that is on the node or not, and for a
/// field the number of the node it leads to, from 1, or 0 if it leads nowhere. If the sheet has values, each node has exactly one of them.
///
/// ```
/// use lockgraph::{snapshot, Refusal, ROW_BYTES};
///
/// let sheet = b"ready waits\nmark field\nall ready>AX{waits}0\ngoal EX{waits}ready\n";
/// let mut row = [7; ROW_BYTES];
/// assert_eq!(snapshot(sheet, b"ready waits\n0 2\n1 1\n", &mut row)?, [3, 0]);
/// assert_eq!(row[2], 7);
///
/// assert_eq!(snapshot(sheet, b"ready waits\n0 3\n1 1\n", &mut row), Err(Refusal::Entry));
/// assert_eq!(snapshot(sheet, b"ready waits\n0 2\n1 1\n", &mut row[..1]), Err(Refusal::Row));
///
/// let sheet = b"thread lock waits\nvalue value field\ngoal EX{waits}lock\n";
/// assert_eq!(snapshot(sheet, b"thread lock waits\n1 0 2\n0 1 0\n", &mut row)?, [3, 2]);
/// assert_eq!(snapshot(sheet, b"thread lock waits\n1 0 2\n1 1 0\n", &mut row), Err(Refusal::Held));
/// # Ok::<(), Refusal>(())
/// ```
pub fn snapshot<'a>(sheet: &[u8], text: &[u8], row: &'a mut [u8]) -> Result<&'a [u8], Refusal> {
    let [nodes] = told(|out| raw::snapshot(sheet, text, row, out))?;
    Ok(&row[..nodes as usize])
}

/// What the library told, or its refusal.
fn told<const N: usize>(call: impl FnOnce(&mut [u64; N]) -> u8) -> Result<[u64; N], Refusal> {
    let mut out = [0; N];
    match call(&mut out) {
        0 => Ok(out),
        number => Err(Refusal::of_number(number).expect("the library's refusals are 1 to 19")),
    }
}

/// A part of a sheet that is not refused, or of a clean one.
fn printable(text: &[u8]) -> &str {
    std::str::from_utf8(text).expect("such a sheet has printable bytes")
}
