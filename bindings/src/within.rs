//! The operations within given limits. Each takes what the function without limits takes, behind the limits.

use crate::{raw, told, Book, Limits, Refusal, Table, Verdict};

/// [`table`](crate::table) within limits: the surviving types under a naming.
///
/// Each store has at least [`limits.table_words()`](Limits::table_words) words, whatever the sheet needs. Afterwards both begin with the
/// words that are handed back, up to 64, and the words behind those are as they were.
///
/// ```
/// use lockgraph::{table_within, Limits, Refusal};
///
/// let sheet = b"busy waits held\nmark field field\ngoal AF{waits,Waits,held,Held}busy\n";
/// let limits = Limits { lean: 10, closure: 64 };
/// let (mut first, mut second) = ([7; 16], [7; 16]);
/// let table = table_within(limits, sheet, 0, &mut first, &mut second)?;
/// assert_eq!((table.words.len(), table.start), (8, 512));
/// assert_eq!(table.words.iter().map(|word| u64::from(word.count_ones())).sum::<u64>(), table.left);
/// assert_eq!(first, second);
/// assert_eq!(first[8], 7);
///
/// // Nine places would do with 8 words; a limit of ten asks for 16.
/// assert_eq!(table_within(limits, sheet, 0, &mut first, &mut second[..15]), Err(Refusal::Store));
/// # Ok::<(), Refusal>(())
/// ```
pub fn table_within<'a>(
    limits: Limits,
    sheet: &[u8],
    naming: u64,
    first: &'a mut [u64],
    second: &'a mut [u64],
) -> Result<Table<'a>, Refusal> {
    let out = told(|out| raw::table_within(limits, sheet, naming, first, second, out))?;
    Ok(Table::of(out, first, second))
}

/// [`book`](crate::book) within limits: the surviving types under every naming.
///
/// The store needs the words of all namings of the sheet, whatever the limits are; [`limits.book_words()`](Limits::book_words) are always
/// enough. The words behind those are as they were. A sheet with `n` basic formulas has 2^(n - 1) namings if one name occurs in it, and
/// 2^(2n - 2) if two do, and all are gone through.
///
/// ```
/// use lockgraph::{book_within, Limits, Refusal};
///
/// let sheet = b"v f\nname field\ngoal EX{f}v\n";
/// let limits = Limits { lean: 2, closure: 16 };
/// assert_eq!(limits.book_words(), 4);
/// let mut store = [7; 4];
/// let book = book_within(limits, sheet, &mut store)?;
/// assert_eq!((book.namings, book.words_each), (2, 1));
/// assert_eq!(store[2..], [7, 7]);
///
/// assert_eq!(book_within(Limits::MOST, sheet, &mut store[..1]), Err(Refusal::Store));
/// # Ok::<(), Refusal>(())
/// ```
pub fn book_within<'a>(
    limits: Limits,
    sheet: &[u8],
    store: &'a mut [u64],
) -> Result<Book<'a>, Refusal> {
    let out = told(|out| raw::book_within(limits, sheet, store, out))?;
    Ok(Book::of(out, store))
}

/// [`list`](crate::list) within limits: the surviving types under a naming as numbers, in the same order.
///
/// They are the beginning of the store; [`limits.list_numbers()`](Limits::list_numbers) numbers are always enough. The numbers behind those
/// are as they were.
///
/// ```
/// use lockgraph::{list_within, Limits, Refusal};
///
/// let sheet = b"lock waits\nmark field\nall lock>AX{waits}0\ngoal EX{waits}lock\n";
/// let mut store = [7; Limits::MOST.list_numbers()];
/// assert_eq!(list_within(Limits::MOST, sheet, 0, &mut store)?, [0, 2, 4, 3]);
///
/// let two_places = Limits { lean: 2, ..Limits::USUAL };
/// assert_eq!(list_within(two_places, sheet, 0, &mut store), Err(Refusal::Lean));
/// # Ok::<(), Refusal>(())
/// ```
pub fn list_within<'a>(
    limits: Limits,
    sheet: &[u8],
    naming: u64,
    store: &'a mut [u16],
) -> Result<&'a [u16], Refusal> {
    let [left] = told(|out| raw::list_within(limits, sheet, naming, store, out))?;
    Ok(&store[..left as usize])
}

/// [`verdict`](crate::verdict) within limits: whether the goal is open or unsatisfiable.
///
/// For an unsatisfiable goal all namings are gone through; [`book_within`] says how many there are.
///
/// ```
/// use lockgraph::{verdict, verdict_within, Limits, Refusal, Verdict};
///
/// let sheet = b"busy waits held
/// mark field field
/// all AF{waits,held,Held}busy
/// goal AG{waits,held,Held}!busy
/// ";
/// assert_eq!(verdict(sheet), Err(Refusal::Lean));
/// assert_eq!(verdict_within(Limits::MOST, sheet), Ok(Verdict::Unsatisfiable));
/// ```
pub fn verdict_within(limits: Limits, sheet: &[u8]) -> Result<Verdict, Refusal> {
    told(|out| raw::verdict_within(limits, sheet, out)).map(Verdict::of)
}

/// [`goal_text`](crate::goal_text) within limits: the part of the sheet after `goal ` without its newline.
///
/// ```
/// use lockgraph::{goal_text_within, Limits, Refusal};
///
/// let sheet = b"k f\nmark field\ngoal EX{f} k\n";
/// assert_eq!(goal_text_within(Limits { lean: 2, closure: 16 }, sheet), Ok("EX{f} k"));
/// assert_eq!(goal_text_within(Limits { lean: 2, closure: 15 }, sheet), Err(Refusal::Limits));
/// ```
pub fn goal_text_within(limits: Limits, sheet: &[u8]) -> Result<&str, Refusal> {
    let [place, length] = told(|out| raw::goal_within(limits, sheet, out))?;
    Ok(crate::printable(
        &sheet[place as usize..][..length as usize],
    ))
}

/// [`clean`](crate::clean) within limits: the sheet written back in one way of typing.
///
/// The clean sheet is the beginning of the store; [`CLEAN_BYTES`](crate::CLEAN_BYTES) bytes are enough within all limits. The bytes behind
/// it are as they were. It is accepted within the same limits, and cleaning it there gives the same bytes.
///
/// ```
/// use lockgraph::{clean_within, Limits, Refusal, CLEAN_BYTES};
///
/// let sheet = b"busy waits held\nmark field field\ngoal !AF { Waits,waits,Held,held } busy\n";
/// let mut store = [7; CLEAN_BYTES];
/// let written = "busy waits held\nmark field field\ngoal E{waits,held,Waits,Held}(0R!busy)\n";
/// assert_eq!(clean_within(Limits::MOST, sheet, &mut store)?, written);
/// assert_eq!(clean_within(Limits::USUAL, sheet, &mut store), Err(Refusal::Lean));
/// # Ok::<(), Refusal>(())
/// ```
pub fn clean_within<'a>(
    limits: Limits,
    sheet: &[u8],
    store: &'a mut [u8],
) -> Result<&'a str, Refusal> {
    let [length] = told(|out| raw::clean_within(limits, sheet, store, out))?;
    Ok(crate::printable(&store[..length as usize]))
}

/// [`snapshot`](crate::snapshot) within limits: at which nodes of a snapshot the goal and the globals hold.
///
/// Text and row are as there; [`ROW_BYTES`](crate::ROW_BYTES) bytes are enough within all limits.
///
/// ```
/// use lockgraph::{snapshot_within, Limits, Refusal, ROW_BYTES};
///
/// let sheet = b"busy waits held\nmark field field\ngoal AF{waits,Waits,held,Held}busy\n";
/// let text = b"busy waits held\n0 2 0\n1 0 0\n0 0 0\n";
/// let mut row = [7; ROW_BYTES];
/// assert_eq!(snapshot_within(Limits::MOST, sheet, text, &mut row)?, [3, 3, 2]);
/// assert_eq!(row[3], 7);
///
/// assert_eq!(snapshot_within(Limits::USUAL, sheet, text, &mut row), Err(Refusal::Lean));
/// # Ok::<(), Refusal>(())
/// ```
pub fn snapshot_within<'a>(
    limits: Limits,
    sheet: &[u8],
    text: &[u8],
    row: &'a mut [u8],
) -> Result<&'a [u8], Refusal> {
    let [nodes] = told(|out| raw::snapshot_within(limits, sheet, text, row, out))?;
    Ok(&row[..nodes as usize])
}
