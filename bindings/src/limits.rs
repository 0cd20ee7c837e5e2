//! The limits that a call may be given.

/// How large a sheet may be: refusals 10 and 9 are asked by these two numbers.
///
/// Each operation has two functions: [`verdict`](crate::verdict) takes no limits and has the usual ones, and
/// [`verdict_within`](crate::verdict_within) takes them first; likewise the others. Limits decide what is refused, and how many words
/// the stores of [`table_within`](crate::table_within) have to have. They decide nothing else: a sheet that is accepted within some
/// limits has the same answers within all larger ones, given stores that are long enough there.
///
/// The two numbers may be any. If one is out of its range, each call is refused with [`Refusal::Limits`](crate::Refusal::Limits), before
/// the sheet is looked at.
///
/// ```
/// use lockgraph::{verdict, verdict_within, Limits, Refusal};
///
/// // Nine basic formulas: `busy`, and two for each of the four modes.
/// let sheet = b"busy waits held\nmark field field\ngoal AF{waits,Waits,held,Held}busy\n";
/// assert_eq!(verdict(sheet), Err(Refusal::Lean));
/// assert_eq!(verdict_within(Limits { lean: 8, closure: 64 }, sheet), Err(Refusal::Lean));
/// assert!(verdict_within(Limits { lean: 9, closure: 64 }, sheet).is_ok());
///
/// let too_much = Limits { lean: 13, closure: 64 };
/// assert_eq!(verdict_within(too_much, sheet), Err(Refusal::Limits));
/// assert_eq!(verdict_within(too_much, b""), Err(Refusal::Limits));
/// ```
#[derive(Clone, Copy, Debug, PartialEq, Eq, Hash)]
pub struct Limits {
    /// How many basic formulas, the lean, there may be: 1 to 12. With more the sheet is refused with
    /// [`Refusal::Lean`](crate::Refusal::Lean).
    pub lean: usize,
    /// How many formulas with all their parts and expansions, the closure, there may be: 16 to 128. With more the sheet is refused
    /// with [`Refusal::Closure`](crate::Refusal::Closure).
    pub closure: usize,
}

impl Limits {
    /// Those of the calls without limits: 8 and 64.
    pub const USUAL: Limits = Limits {
        lean: 8,
        closure: 64,
    };

    /// The largest: 12 and 128.
    pub const MOST: Limits = Limits {
        lean: 12,
        closure: 128,
    };

    /// So many words each store of [`table_within`](crate::table_within) has at least, also where the sheet needs fewer: 1 for a lean
    /// limit up to 6, then 2, 4, 8, 16, 32, and 64 for 12.
    ///
    /// Out of the range, where each call is refused, this and the other lengths are those of the nearest limit in it.
    ///
    /// ```
    /// use lockgraph::{table, table_within, Limits, Refusal, TABLE_WORDS};
    ///
    /// assert_eq!(Limits::USUAL.table_words(), TABLE_WORDS);
    /// assert_eq!(Limits { lean: 6, ..Limits::USUAL }.table_words(), 1);
    ///
    /// // The limit counts, not the sheet.
    /// let sheet = b"k\nmark\ngoal k\n";
    /// let (mut first, mut second) = ([0; Limits::MOST.table_words()], [0; Limits::MOST.table_words()]);
    /// assert_eq!(table_within(Limits::MOST, sheet, 0, &mut first, &mut second)?.words, [3]);
    /// assert_eq!(table_within(Limits::MOST, sheet, 0, &mut first, &mut second[1..]), Err(Refusal::Store));
    /// # Ok::<(), Refusal>(())
    /// ```
    pub const fn table_words(self) -> usize {
        1 << self.places().saturating_sub(6)
    }

    /// So many words are always enough for [`book_within`](crate::book_within): those of a sheet with as many basic formulas as the
    /// limit allows, two of which are names.
    ///
    /// Under the largest limits that is 268,435,456 words, 2 GiB: better ask for what the sheet at hand has, namings times words, and
    /// have a store that is too short refused with [`Refusal::Store`](crate::Refusal::Store).
    ///
    /// ```
    /// use lockgraph::{Limits, BOOK_WORDS};
    ///
    /// assert_eq!(Limits::USUAL.book_words(), BOOK_WORDS);
    /// assert_eq!(Limits::MOST.book_words(), 4_194_304 * 64);
    /// ```
    pub const fn book_words(self) -> usize {
        let namings = 1 << (2 * (self.places() - 1));
        namings * self.table_words()
    }

    /// So many numbers are always enough for [`list_within`](crate::list_within): as many as there are types.
    ///
    /// ```
    /// use lockgraph::{Limits, LIST_NUMBERS};
    ///
    /// assert_eq!(Limits::USUAL.list_numbers(), LIST_NUMBERS);
    /// assert_eq!(Limits::MOST.list_numbers(), 4096);
    /// ```
    pub const fn list_numbers(self) -> usize {
        1 << self.places()
    }

    /// The lean limit, or the nearest one in the range.
    const fn places(self) -> usize {
        match self.lean {
            0 => 1,
            1..=12 => self.lean,
            _ => Limits::MOST.lean,
        }
    }
}
