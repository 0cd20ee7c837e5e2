//! The calls about one sheet, and how the two answers are compared.

use super::outcomes::Outcomes;
use super::second::{Second, Table};
use super::sheets::Sheet;
use super::stores::Stores;
use super::told;
use super::ways::Way;
use lockgraph::Refusal;
use second_checker::closure::Accepted;
use second_checker::corpus::escape;
use second_checker::generate::Chance;
use second_checker::rules::Rules;
use std::fmt::Debug;

/// Where all namings take too long, a goal is asked for that is open under one of so many.
const FIRST: u64 = 4;

/// The namings to ask for: few, so that what the second checker struck serves several calls. The last two do not exist.
fn some_namings(c: &mut Chance, namings: u64) -> [u64; 8] {
    let mut below = || c.word() % namings;
    let some = [below(), below(), below()];
    let above = namings + c.word() % (u64::MAX - namings);
    [0, 0, namings - 1, some[0], some[1], some[2], namings, above]
}

/// A length at a limit or around it, more often enough than not.
fn around(c: &mut Chance, limit: usize) -> usize {
    match c.below(10) {
        0 => 0,
        1 | 2 => limit.saturating_sub(1),
        3..=5 => limit,
        6 | 7 => limit + 1,
        _ => limit + c.below(20),
    }
}

/// What calls are about, and how they are made.
pub struct Calls<'a> {
    sheet: &'a Sheet,
    /// The sheet's bytes as they are lent.
    lent: Vec<u8>,
    second: Second<'a>,
    stores: &'a mut Stores,
    outcomes: &'a mut Outcomes,
    namings: [u64; 8],
    /// How many namings a book has, and how many words for each.
    book: [u64; 2],
    pictures: Vec<Vec<u8>>,
    way: Way,
    /// Whether all namings can be gone through. Where not, books are too short for them, and goals are open under one of the first.
    all_namings: bool,
}

impl<'a> Calls<'a> {
    /// About a sheet as the second checker read it, without limits.
    pub fn about(
        c: &mut Chance,
        sheet: &'a Sheet,
        (rules, read): (Rules, &'a Result<Accepted<'a>, u8>),
        twice: bool,
        (stores, outcomes): (&'a mut Stores, &'a mut Outcomes),
    ) -> Calls<'a> {
        let (namings, words) = read
            .as_ref()
            .map_or((1, 1), |accepted| (accepted.namings(), accepted.words()));
        Calls {
            sheet,
            lent: sheet.bytes.clone(),
            second: Second::new(&sheet.bytes, rules, read, twice),
            stores,
            outcomes,
            namings: some_namings(c, namings),
            book: [namings, words as u64],
            pictures: (0..4).map(|_| sheet.picture(c)).collect(),
            way: Way::Without,
            all_namings: true,
        }
    }

    /// Asks for no more striking than so much.
    pub fn have_patience(&mut self, patience: u64) {
        self.all_namings = self.second.cost() <= patience;
    }

    /// From now on in another way, under rules with its limits. Gives the outcome of the sheet under them.
    pub fn make_by(&mut self, way: Way, rules: Rules) -> u8 {
        self.way = way;
        self.second.judge_by(rules)
    }

    /// The rounds under the first naming; 0 where the sheet is refused.
    pub fn first_rounds(&mut self) -> usize {
        self.second.rounds(0)
    }

    /// Makes so many calls and describes those that differ.
    pub fn make(&mut self, c: &mut Chance, calls: u64) -> Vec<String> {
        let mut faults: Vec<String> = (0..calls)
            .filter_map(|number| self.call(c, number))
            .collect();
        if self.lent != self.sheet.bytes {
            faults.push(String::from("the sheet was written"));
        }
        let (text, way) = (escape(&self.sheet.bytes), self.way);
        faults
            .into_iter()
            .map(|fault| format!("sheet {text}\n{way}{fault}"))
            .collect()
    }

    /// One call, and what differs. Verdict and goal have no other argument than the sheet, so they are asked once.
    fn call(&mut self, c: &mut Chance, number: u64) -> Option<String> {
        let naming = c.pick(&self.namings);
        let words = self.second.table_words();
        match (number, c.below(16)) {
            (0, _) if self.is_soon() => self.verdict(),
            (1, _) => self.goal_text(),
            (_, 0..=4) => self.table(naming, around(c, words), around(c, words)),
            (_, 5) => {
                let length = self.book_length(c);
                self.book(length)
            }
            (_, 6) => {
                let length = self.second.clean_length();
                self.clean(around(c, length))
            }
            (_, 7..=10) => {
                let left = self.second.left(naming);
                self.list(naming, around(c, left))
            }
            _ => {
                let text = c.pick(&self.pictures);
                let nodes = self.second.nodes(&text);
                self.snapshot(&text, around(c, nodes))
            }
        }
    }

    /// Whether a verdict is found soon.
    fn is_soon(&mut self) -> bool {
        self.all_namings || self.second.is_open_under_first(FIRST)
    }

    /// Around what all namings need, or too short for them where they take too long.
    fn book_length(&self, c: &mut Chance) -> usize {
        let [namings, words] = self.book;
        let needed = (namings * words) as usize;
        if self.all_namings {
            around(c, needed)
        } else {
            c.pick(&[0, 1, words as usize, needed.min(100_000) - 1])
        }
    }

    fn table(&mut self, naming: u64, first_len: usize, second_len: usize) -> Option<String> {
        let expected = self.second.table(naming, first_len, second_len);
        self.outcomes.count("table", &expected);
        let first = self.stores.first.lend(first_len);
        let second = self.stores.second.lend(second_len);
        let starts = (first.as_ptr(), second.as_ptr());
        let got = self.way.table(&self.lent, naming, first, second);
        let promised = expected
            .as_ref()
            .map_or(Vec::new(), |table| table.words.clone());
        unlike(&got, &expected, |got, table| same_table(got, table, starts))
            .or_else(|| self.stores.first.fault(&promised))
            .or_else(|| self.stores.second.fault(&promised))
            .or_else(|| {
                let first = self.stores.first.lend(first_len);
                let second = self.stores.second.lend(second_len);
                told::fault(&mut self.stores.out, &expected, told::table, |out| {
                    self.way.raw_table(&self.lent, naming, first, second, out)
                })
            })
            .map(|fault| format!("table {naming} {first_len} {second_len}: {fault}"))
    }

    fn book(&mut self, length: usize) -> Option<String> {
        let expected = self.second.book(length);
        self.outcomes.count("book", &expected);
        let got = self.way.book(&self.lent, self.stores.book.lend(length));
        let promised = expected.clone().unwrap_or_default();
        unlike(&got, &expected, |got, words| same_book(got, words))
            .or_else(|| self.stores.book.fault(&promised))
            .or_else(|| {
                let store = self.stores.book.lend(length);
                let words = |_: &_| self.book;
                told::fault(&mut self.stores.out, &expected, words, |out| {
                    self.way.raw_book(&self.lent, store, out)
                })
            })
            .map(|fault| format!("book {length}: {fault}"))
    }

    fn list(&mut self, naming: u64, length: usize) -> Option<String> {
        let expected = self.second.list(naming, length);
        self.outcomes.count("list", &expected);
        let got = self
            .way
            .list(&self.lent, naming, self.stores.list.lend(length));
        let promised = expected.clone().unwrap_or_default();
        unlike(&got, &expected, |numbers, types| numbers == types)
            .or_else(|| self.stores.list.fault(&promised))
            .or_else(|| {
                let store = self.stores.list.lend(length);
                told::fault(&mut self.stores.out, &expected, told::count, |out| {
                    self.way.raw_list(&self.lent, naming, store, out)
                })
            })
            .map(|fault| format!("list {naming} {length}: {fault}"))
    }

    fn verdict(&mut self) -> Option<String> {
        let expected = self.second.verdict();
        self.outcomes.count("verdict", &expected);
        let got = self.way.verdict(&self.lent);
        unlike(&got, &expected, same_verdict)
            .or_else(|| {
                told::fault(&mut self.stores.out, &expected, told::verdict, |out| {
                    self.way.raw_verdict(&self.lent, out)
                })
            })
            .map(|fault| format!("verdict: {fault}"))
    }

    fn goal_text(&mut self) -> Option<String> {
        let expected = self.second.goal_text();
        self.outcomes.count("goal", &expected);
        let got = self.way.goal_text(&self.lent);
        unlike(&got, &expected, |got, text| got.as_bytes() == *text)
            .or_else(|| {
                let words = |text: &&[u8]| self.second.place_and_length(text);
                told::fault(&mut self.stores.out, &expected, words, |out| {
                    self.way.raw_goal(&self.lent, out)
                })
            })
            .map(|fault| format!("goal: {fault}"))
    }

    /// The sheet that was written is cleaned again, too: it gives the same bytes, and has the same verdict.
    fn clean(&mut self, length: usize) -> Option<String> {
        let expected = self.second.clean(length);
        self.outcomes.count("clean", &expected);
        let got = self.way.clean(&self.lent, self.stores.clean.lend(length));
        let promised = expected.clone().unwrap_or_default();
        unlike(&got, &expected, |got, text| got.as_bytes() == text)
            .or_else(|| self.stores.clean.fault(&promised))
            .or_else(|| {
                let store = self.stores.clean.lend(length);
                told::fault(&mut self.stores.out, &expected, told::count, |out| {
                    self.way.raw_clean(&self.lent, store, out)
                })
            })
            .or_else(|| expected.is_ok().then(|| self.again(&promised)).flatten())
            .map(|fault| format!("clean {length}: {fault}"))
    }

    fn again(&mut self, text: &[u8]) -> Option<String> {
        let cleaned = self.way.clean(text, self.stores.clean.lend(text.len()));
        if cleaned.map(str::as_bytes) != Ok(text) {
            return Some(String::from("cleaned again it has other bytes"));
        }
        let differs = self.is_soon() && self.way.verdict(text) != self.way.verdict(&self.lent);
        differs.then(|| String::from("the clean sheet has another verdict"))
    }

    fn snapshot(&mut self, text: &[u8], length: usize) -> Option<String> {
        let expected = self.second.snapshot(text, length);
        self.outcomes.count("snapshot", &expected);
        let got = self
            .way
            .snapshot(&self.lent, text, self.stores.row.lend(length));
        let promised = expected.clone().unwrap_or_default();
        unlike(&got, &expected, |got, row| got == row)
            .or_else(|| self.stores.row.fault(&promised))
            .or_else(|| {
                let row = self.stores.row.lend(length);
                told::fault(&mut self.stores.out, &expected, told::count, |out| {
                    self.way.raw_snapshot(&self.lent, text, row, out)
                })
            })
            .map(|fault| format!("snapshot {length} {}: {fault}", escape(text)))
    }
}

/// What differs between the library's outcome and the second checker's.
fn unlike<G: Debug, E: Debug>(
    got: &Result<G, Refusal>,
    expected: &Result<E, u8>,
    same: impl FnOnce(&G, &E) -> bool,
) -> Option<String> {
    let alike = match (got, expected) {
        (Ok(got), Ok(expected)) => same(got, expected),
        (Err(got), Err(expected)) => got.number() == *expected,
        _ => false,
    };
    (!alike).then(|| format!("library {got:?}, second checker {expected:?}"))
}

/// The words are to be those at the beginning of the store that the second checker hands back.
fn same_table(
    got: &lockgraph::Table,
    expected: &Table,
    (first, second): (*const u64, *const u64),
) -> bool {
    let (store, start) = match expected.handed_back {
        second_checker::Store::First => (lockgraph::Store::First, first),
        second_checker::Store::Second => (lockgraph::Store::Second, second),
    };
    got.words == expected.words
        && got.words.as_ptr() == start
        && got.store == store
        && got.start == expected.start as u64
        && got.left == expected.left as u64
        && got.rounds == expected.rounds as u64
}

fn same_book(got: &lockgraph::Book, words: &[u64]) -> bool {
    got.words == words && got.namings * got.words_each as u64 == words.len() as u64
}

fn same_verdict(got: &lockgraph::Verdict, expected: &second_checker::Verdict) -> bool {
    use lockgraph::Verdict::{Open, Unsatisfiable};
    *got == match *expected {
        second_checker::Verdict::Open { naming, type_ } => Open {
            naming,
            type_number: type_,
        },
        second_checker::Verdict::Unsatisfiable => Unsatisfiable,
    }
}
