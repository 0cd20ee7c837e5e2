//! The second checker's answers about one sheet.
//!
//! Its operations read the sheet and strike anew at each call, which takes most of the time. Here the sheet is read once, and each naming
//! is struck once, by the second checker's own functions; an answer is then put together from these. Limits decide what is refused and
//! nothing about striking, so what was struck serves under all of them. Where `twice` is set each answer is compared with that of its
//! operation, called with the same arguments, and a difference stops everything: the memory would be wrong.

use second_checker::closure::{accept, Accepted};
use second_checker::rules::{Rules, WITHOUT};
use second_checker::tableau::{Striking, Tableau};
use second_checker::typeset::TypeSet;
use second_checker::{clean, snapshot, stores, Refusal, Store, Verdict};
use std::collections::HashMap;
use std::fmt::Debug;

/// What Table gives, with the words that both stores then begin with.
#[derive(Clone, Debug, PartialEq, Eq)]
pub struct Table {
    pub words: Vec<u64>,
    pub handed_back: Store,
    pub start: usize,
    pub left: usize,
    pub rounds: usize,
}

pub struct Second<'a> {
    sheet: &'a [u8],
    /// The rules in force, and what they refuse the sheet with.
    rules: Rules,
    refusal: Option<Refusal>,
    read: &'a Result<Accepted<'a>, Refusal>,
    tableau: Option<Tableau<'a>>,
    strikings: HashMap<u64, (Striking, TypeSet)>,
    twice: bool,
}

impl<'a> Second<'a> {
    /// About a sheet as it was read by the rules in force.
    pub fn new(
        sheet: &'a [u8],
        rules: Rules,
        read: &'a Result<Accepted<'a>, Refusal>,
        twice: bool,
    ) -> Second<'a> {
        Second {
            sheet,
            rules,
            refusal: read.as_ref().err().copied(),
            read,
            tableau: None,
            strikings: HashMap::new(),
            twice,
        }
    }

    /// From now on by other rules, which accept nothing that was refused when it was read. Gives the outcome of reading it by them.
    pub fn judge_by(&mut self, rules: Rules) -> Refusal {
        self.rules = rules;
        self.refusal = accept(rules, self.sheet).err();
        self.refusal.unwrap_or(0)
    }

    pub fn table(&mut self, naming: u64, first: usize, second: usize) -> Result<Table, Refusal> {
        let answer = self.remembered_table(naming, first.min(second));
        self.confirmed(answer, |rules, sheet| {
            asked_table(rules, sheet, naming, first, second)
        })
    }

    pub fn book(&mut self, length: usize) -> Result<Vec<u64>, Refusal> {
        let answer = self.remembered_book(length);
        self.confirmed(answer, |rules, sheet| {
            let mut store = stores::words(length).elements;
            let count = second_checker::book(rules, sheet, &mut store)?;
            Ok(store[..count].to_vec())
        })
    }

    pub fn list(&mut self, naming: u64, length: usize) -> Result<Vec<u16>, Refusal> {
        let answer = self.remembered_list(naming, length);
        self.confirmed(answer, |rules, sheet| {
            let mut store = stores::numbers(length).elements;
            let count = second_checker::list(rules, sheet, naming, &mut store)?;
            Ok(store[..count].to_vec())
        })
    }

    pub fn verdict(&mut self) -> Result<Verdict, Refusal> {
        let answer = self.remembered_verdict();
        self.confirmed(answer, |rules, sheet| {
            second_checker::verdict(rules, sheet, 1)
        })
    }

    pub fn goal_text(&self) -> Result<&'a [u8], Refusal> {
        let answer = self.accepted().map(|accepted| accepted.sheet.goal_texts[0]);
        self.confirmed(answer, |rules, sheet| {
            second_checker::goal_text(rules, sheet, 1)
        })
    }

    pub fn clean(&self, length: usize) -> Result<Vec<u8>, Refusal> {
        let answer = self.accepted().and_then(|accepted| {
            let text = clean::text(accepted);
            if clean::fits(&text) && text.len() <= length {
                Ok(text)
            } else {
                Err(18)
            }
        });
        self.confirmed(answer, |rules, sheet| {
            let mut store = stores::bytes(length).elements;
            let count = second_checker::clean(rules, sheet, &mut store)?;
            Ok(store[..count].to_vec())
        })
    }

    pub fn snapshot(&self, text: &[u8], length: usize) -> Result<Vec<u8>, Refusal> {
        let answer = self.remembered_snapshot(text, length);
        self.confirmed(answer, |rules, sheet| {
            let mut row = stores::bytes(length).elements;
            let nodes = second_checker::snapshot(rules, sheet, text, &mut row)?;
            Ok(row[..nodes].to_vec())
        })
    }

    /// Where a part of the sheet begins, and how long it is.
    pub fn place_and_length(&self, part: &[u8]) -> [u64; 2] {
        let place = part.as_ptr() as usize - self.sheet.as_ptr() as usize;
        [place as u64, part.len() as u64]
    }

    /// How many types stand under a naming of the sheet; 0 where it has no such naming.
    pub fn left(&mut self, naming: u64) -> usize {
        self.striking(naming)
            .map_or(0, |(striking, _)| striking.left)
    }

    /// After how many rounds; 0 where it has no such naming.
    pub fn rounds(&mut self, naming: u64) -> usize {
        self.striking(naming)
            .map_or(0, |(striking, _)| striking.rounds)
    }

    /// How many bytes the clean sheet has; 0 where the sheet is refused.
    pub fn clean_length(&self) -> usize {
        self.accepted()
            .map_or(0, |accepted| clean::text(accepted).len())
    }

    /// How many nodes a snapshot has; 0 where it is refused.
    pub fn nodes(&self, text: &[u8]) -> usize {
        self.accepted()
            .and_then(|accepted| snapshot::read(text, &accepted.sheet))
            .map_or(0, |snapshot| snapshot.nodes())
    }

    /// How many words each store of Table must have; where the limits are refused, those of the usual ones.
    pub fn table_words(&self) -> usize {
        let limits = self.rules.limits_in_range();
        limits.unwrap_or(WITHOUT).table_words()
    }

    /// How much there is to strike under all namings of the sheet, as it was read: each has some work of its own, and the types at its
    /// start, by those of the first.
    pub fn cost(&mut self) -> u64 {
        let Ok(accepted) = self.read else {
            return 0;
        };
        let start = self.struck(accepted, 0).0.start;
        let each = 256 + start * accepted.words();
        accepted.namings().saturating_mul(each as u64)
    }

    /// Whether some type has the goal under one of the first namings of the sheet, as it was read.
    pub fn is_open_under_first(&mut self, namings: u64) -> bool {
        let Ok(accepted) = self.read else {
            return false;
        };
        (0..namings.min(accepted.namings()))
            .any(|naming| self.least_goal_type(accepted, naming).is_some())
    }

    fn accepted(&self) -> Result<&'a Accepted<'a>, Refusal> {
        match self.refusal {
            Some(number) => Err(number),
            None => self.read.as_ref().map_err(|&number| number),
        }
    }

    fn confirmed<T: Debug + PartialEq>(
        &self,
        answer: Result<T, Refusal>,
        ask: impl FnOnce(Rules, &'a [u8]) -> Result<T, Refusal>,
    ) -> Result<T, Refusal> {
        if self.twice {
            assert_eq!(
                answer,
                ask(self.rules, self.sheet),
                "remembered, and asked of the second checker"
            );
        }
        answer
    }

    /// The striking under a naming with its standing types, or refusal 11.
    fn striking(&mut self, naming: u64) -> Result<&(Striking, TypeSet), Refusal> {
        let accepted = self.accepted()?;
        if naming >= accepted.namings() {
            return Err(11);
        }
        Ok(self.struck(accepted, naming))
    }

    fn struck(&mut self, accepted: &'a Accepted<'a>, naming: u64) -> &(Striking, TypeSet) {
        let tableau = self.tableau.get_or_insert_with(|| Tableau::new(accepted));
        self.strikings
            .entry(naming)
            .or_insert_with(|| tableau.standing(naming))
    }

    fn least_goal_type(&mut self, accepted: &'a Accepted<'a>, naming: u64) -> Option<usize> {
        let standing = self.struck(accepted, naming).1.clone();
        let tableau = self.tableau.as_ref().expect("made for the striking");
        tableau.least_goal_type(0, &standing)
    }

    fn remembered_table(&mut self, naming: u64, shorter: usize) -> Result<Table, Refusal> {
        let needed = self.table_words();
        let (striking, standing) = self.striking(naming)?;
        if shorter < needed {
            return Err(12);
        }
        Ok(Table {
            words: standing.words.clone(),
            // The start is in the first store, and each round writes the other one, also the last, which is not counted.
            handed_back: [Store::Second, Store::First][striking.rounds % 2],
            start: striking.start,
            left: striking.left,
            rounds: striking.rounds,
        })
    }

    fn remembered_book(&mut self, length: usize) -> Result<Vec<u64>, Refusal> {
        let accepted = self.accepted()?;
        let namings = accepted.namings();
        if length < namings as usize * accepted.words() {
            return Err(12);
        }
        let mut words = Vec::new();
        for naming in 0..namings {
            words.extend(&self.striking(naming)?.1.words);
        }
        Ok(words)
    }

    fn remembered_list(&mut self, naming: u64, length: usize) -> Result<Vec<u16>, Refusal> {
        let members = self.striking(naming)?.1.members();
        let mut types: Vec<u16> = members.into_iter().map(|type_| type_ as u16).collect();
        types.sort_by_key(|&type_| (type_.count_ones(), type_));
        if types.len() <= length {
            Ok(types)
        } else {
            Err(12)
        }
    }

    fn remembered_verdict(&mut self) -> Result<Verdict, Refusal> {
        let accepted = self.accepted()?;
        for naming in 0..accepted.namings() {
            if let Some(type_) = self.least_goal_type(accepted, naming) {
                let type_ = type_ as u16;
                return Ok(Verdict::Open { naming, type_ });
            }
        }
        Ok(Verdict::Unsatisfiable)
    }

    fn remembered_snapshot(&self, text: &[u8], length: usize) -> Result<Vec<u8>, Refusal> {
        let accepted = self.accepted()?;
        let snapshot = snapshot::read(text, &accepted.sheet)?;
        if length < snapshot.nodes() {
            return Err(16);
        }
        Ok(snapshot.row(accepted))
    }
}

/// Table with stores of these lengths.
fn asked_table(
    rules: Rules,
    sheet: &[u8],
    naming: u64,
    first: usize,
    second: usize,
) -> Result<Table, Refusal> {
    let (mut first, mut second) = (
        stores::words(first).elements,
        stores::words(second).elements,
    );
    let table = second_checker::table(rules, sheet, naming, &mut first, &mut second)?;
    let words = first[..table.words].to_vec();
    assert_eq!(words, second[..table.words], "both stores have the same");
    Ok(Table {
        words,
        handed_back: table.handed_back,
        start: table.start,
        left: table.left,
        rounds: table.rounds,
    })
}
