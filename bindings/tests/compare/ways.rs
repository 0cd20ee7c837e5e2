//! The two ways to call an operation, without limits and within some: each by the safe function, and as a program in C does.

use lockgraph::{raw, Book, Limits, Refusal, Table, Verdict};
use std::fmt;

#[derive(Clone, Copy)]
pub enum Way {
    Without,
    Within(Limits),
}

impl Way {
    pub fn table<'a>(
        self,
        sheet: &[u8],
        naming: u64,
        first: &'a mut [u64],
        second: &'a mut [u64],
    ) -> Result<Table<'a>, Refusal> {
        match self {
            Way::Without => lockgraph::table(sheet, naming, first, second),
            Way::Within(limits) => lockgraph::table_within(limits, sheet, naming, first, second),
        }
    }

    pub fn raw_table(
        self,
        sheet: &[u8],
        naming: u64,
        first: &mut [u64],
        second: &mut [u64],
        out: &mut [u64; 5],
    ) -> u8 {
        match self {
            Way::Without => raw::table(sheet, naming, first, second, out),
            Way::Within(limits) => raw::table_within(limits, sheet, naming, first, second, out),
        }
    }

    pub fn book<'a>(self, sheet: &[u8], store: &'a mut [u64]) -> Result<Book<'a>, Refusal> {
        match self {
            Way::Without => lockgraph::book(sheet, store),
            Way::Within(limits) => lockgraph::book_within(limits, sheet, store),
        }
    }

    pub fn raw_book(self, sheet: &[u8], store: &mut [u64], out: &mut [u64; 2]) -> u8 {
        match self {
            Way::Without => raw::book(sheet, store, out),
            Way::Within(limits) => raw::book_within(limits, sheet, store, out),
        }
    }

    pub fn list<'a>(
        self,
        sheet: &[u8],
        naming: u64,
        store: &'a mut [u16],
    ) -> Result<&'a [u16], Refusal> {
        match self {
            Way::Without => lockgraph::list(sheet, naming, store),
            Way::Within(limits) => lockgraph::list_within(limits, sheet, naming, store),
        }
    }

    pub fn raw_list(self, sheet: &[u8], naming: u64, store: &mut [u16], out: &mut [u64; 1]) -> u8 {
        match self {
            Way::Without => raw::list(sheet, naming, store, out),
            Way::Within(limits) => raw::list_within(limits, sheet, naming, store, out),
        }
    }

    pub fn verdict(self, sheet: &[u8]) -> Result<Verdict, Refusal> {
        match self {
            Way::Without => lockgraph::verdict(sheet),
            Way::Within(limits) => lockgraph::verdict_within(limits, sheet),
        }
    }

    pub fn raw_verdict(self, sheet: &[u8], out: &mut [u64; 3]) -> u8 {
        match self {
            Way::Without => raw::verdict(sheet, out),
            Way::Within(limits) => raw::verdict_within(limits, sheet, out),
        }
    }

    pub fn goal_text(self, sheet: &[u8]) -> Result<&str, Refusal> {
        match self {
            Way::Without => lockgraph::goal_text(sheet),
            Way::Within(limits) => lockgraph::goal_text_within(limits, sheet),
        }
    }

    pub fn raw_goal(self, sheet: &[u8], out: &mut [u64; 2]) -> u8 {
        match self {
            Way::Without => raw::goal(sheet, out),
            Way::Within(limits) => raw::goal_within(limits, sheet, out),
        }
    }

    pub fn clean<'a>(self, sheet: &[u8], store: &'a mut [u8]) -> Result<&'a str, Refusal> {
        match self {
            Way::Without => lockgraph::clean(sheet, store),
            Way::Within(limits) => lockgraph::clean_within(limits, sheet, store),
        }
    }

    pub fn raw_clean(self, sheet: &[u8], store: &mut [u8], out: &mut [u64; 1]) -> u8 {
        match self {
            Way::Without => raw::clean(sheet, store, out),
            Way::Within(limits) => raw::clean_within(limits, sheet, store, out),
        }
    }

    pub fn snapshot<'a>(
        self,
        sheet: &[u8],
        text: &[u8],
        row: &'a mut [u8],
    ) -> Result<&'a [u8], Refusal> {
        match self {
            Way::Without => lockgraph::snapshot(sheet, text, row),
            Way::Within(limits) => lockgraph::snapshot_within(limits, sheet, text, row),
        }
    }

    pub fn raw_snapshot(self, sheet: &[u8], text: &[u8], row: &mut [u8], out: &mut [u64; 1]) -> u8 {
        match self {
            Way::Without => raw::snapshot(sheet, text, row, out),
            Way::Within(limits) => raw::snapshot_within(limits, sheet, text, row, out),
        }
    }
}

impl fmt::Display for Way {
    /// Nothing without limits, so that what stands behind it is the call.
    fn fmt(&self, f: &mut fmt::Formatter<'_>) -> fmt::Result {
        match self {
            Way::Without => Ok(()),
            Way::Within(limits) => write!(f, "within {} {}: ", limits.lean, limits.closure),
        }
    }
}
