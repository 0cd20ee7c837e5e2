//! Plain Rust of the judge's algorithm, to compare the proved judge with: families of types as words, the truth of all members once
//! for each sheet, the conditions of links along each mode, and rounds that cover a set of targets by what they refuse. Nothing here is proved; it is tested against
//! the second checker's outcomes.

mod closure;
mod family;
mod formula;
mod report;
mod sheet;
mod tableau;

use closure::Member;
use report::report;
use sheet::Kind;
use tableau::Tableau;

/// How many places a lean and how many members a closure may have: 8 and 64 by document 01.
#[derive(Clone, Copy)]
pub struct Limits {
    lean: usize,
    closure: usize,
}

impl Limits {
    /// A lean of 1 to 12 places, a closure of 16 to 128 members.
    pub fn new(lean: usize, closure: usize) -> Option<Self> {
        let right = (1..=12).contains(&lean) && (16..=128).contains(&closure);
        right.then_some(Limits { lean, closure })
    }
}

impl Default for Limits {
    fn default() -> Self {
        Limits {
            lean: 8,
            closure: 64,
        }
    }
}

/// Why a sheet is refused, by document 01's numbers.
#[derive(Clone, Copy, PartialEq, Eq, Debug)]
pub enum Refusal {
    Length = 1,
    Byte,
    Layout,
    Names,
    Kinds,
    Grammar,
    Symbol,
    Braces,
    Closure,
    Lean,
    Naming,
    Clean = 18,
}

#[derive(Clone, Copy, PartialEq, Eq, Debug)]
pub enum Verdict {
    Open { naming: u64, least: usize },
    Unsatisfiable,
}

/// The standing types of one naming, in the first words, with the counts that the program prints.
#[derive(Clone, Copy, PartialEq, Eq, Debug)]
pub struct Table {
    pub words: [u64; 4],
    pub start: u32,
    pub left: u32,
    pub rounds: u32,
}

/// A sheet as read: its closure and formulas, its lean, and which of the lean's places are names.
pub struct Reading {
    members: Vec<Member>,
    roots: Vec<u8>,
    letters: Vec<u8>,
    lean: Vec<u8>,
    names: Vec<usize>,
}

impl Reading {
    fn namings(&self) -> u64 {
        1 << (self.names.len() * self.lean.len().saturating_sub(1))
    }
}

pub fn read(bytes: &[u8]) -> Result<Reading, Refusal> {
    read_within(bytes, Limits::default())
}

fn read_within(bytes: &[u8], limits: Limits) -> Result<Reading, Refusal> {
    let sheet = sheet::split(bytes)?;
    let formulas = formula::read(&sheet.formulas, &sheet.symbols)?;
    let closure = closure::close(&formulas, limits.closure)?;
    let members = closure.members;
    let lean = closure::lean(&members, &sheet.symbols.letters, limits.lean)?;
    let named = |&place: &usize| match members[usize::from(lean[place])] {
        Member::Letter(letter) => sheet.symbols.kinds[usize::from(letter)] == Kind::Name,
        _ => false,
    };
    let names = (0..lean.len()).filter(named).collect();
    Ok(Reading {
        roots: closure.roots,
        letters: sheet.symbols.letters,
        members,
        lean,
        names,
    })
}

/// Calls a function with as many words as the types over a sheet's lean take.
macro_rules! with_words {
    ($function:ident, $reading:expr $(, $argument:expr)*) => {
        match $reading.lean.len() {
            0..=6 => $function::<1>($reading $(, $argument)*),
            7 => $function::<2>($reading $(, $argument)*),
            8 => $function::<4>($reading $(, $argument)*),
            9 => $function::<8>($reading $(, $argument)*),
            10 => $function::<16>($reading $(, $argument)*),
            11 => $function::<32>($reading $(, $argument)*),
            _ => $function::<64>($reading $(, $argument)*),
        }
    };
}

/// The least naming under which a standing type has the goal, with the least such type.
pub fn verdict(bytes: &[u8]) -> Result<Verdict, Refusal> {
    verdict_within(bytes, Limits::default())
}

/// The same under given limits.
pub fn verdict_within(bytes: &[u8], limits: Limits) -> Result<Verdict, Refusal> {
    let reading = read_within(bytes, limits)?;
    Ok(with_words!(judge, &reading))
}

fn judge<const W: usize>(reading: &Reading) -> Verdict {
    let tableau = Tableau::<W>::new(reading);
    for naming in 0..reading.namings() {
        let settled = tableau.settle(naming);
        if let Some(least) = tableau.goal_type(&settled.standing) {
            return Verdict::Open { naming, least };
        }
    }
    Verdict::Unsatisfiable
}

/// The standing types under one naming.
pub fn table(bytes: &[u8], naming: u64) -> Result<Table, Refusal> {
    let mut words = [0; 4];
    let [start, left, rounds] = table_within(bytes, Limits::default(), naming, &mut words)?;
    Ok(Table {
        words,
        start,
        left,
        rounds,
    })
}

/// The same under given limits: the standing types at the beginning of a store that has the words for the lean limit, and the counts of a table.
pub fn table_within(
    bytes: &[u8],
    limits: Limits,
    naming: u64,
    store: &mut [u64],
) -> Result<[u32; 3], Refusal> {
    let reading = read_within(bytes, limits)?;
    if naming >= reading.namings() {
        return Err(Refusal::Naming);
    }
    Ok(with_words!(settled, &reading, naming, store))
}

fn settled<const W: usize>(reading: &Reading, naming: u64, store: &mut [u64]) -> [u32; 3] {
    let settled = Tableau::<W>::new(reading).settle(naming);
    store[..W].copy_from_slice(&settled.standing);
    [
        settled.start,
        family::size(&settled.standing),
        settled.rounds,
    ]
}

/// How many words the book of a sheet has.
pub fn book_words(bytes: &[u8], limits: Limits) -> Result<usize, Refusal> {
    let reading = read_within(bytes, limits)?;
    Ok(reading.namings() as usize * (1 << reading.lean.len().saturating_sub(6)))
}

/// The standing types under every naming, one after the other in a store that has room for them: how many namings there are.
pub fn book_within(bytes: &[u8], limits: Limits, store: &mut [u64]) -> Result<u64, Refusal> {
    let reading = read_within(bytes, limits)?;
    with_words!(fill, &reading, store);
    Ok(reading.namings())
}

fn fill<const W: usize>(reading: &Reading, store: &mut [u64]) {
    let tableau = Tableau::<W>::new(reading);
    for (naming, words) in (0..reading.namings()).zip(store.chunks_exact_mut(W)) {
        words.copy_from_slice(&tableau.settle(naming).standing);
    }
}

/// The standing types of one naming in document 02's order.
pub fn list(bytes: &[u8], naming: u64) -> Result<Vec<u16>, Refusal> {
    let table = table(bytes, naming)?;
    let mut types = Vec::with_capacity(table.left as usize);
    for ones in 0..=8 {
        family::layer(&table.words, ones, &mut types);
    }
    Ok(types)
}

/// The sheet written clean: lines 1 and 2, then each formula in canonical print.
pub fn clean(bytes: &[u8]) -> Result<Vec<u8>, Refusal> {
    let reading = read(bytes)?;
    let mut lines = bytes.split_inclusive(|&b| b == b'\n');
    let mut text = Vec::with_capacity(1024);
    for _ in 0..2 {
        text.extend_from_slice(lines.next().expect("two lines"));
    }
    for (number, &root) in reading.roots.iter().enumerate() {
        let start = text.len();
        let goal = number + 1 == reading.roots.len();
        text.extend_from_slice(if goal { b"goal " } else { b"all " });
        closure::put(&reading.members, &reading.letters, root, &mut text);
        if text.len() - start > 200 {
            return Err(Refusal::Clean);
        }
        text.push(b'\n');
    }
    match text.len() {
        0..=1024 => Ok(text),
        _ => Err(Refusal::Clean),
    }
}

/// What the program prints of a sheet.
pub fn program(bytes: &[u8]) -> Vec<u8> {
    program_within(bytes, Limits::default())
}

/// The same under given limits.
pub fn program_within(bytes: &[u8], limits: Limits) -> Vec<u8> {
    match read_within(bytes, limits) {
        Err(refusal) => format!("refused {}\n", refusal as u8).into_bytes(),
        Ok(reading) => with_words!(report, &reading),
    }
}
