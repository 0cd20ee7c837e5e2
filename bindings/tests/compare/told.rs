//! The calls as a program in C makes them: `out` is a lent store too.

use super::second::Table;
use super::stores::Lent;
use second_checker::{Refusal, Store, Verdict};

/// What is wrong with a call. It is to give 0, and the words of the second checker's answer in `out`; or the refusal's number, and then `out`
/// is as it was.
pub fn fault<E, const N: usize>(
    out: &mut Lent<u64>,
    expected: &Result<E, Refusal>,
    words: impl FnOnce(&E) -> [u64; N],
    call: impl FnOnce(&mut [u64; N]) -> u8,
) -> Option<String> {
    let (refusal, promised) = match expected {
        Ok(answer) => (0, words(answer).to_vec()),
        Err(number) => (*number, vec![]),
    };
    let number = call(out.lend(N).try_into().expect("N words"));
    if number == refusal {
        let fault = out.fault(&promised)?;
        Some(format!("result {number}, `out`: {fault}"))
    } else {
        Some(format!("result {number}, not {refusal}"))
    }
}

/// W, start, left, rounds, and the store that is handed back.
pub fn table(table: &Table) -> [u64; 5] {
    let store = match table.handed_back {
        Store::First => 1,
        Store::Second => 2,
    };
    [
        table.words.len(),
        table.start,
        table.left,
        table.rounds,
        store,
    ]
    .map(|word| word as u64)
}

/// 1, naming and type of an open goal, or 2.
pub fn verdict(verdict: &Verdict) -> [u64; 3] {
    match *verdict {
        Verdict::Open { naming, type_ } => [1, naming, u64::from(type_)],
        Verdict::Unsatisfiable => [2, 0, 0],
    }
}

/// How many there are.
pub fn count<T>(all: &Vec<T>) -> [u64; 1] {
    [all.len() as u64]
}
