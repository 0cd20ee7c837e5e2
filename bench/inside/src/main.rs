//! inside SHEET...: for each sheet, the shortest time of a verdict, of naming 0's table and list, and of the clean text, in nanoseconds, in one
//! process, so that the start of a process does not hide the work. A line for each sheet:
//! `PATH verdict PROVED PLAIN table PROVED PLAIN list PROVED PLAIN clean PROVED PLAIN`.
//! They are asked first for the verdict, for the tables and lists of the first namings and for the clean text, and must agree.
//!
//! inside within LEAN CLOSURE SHEET...: the same under given limits, of a verdict, of naming 0's table and of the book, which has all namings:
//! `PATH verdict PROVED PLAIN table PROVED PLAIN book PROVED PLAIN`. Verdicts, tables and books must agree.

mod proved;
mod within;

use std::hint::black_box;
use std::time::{Duration, Instant};

/// A batch takes about this long, so that the clock's own time does not count.
const BATCH: Duration = Duration::from_micros(200);
const BATCHES: u32 = 50;

/// Calls that take longer than a batch get fewer of them: so many that a race ends after about this long, and no fewer than the least.
const RACE: Duration = Duration::from_secs(3);
const LEAST: u32 = 5;

fn main() {
    let words: Vec<String> = std::env::args().skip(1).collect();
    match &words[..] {
        [word, lean, closure, paths @ ..] if word == "within" => {
            let limits = within::limits(lean, closure).expect("two limits");
            paths.iter().for_each(|path| within::measure(path, limits));
        }
        paths => paths.iter().for_each(|path| measure(path)),
    }
}

fn measure(path: &str) {
    let sheet = std::fs::read(path).expect("a sheet's path");
    agree(&sheet);
    let [a, b] = race([&|| consume(proved::verdict(black_box(&sheet))), &|| {
        consume(plain::verdict(black_box(&sheet)))
    }]);
    let [c, d] = race([&|| consume(proved::table(black_box(&sheet), 0)), &|| {
        consume(plain::table(black_box(&sheet), 0))
    }]);
    let [e, f] = race([&|| consume(proved::list(black_box(&sheet), 0)), &|| {
        consume(plain::list(black_box(&sheet), 0))
    }]);
    let [g, h] = race([&|| consume(proved::clean(black_box(&sheet))), &|| {
        consume(plain::clean(black_box(&sheet)))
    }]);
    println!(
        "{path} verdict {a:.0} {b:.0} table {c:.0} {d:.0} list {e:.0} {f:.0} clean {g:.0} {h:.0}"
    );
}

/// Keeps an answer that nobody looks at.
fn consume<T>(answer: T) {
    black_box(answer);
}

/// The answers of both are the same, for the verdict, for the clean text, and for the table and the list of the first 64 namings.
fn agree(sheet: &[u8]) {
    assert_eq!(proved::verdict(sheet), told(plain::verdict(sheet)));
    let clean = plain::clean(sheet).map_err(|refusal| refusal as u8);
    assert_eq!(proved::clean(sheet), clean);
    for naming in 0..64 {
        let table = plain::table(sheet, naming).map(|table| {
            let counts = [table.start, table.left, table.rounds].map(u64::from);
            (table.words, counts)
        });
        let proved = proved::table(sheet, naming)
            .map(|(words, [_, start, left, rounds, _])| (words, [start, left, rounds]));
        assert_eq!(proved, table.map_err(|refusal| refusal as u8));
        let list = plain::list(sheet, naming).map_err(|refusal| refusal as u8);
        assert_eq!(proved::list(sheet, naming), list);
    }
}

/// A verdict of plain Rust as the library for C tells it.
fn told(verdict: Result<plain::Verdict, plain::Refusal>) -> Result<[u64; 3], u8> {
    match verdict {
        Ok(plain::Verdict::Open { naming, least }) => Ok([1, naming, least as u64]),
        Ok(plain::Verdict::Unsatisfiable) => Ok([2, 0, 0]),
        Err(refusal) => Err(refusal as u8),
    }
}

/// The shortest time of each for one call, in nanoseconds, in turn.
fn race(calls: [&dyn Fn(); 2]) -> [f64; 2] {
    let begun = Instant::now();
    let turns = calls.map(turns);
    let mut shortest = [f64::MAX; 2];
    for number in 0..BATCHES {
        if number >= LEAST && begun.elapsed() > RACE {
            break;
        }
        for i in 0..2 {
            shortest[i] = shortest[i].min(batch(calls[i], turns[i]));
        }
    }
    shortest
}

/// How many calls fill a batch.
fn turns(call: &dyn Fn()) -> u32 {
    let mut turns = 1;
    while batch(call, turns) * f64::from(turns) < BATCH.as_nanos() as f64 {
        turns *= 2;
    }
    turns
}

/// Nanoseconds for one call, over so many.
fn batch(call: &dyn Fn(), turns: u32) -> f64 {
    let begun = Instant::now();
    for _ in 0..turns {
        call();
    }
    begun.elapsed().as_nanos() as f64 / f64::from(turns)
}
