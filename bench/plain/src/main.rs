//! Reads a sheet on standard input and prints a line for each of its namings and the verdict, or its refusal: plain [LEAN CLOSURE]
//!
//! A lean has at most LEAN places (1 to 12; 8 if left out), a closure at most CLOSURE members (16 to 128; 64 if left out).

use plain::Limits;
use std::io::{Error, Read, Write};

fn main() -> std::io::Result<()> {
    let words: Vec<String> = std::env::args().skip(1).collect();
    let limits = limits(&words).ok_or_else(|| Error::other("usage: plain [LEAN CLOSURE]"))?;
    let mut sheet = Vec::with_capacity(1025);
    std::io::stdin().lock().read_to_end(&mut sheet)?;
    std::io::stdout()
        .lock()
        .write_all(&plain::program_within(&sheet, limits))
}

fn limits(words: &[String]) -> Option<Limits> {
    match words {
        [] => Some(Limits::default()),
        [lean, closure] => Limits::new(lean.parse().ok()?, closure.parse().ok()?),
        _ => None,
    }
}
