//! The lines that the program prints of an accepted sheet.

use crate::family;
use crate::tableau::Tableau;
use crate::{Reading, Verdict};

pub fn report<const W: usize>(reading: &Reading) -> Vec<u8> {
    let tableau = Tableau::<W>::new(reading);
    let mut out = Vec::with_capacity(8192);
    out.extend_from_slice(b"naming start left rounds\n");
    let mut verdict = Verdict::Unsatisfiable;
    for naming in 0..reading.namings() {
        let settled = tableau.settle(naming);
        let left = family::size(&settled.standing);
        let counts = [settled.start, left, settled.rounds];
        push_row(&mut out, naming, counts);
        if verdict == Verdict::Unsatisfiable {
            if let Some(least) = tableau.goal_type(&settled.standing) {
                verdict = Verdict::Open { naming, least };
            }
        }
    }
    push_verdict(&mut out, verdict);
    out
}

fn push_row(out: &mut Vec<u8>, naming: u64, counts: [u32; 3]) {
    push_number(out, naming);
    for count in counts {
        out.push(b' ');
        push_number(out, u64::from(count));
    }
    out.push(b'\n');
}

fn push_verdict(out: &mut Vec<u8>, verdict: Verdict) {
    out.extend_from_slice(b"verdict naming type\n");
    match verdict {
        Verdict::Open { naming, least } => {
            out.extend_from_slice(b"open ");
            push_number(out, naming);
            out.push(b' ');
            push_number(out, least as u64);
            out.push(b'\n');
        }
        Verdict::Unsatisfiable => out.extend_from_slice(b"unsatisfiable - -\n"),
    }
}

/// Decimal digits: a sheet has 16,384 rows of four numbers, and more under larger limits, where the formatting machinery would show.
fn push_number(out: &mut Vec<u8>, number: u64) {
    let mut digits = [0; 20];
    let mut at = digits.len();
    let mut rest = number;
    loop {
        at -= 1;
        digits[at] = b'0' + (rest % 10) as u8;
        rest /= 10;
        if rest == 0 {
            break;
        }
    }
    out.extend_from_slice(&digits[at..]);
}
