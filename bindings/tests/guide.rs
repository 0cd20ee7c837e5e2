//! What docs/SHEETS.md says of its sheets and snapshots is what the proved library and the second checker say of them.
//!
//! Read are the guide's tables, its list of typing errors, and its comments, which nobody sees in the rendered text: `<!-- ANSWER -->` above the block of a sheet or a
//! snapshot, and `<!-- ANSWER: LINE / LINE / .. -->`, or a sheet's file, where the prose has a sheet without a block. An answer is `open 0 8`, `open`, `unsatisfiable`,
//! `refused 6`, `accepted` (not refused), `list 0 2 4 3` (the types under naming 0), `true k EX{f}k` (the places), `clean LINE / LINE / ..` (the clean sheet), or of a
//! snapshot `row 3 2`. Each block with a sheet has to have one. With ` within 12 128` behind it, or behind the sheet in the table of refusals, it is the answer
//! within these limits.

#[path = "compare/rules.rs"]
mod rules;

use lockgraph::Limits;
use rules::{rules, rules_within};
use second_checker::closure::accept;
use second_checker::formula::print;
use second_checker::rules::Rules;
use second_checker::tableau::in_type;
use std::fmt::Display;
use std::fs;
use std::path::Path;

const GUIDE: &str = "docs/SHEETS.md";
/// The guide's sheet of most snapshots, the one with a name, and the one with values.
const DRAWN: &str = "k f\nmark field\ngoal EX{f}k\n";
const NAMED: &str = "v f\nname field\ngoal 1\n";
const HELD: &str = "a b\nvalue value\ngoal 1\n";
/// The sheet whose list is spelled out.
const LISTED: &str =
    "capture ready waits\nmark mark field\nall ready>AX{waits}0\ngoal EX{waits}(capture&ready)\n";
/// Lines 1 and 2 of the table of formulas, of the list of typing errors, and of the table of typing errors in symbols.
const WORDS: &str = "capture thumb waits held\nmark mark field field\n";
const LETTERS: &str = "c t w h\nmark mark field field\n";
const MORE_WORDS: &str = "capture thumb lock busy waits held\nmark mark mark mark field field\n";
/// In the list of typing errors, what was meant begins at this column.
const MEANT: usize = 37;

/// What is asked of a sheet: its verdict, its clean text, its list under naming 0, the places that are true in a type of a list, or in a number that has some
/// of them, or the row of a snapshot, with the length of the store.
#[derive(Clone)]
enum Asked {
    Verdict,
    Clean,
    List,
    Type(usize),
    Places(usize),
    Snapshot(String, usize),
}

/// A sheet, what is asked of it, within which limits if any, and what the guide says.
#[derive(Clone)]
struct Claim {
    line: usize,
    sheet: String,
    asked: Asked,
    limits: Option<Limits>,
    answer: String,
}

#[test]
fn sheets_are_answered_as_the_guide_says() {
    let claims = claims(&read(GUIDE));
    for claim in &claims {
        let (proved, second) = (proved(claim), second(claim));
        let Claim {
            line,
            sheet,
            answer,
            ..
        } = claim;
        assert_eq!(proved, second, "line {line}: {sheet}");
        assert!(
            says(answer, &proved),
            "line {line}: {proved}, not {answer}: {sheet}"
        );
    }
    for number in (1..=10).chain(13..=19) {
        let refused = format!("refused {number}");
        assert!(
            claims.iter().any(|claim| claim.answer == refused),
            "no example of {refused}"
        );
    }
    let spelled = claims.iter().filter_map(|claim| match claim.asked {
        Asked::Type(type_) => Some(type_ as u16),
        _ => None,
    });
    let spelled = list(&spelled.collect::<Vec<u16>>());
    assert!(
        claims
            .iter()
            .any(|claim| claim.sheet == LISTED && claim.answer == spelled),
        "no list is {spelled}, as it is spelled out"
    );
}

/// The claim is what was answered, or its beginning.
fn says(claim: &str, answer: &str) -> bool {
    match claim {
        "accepted" => !answer.starts_with("refused"),
        "open" => answer.starts_with("open "),
        _ => claim == answer,
    }
}

fn proved(claim: &Claim) -> String {
    let sheet = claim.sheet.as_bytes();
    let answer = match &claim.asked {
        Asked::Snapshot(text, length) => {
            let (text, bytes) = (text.as_bytes(), &mut vec![0; *length]);
            match claim.limits {
                None => lockgraph::snapshot(sheet, text, bytes).map(row),
                Some(limits) => lockgraph::snapshot_within(limits, sheet, text, bytes).map(row),
            }
        }
        Asked::List => {
            let types = &mut [0; Limits::MOST.list_numbers()];
            match claim.limits {
                None => lockgraph::list(sheet, 0, &mut types[..lockgraph::LIST_NUMBERS]).map(list),
                Some(limits) => lockgraph::list_within(limits, sheet, 0, types).map(list),
            }
        }
        Asked::Clean => {
            let bytes = &mut [0; lockgraph::CLEAN_BYTES];
            match claim.limits {
                None => lockgraph::clean(sheet, bytes).map(clean),
                Some(limits) => lockgraph::clean_within(limits, sheet, bytes).map(clean),
            }
        }
        // The library prints no places.
        Asked::Type(_) | Asked::Places(_) => return second(claim),
        Asked::Verdict => match claim.limits {
            None => lockgraph::verdict(sheet).map(judged),
            Some(limits) => lockgraph::verdict_within(limits, sheet).map(judged),
        },
    };
    answer.unwrap_or_else(|refusal| format!("refused {}", refusal.number()))
}

fn judged(verdict: lockgraph::Verdict) -> String {
    match verdict {
        lockgraph::Verdict::Open {
            naming,
            type_number,
        } => format!("open {naming} {type_number}"),
        lockgraph::Verdict::Unsatisfiable => "unsatisfiable".to_string(),
    }
}

fn second(claim: &Claim) -> String {
    let sheet = claim.sheet.as_bytes();
    let rules = claim.limits.map_or_else(rules, rules_within);
    let answer = match &claim.asked {
        Asked::Snapshot(text, length) => {
            let mut bytes = vec![0; *length];
            second_checker::snapshot(rules, sheet, text.as_bytes(), &mut bytes)
                .map(|nodes| row(&bytes[..nodes]))
        }
        Asked::List => {
            let mut types = [0; Limits::MOST.list_numbers()];
            second_checker::list(rules, sheet, 0, &mut types).map(|left| list(&types[..left]))
        }
        Asked::Clean => {
            let mut bytes = [0; lockgraph::CLEAN_BYTES];
            second_checker::clean(rules, sheet, &mut bytes)
                .map(|long| clean(std::str::from_utf8(&bytes[..long]).expect("a text")))
        }
        Asked::Type(type_) | Asked::Places(type_) => places(rules, sheet, *type_),
        Asked::Verdict => second_checker::verdict(rules, sheet, 1).map(|verdict| match verdict {
            second_checker::Verdict::Open { naming, type_ } => format!("open {naming} {type_}"),
            second_checker::Verdict::Unsatisfiable => "unsatisfiable".to_string(),
        }),
    };
    answer.unwrap_or_else(|number| format!("refused {number}"))
}

/// The places that are true in a type, as the second checker prints them.
fn places(rules: Rules, sheet: &[u8], type_: usize) -> Result<String, u8> {
    let accepted = accept(rules, sheet)?;
    let places = accepted.lean.iter().enumerate();
    let here = places.filter(|(place, _)| in_type(type_, *place));
    let prints = here.map(|(_, formula)| print(formula, &accepted.sheet.symbols));
    Ok(words("true", prints))
}

fn clean(text: &str) -> String {
    format!("clean {}", text.trim_end_matches('\n').replace('\n', " / "))
}

fn row(bytes: &[u8]) -> String {
    words("row", bytes)
}

fn list(types: &[u16]) -> String {
    words("list", types)
}

fn words(first: &str, rest: impl IntoIterator<Item = impl Display>) -> String {
    rest.into_iter()
        .fold(first.to_string(), |words, word| format!("{words} {word}"))
}

/// All that the guide claims.
fn claims(guide: &str) -> Vec<Claim> {
    let lines: Vec<&str> = guide.lines().collect();
    let (mut claims, mut heading, mut comment) = (vec![], "", None);
    let mut at = 0;
    while at < lines.len() {
        let line = lines[at];
        if line.starts_with("```") {
            let long = lines[at + 1..]
                .iter()
                .position(|line| line.starts_with("```"))
                .expect("the block ends");
            let block = &lines[at + 1..at + 1 + long];
            claims.extend(of_block(at + 1, block, comment.take()));
            at += long + 1;
        } else if let Some(said) = commented(line) {
            comment = said
                .rsplit_once(": ")
                .map_or(Some((said, None)), |(answer, sheet)| {
                    if lines[at + 1].starts_with("```") {
                        return Some((answer, Some(sheet)));
                    }
                    claims.push(verdict(at, slashed(sheet), answer));
                    None
                });
        } else if !line.starts_with('|') {
            let block_missing = comment.is_some() && !line.is_empty();
            assert!(!block_missing, "line {at}: no block below the answer");
            let misspelt = line != "<!--" && line.contains("<!--");
            assert!(!misspelt, "line {}: no comment as meant", at + 1);
        } else if line.ends_with("---|") {
            heading = lines[at - 1];
        } else if !lines[at + 1].ends_with("---|") {
            claims.extend(of_row(at, heading, line));
        }
        at += 1;
    }
    claims
}

/// Of a sheet alone: its clean text, its list or its places where the answer is such, else its verdict.
fn verdict(at: usize, sheet: String, answer: &str) -> Claim {
    let (answer, limits) = bounded(answer);
    let asked = match answer.split(' ').next() {
        Some("clean") => Asked::Clean,
        Some("refused") if answer == "refused 18" => Asked::Clean,
        Some("list") => Asked::List,
        Some("true") => Asked::Places(usize::MAX),
        _ => Asked::Verdict,
    };
    Claim {
        line: at + 1,
        sheet,
        asked,
        limits,
        answer: answer.to_string(),
    }
}

/// What stands before the limits, and these, if there are any.
fn bounded(said: &str) -> (&str, Option<Limits>) {
    let Some((answer, limits)) = said.split_once(" within ") else {
        return (said, None);
    };
    let (lean, closure) = limits.split_once(' ').expect("two limits");
    let [lean, closure] = [lean, closure].map(|limit| limit.parse().expect("a number"));
    (answer, Some(Limits { lean, closure }))
}

fn commented(line: &str) -> Option<&str> {
    line.strip_prefix("<!-- ")?.strip_suffix(" -->")
}

/// A block: a sheet, a snapshot, a case for the corpus program, or the list of typing errors. Any other claims nothing.
fn of_block(at: usize, block: &[&str], said: Option<(&str, Option<&str>)>) -> Vec<Claim> {
    let text: String = block.iter().map(|line| format!("{line}\n")).collect();
    if block.last().is_some_and(|line| line.starts_with("goal ")) {
        let (answer, file) = said.unwrap_or_else(|| panic!("line {at}: no answer above the sheet"));
        assert!(
            file.is_none_or(|file| read(file) == text),
            "line {at}: not what the file has"
        );
        return vec![verdict(at, text, answer)];
    }
    if block[0].starts_with("AG c ") {
        return block
            .iter()
            .enumerate()
            .flat_map(|(below, line)| typing_errors(at + below, line))
            .collect();
    }
    let Some((answer, file)) = said else {
        return vec![];
    };
    if answer.starts_with("list ") {
        assert_eq!(after(block, "list "), "0 256", "line {at}: another list");
        return vec![verdict(at, unescaped(after(block, "sheet ")), answer)];
    }
    let (sheet, snapshot) = match file {
        Some(file) => (read(file), text),
        None => (
            unescaped(after(block, "sheet ")),
            unescaped(after(block, "snapshot 16 ")),
        ),
    };
    vec![Claim {
        asked: Asked::Snapshot(snapshot, 16),
        ..verdict(at, sheet, answer)
    }]
}

/// The rest of the line that begins so.
fn after<'a>(block: &[&'a str], start: &str) -> &'a str {
    block
        .iter()
        .find_map(|line| line.strip_prefix(start))
        .expect("a line that begins so")
}

fn typing_errors(at: usize, line: &str) -> Vec<Claim> {
    let (wrong, meant) = line.split_at(MEANT);
    let each = |formulas: &str, answer: &str| -> Vec<Claim> {
        let formulas = formulas
            .split("  ")
            .map(str::trim)
            .filter(|formula| !formula.is_empty());
        formulas
            .map(|formula| under(LETTERS, at, formula, answer))
            .collect()
    };
    [each(wrong, "refused 6"), each(meant, "accepted")].concat()
}

/// A goal below these lines 1 and 2.
fn under(lines: &str, at: usize, formula: &str, answer: &str) -> Claim {
    verdict(at, format!("{lines}goal {formula}\n"), answer)
}

/// A row of the tables of formulas, of places, of types, of typing errors in symbols, of refusals and of changes. There is no other table.
fn of_row(at: usize, heading: &str, row: &str) -> Vec<Claim> {
    let cells: Vec<&str> = row.trim_matches('|').split(" | ").map(str::trim).collect();
    if heading.starts_with("| written |") {
        let formulas = spans(cells[0]);
        return formulas
            .iter()
            .map(|formula| under(WORDS, at, formula, "accepted"))
            .collect();
    }
    if heading.starts_with("| typed | refused |") {
        let (wrong, meant) = (spans(cells[0])[0], spans(cells[3])[0]);
        return vec![
            under(MORE_WORDS, at, wrong, &format!("refused {}", cells[1])),
            under(MORE_WORDS, at, meant, "accepted"),
        ];
    }
    if heading.starts_with("| place | counts |") {
        let asked = Asked::Places(cells[1].parse().expect("a number"));
        return vec![spelled(at, asked, cells[0])];
    }
    if heading.starts_with("| type | true places |") {
        let asked = Asked::Type(cells[0].parse().expect("a number"));
        return vec![spelled(at, asked, cells[1])];
    }
    if heading.starts_with("| change |") {
        return vec![
            verdict(at, typed(cells[1]), "open"),
            verdict(at, typed(cells[2]), "unsatisfiable"),
        ];
    }
    of_refusal(at, heading, &cells)
}

/// A row of the tables of refusals, of sheets and of snapshots.
fn of_refusal(at: usize, heading: &str, cells: &[&str]) -> Vec<Claim> {
    let refused = format!("refused {}", cells[0]);
    if heading.starts_with("| N | smallest sheet |") {
        let (_, limits) = bounded(cells[1]);
        return vec![Claim {
            limits,
            ..verdict(at, typed(cells[1]), &refused)
        }];
    }
    if heading.starts_with("| N | smallest snapshot |") {
        let (text, length) = (
            typed(cells[1]),
            if cells[1].ends_with("a row of 1 byte") {
                1
            } else {
                16
            },
        );
        let sheet = match text.lines().next() {
            Some("v f") => NAMED,
            Some("a b") => HELD,
            _ => DRAWN,
        };
        return vec![Claim {
            asked: Asked::Snapshot(text, length),
            ..verdict(at, sheet.to_string(), &refused)
        }];
    }
    panic!("line {}: a table of another kind", at + 1)
}

/// The places of a type of the sheet whose list is spelled out.
fn spelled(at: usize, asked: Asked, places: &str) -> Claim {
    Claim {
        asked,
        ..verdict(at, LISTED.to_string(), &words("true", spans(places)))
    }
}

/// What stands between backquotes.
fn spans(cell: &str) -> Vec<&str> {
    cell.split('`').skip(1).step_by(2).collect()
}

/// A cell's lines, or the bytes that its `printf` prints.
fn typed(cell: &str) -> String {
    let spans = spans(cell);
    match spans[0].strip_prefix("printf '") {
        Some(bytes) => unescaped(bytes.trim_end_matches('\'')),
        None => spans.iter().map(|line| format!("{line}\n")).collect(),
    }
}

fn unescaped(text: &str) -> String {
    text.replace("\\n", "\n").replace("\\t", "\t")
}

/// A sheet by its lines, or by its file.
fn slashed(sheet: &str) -> String {
    if sheet.ends_with(".sheet") {
        return read(sheet);
    }
    sheet.split(" / ").map(|line| format!("{line}\n")).collect()
}

fn read(file: &str) -> String {
    let path = Path::new(env!("CARGO_MANIFEST_DIR")).join("..").join(file);
    fs::read_to_string(&path).unwrap_or_else(|error| panic!("{file}: {error}"))
}
