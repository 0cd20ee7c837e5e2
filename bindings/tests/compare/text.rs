//! A sheet's text, read no further than which symbols line 2 declares as what, and where formulas have them.

pub struct Text {
    lines: Vec<String>,
}

impl Text {
    pub fn of(bytes: &[u8]) -> Text {
        let text = String::from_utf8_lossy(bytes);
        Text {
            lines: text.lines().map(String::from).collect(),
        }
    }

    /// The symbols that line 2 declares as a kind.
    pub fn declared(&self, kind: &str) -> Vec<&str> {
        let words = |line: usize| self.lines.get(line).map_or("", |line| line).split(' ');
        words(0)
            .zip(words(1))
            .filter(|&(_, declared)| declared == kind)
            .map(|(symbol, _)| symbol)
            .collect()
    }

    /// Whether a formula has the symbol outside braces.
    pub fn occurs(&self, symbol: &str) -> bool {
        self.has_run(outside, symbol)
    }

    pub fn in_braces(&self, symbol: &str) -> bool {
        self.has_run(in_braces, symbol)
    }

    fn has_run(&self, runs: fn(&str) -> Vec<String>, symbol: &str) -> bool {
        self.lines
            .iter()
            .skip(2)
            .filter_map(|line| line.split_once(' '))
            .any(|(_, formula)| runs(formula).iter().any(|run| run == symbol))
    }
}

/// The runs of lower-case letters outside braces.
fn outside(formula: &str) -> Vec<String> {
    let plain: Vec<&str> = formula
        .split('{')
        .map(|part| part.split_once('}').map_or(part, |(_, after)| after))
        .collect();
    letters(&plain.join(" "))
}

/// Those in braces, a capital at the beginning read as a small letter.
fn in_braces(formula: &str) -> Vec<String> {
    let inner: Vec<&str> = formula
        .split('{')
        .skip(1)
        .filter_map(|part| part.split_once('}'))
        .map(|(modes, _)| modes)
        .collect();
    letters(&inner.join(" ").to_ascii_lowercase())
}

fn letters(text: &str) -> Vec<String> {
    text.split(|letter: char| !letter.is_ascii_lowercase())
        .filter(|run| !run.is_empty())
        .map(String::from)
        .collect()
}
