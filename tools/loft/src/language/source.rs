//! A source's lines, places in it, and faults shown with the line and a caret.

use std::collections::BTreeSet;

/// Where something stands: line and column count from 1, in characters.
#[derive(Clone, Copy, PartialEq, Eq, PartialOrd, Ord, Debug, Default)]
pub struct Place {
    pub line: u32,
    pub column: u32,
    pub length: u32,
}

#[derive(Clone, Copy, PartialEq, Eq, PartialOrd, Ord, Debug)]
pub enum Severity {
    Error,
    Warning,
}

/// What is wrong at a place, and what may help.
#[derive(Clone, PartialEq, Eq, PartialOrd, Ord, Debug)]
pub struct Fault {
    pub place: Place,
    pub severity: Severity,
    pub text: String,
    pub hints: Vec<String>,
}

/// The faults of a source, each once.
#[derive(Default)]
pub struct Faults {
    found: BTreeSet<Fault>,
}

impl Faults {
    pub fn error(&mut self, place: Place, text: impl Into<String>, hints: &[String]) {
        self.add(Severity::Error, place, text, hints);
    }

    pub fn warning(&mut self, place: Place, text: impl Into<String>, hints: &[String]) {
        self.add(Severity::Warning, place, text, hints);
    }

    pub fn add(&mut self, severity: Severity, place: Place, text: impl Into<String>, hints: &[String]) {
        self.found.insert(Fault { place, severity, text: text.into(), hints: hints.to_vec() });
    }

    pub fn errors(&self) -> usize {
        self.found.iter().filter(|fault| fault.severity == Severity::Error).count()
    }

    pub fn warnings(&self) -> usize {
        self.found.len() - self.errors()
    }

    /// The lines that have errors.
    pub fn error_lines(&self) -> Vec<u32> {
        self.found.iter().filter(|fault| fault.severity == Severity::Error).map(|fault| fault.place.line).collect()
    }

    /// The faults in order of their places, each with the line and a caret under it.
    pub fn shown(&self, path: &str, source: &str) -> String {
        let lines: Vec<&str> = source.lines().collect();
        let mut text: String = self.found.iter().take(MOST_SHOWN).map(|fault| shown(fault, path, &lines)).collect();
        if self.found.len() > MOST_SHOWN {
            text.push_str(&format!("{path}: and {} more\n", self.found.len() - MOST_SHOWN));
        }
        text
    }
}

/// Of a longer line, the part around the fault is shown.
const WIDTH: usize = 160;
/// Of more faults, the first are shown.
const MOST_SHOWN: usize = 200;

fn shown(fault: &Fault, path: &str, lines: &[&str]) -> String {
    let Place { line, column, length } = fault.place;
    let severity = if fault.severity == Severity::Error { "error" } else { "warning" };
    let mut text = format!("{path}:{line}:{column}: {severity}: {}\n", fault.text);
    if let Some(row) = (line as usize).checked_sub(1).and_then(|index| lines.get(index)) {
        let skipped = (column as usize).saturating_sub(WIDTH / 2) * usize::from(row.chars().count() > WIDTH);
        let row: String = row.chars().skip(skipped).take(WIDTH).collect();
        let before: String =
            row.chars().take(column as usize - 1 - skipped).map(|c| if c == '\t' { '\t' } else { ' ' }).collect();
        text.push_str(&format!("  {row}\n  {before}{}\n", "^".repeat(length.clamp(1, WIDTH as u32 / 2) as usize)));
    }
    fault.hints.iter().for_each(|hint| text.push_str(&format!("  = {hint}\n")));
    text
}

// ---- Hints

/// "did you mean ..?" for the nearest of the names, if one is near.
pub fn nearest<'a>(word: &str, names: impl IntoIterator<Item = &'a str>) -> Vec<String> {
    let near = names.into_iter().map(|name| (distance(word, name), name)).filter(|(steps, name)| is_near(*steps, word, name));
    near.min().map(|(_, name)| format!("did you mean '{name}'?")).into_iter().collect()
}

fn is_near(steps: usize, word: &str, name: &str) -> bool {
    steps > 0 && steps <= 1 + word.chars().count().max(name.chars().count()) / 4
}

/// How many letters are put in, left out, changed or swapped with their neighbour.
fn distance(from: &str, to: &str) -> usize {
    let (from, to): (Vec<char>, Vec<char>) = (from.chars().take(40).collect(), to.chars().take(40).collect());
    let mut rows = vec![vec![0; to.len() + 1]; from.len() + 1];
    for i in 0..=from.len() {
        for j in 0..=to.len() {
            rows[i][j] = if i == 0 || j == 0 {
                i + j
            } else {
                let changed = rows[i - 1][j - 1] + usize::from(from[i - 1] != to[j - 1]);
                let swapped = i > 1 && j > 1 && from[i - 1] == to[j - 2] && from[i - 2] == to[j - 1];
                let least = changed.min(rows[i - 1][j] + 1).min(rows[i][j - 1] + 1);
                if swapped {
                    least.min(rows[i - 2][j - 2] + 1)
                } else {
                    least
                }
            };
        }
    }
    rows[from.len()][to.len()]
}

/// "1 step", "2 steps".
pub fn counted(count: usize, what: &str) -> String {
    format!("{count} {what}{}", if count == 1 { "" } else { "s" })
}
