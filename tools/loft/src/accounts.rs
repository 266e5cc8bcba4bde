//! `loft accounts`: a row for each reported event, for the ledger's keeper.

use crate::arguments::Arguments;
use crate::library::Literal;
use crate::model::step::{Came, Deed, Step, Why};
use crate::model::table::Change;
use crate::replay::{Ending, Next, Replay};
use crate::stored::{bad, paths, Stored};
use crate::words::{is_same_deed, Words};
use std::fmt::Write as _;
use std::io::Write as _;

const HELP: &str = "\
loft accounts LIBRARY INPUT OUTPUT

A row for each reported event: what was reported, how many actions were done for it, how many of them worked and missed,
how many list actions were skipped, how many plans failed, how it ended, and the belief changes made for it; below them
the actions that worked more than once for one event. The journal is replayed and compared as by explain.

  --csv          as comma-separated values, with each action and its outcome
  --beliefs      instead, the beliefs at the journal's end, as the start of a source: what a new journal begins with
  --names FILE   the names; else LIBRARY.names where there is one, else numbers are shown

Exit status: 0 the journal agrees with the model, 1 it does not, 2 bad usage.
";

pub fn run(words: &[String]) -> i32 {
    accounts(words).unwrap_or_else(|status| status)
}

fn accounts(words: &[String]) -> Result<i32, i32> {
    let arguments = Arguments::read(words, HELP, &["--names"], &["--csv", "--beliefs"])?;
    let paths = paths(&arguments, HELP)?;
    let stored = Stored::read(paths.library, arguments.option("--names"))?;
    let mut replay = stored.replay(&paths, false)?;
    let mut book = Book { words: Words { library: &stored.library, names: &stored.names, all: false }, rows: vec![] };
    let ending = book.fill(&mut replay).map_err(bad)?;
    if !matches!(ending, Ending::Disagrees { .. } | Ending::Beyond(_)) {
        let has = |flag| arguments.option(flag).is_some();
        let text = match (has("--beliefs"), has("--csv")) {
            (true, _) => book.beliefs(replay.agent().beliefs()),
            (_, true) => book.csv(),
            _ => book.table(),
        };
        write_rows(&text)?;
    }
    Ok(ending.status(replay.lines()))
}

/// Writes the rows; a reader that has gone away wants no more of them, and a full disk is told.
fn write_rows(text: &str) -> Result<(), i32> {
    let mut out = std::io::stdout();
    match out.write_all(text.as_bytes()).and_then(|()| out.flush()) {
        Err(error) if error.kind() != std::io::ErrorKind::BrokenPipe => Err(bad(error)),
        _ => Ok(()),
    }
}

/// An action done for an event; none has come back while it is open.
struct Deeds {
    instance: u32,
    literal: Literal,
    worked: Option<bool>,
    /// The line of its outcome.
    line: u64,
}

/// What is known of one reported event.
struct Row {
    line: u64,
    what: String,
    deeds: Vec<Deeds>,
    skipped: usize,
    failed: usize,
    begun: bool,
    ended: Option<String>,
    changes: Vec<Change>,
}

impl Row {
    fn outcomes(&self, outcome: Option<bool>) -> usize {
        self.deeds.iter().filter(|deed| deed.worked == outcome).count()
    }
}

struct Book<'a> {
    words: Words<'a>,
    /// By event number, which counts from 1.
    rows: Vec<Row>,
}

impl Book<'_> {
    fn fill(&mut self, replay: &mut Replay) -> std::io::Result<Ending> {
        loop {
            match replay.next()? {
                Next::Line(entry) => self.enter(entry.number, &entry.step),
                Next::End(ending) => return Ok(ending),
            }
        }
    }

    fn enter(&mut self, line: u64, step: &Step) {
        if let Why::Report(event) = &step.why {
            let what = self.words.event(event);
            let (deeds, changes) = (vec![], step.changes.clone());
            self.rows.push(Row { line, what, deeds, skipped: 0, failed: 0, begun: false, ended: None, changes });
            return;
        }
        let number = step.external.unwrap_or(0) as usize;
        let Some(row) = number.checked_sub(1).and_then(|place| self.rows.get_mut(place)) else { return };
        row.changes.extend(&step.changes);
        row.begun = true;
        match (&step.deed, &step.why) {
            (Deed::Done { at, literal }, _) => {
                row.deeds.push(Deeds { instance: at.instance, literal: *literal, worked: None, line });
            }
            (_, Why::Trial(trial)) if matches!(trial.came, Came::Worked | Came::DidNotWork) => {
                let open = |deed: &&mut Deeds| deed.instance == trial.who.id && deed.worked.is_none();
                if let Some(deed) = row.deeds.iter_mut().rev().find(open) {
                    deed.worked = Some(trial.came == Came::Worked);
                    deed.line = line;
                }
            }
            (Deed::Dropped { failed, .. }, Why::Choice(choice)) => {
                let has_plan = self.words.has_plan(choice);
                row.ended = Some(dropped(line, *failed, has_plan));
            }
            (Deed::Succeeded(_), Why::End(end)) if end.poster.is_none() => {
                row.ended = Some(format!("done by {} at line {line}", self.words.who(end.who)));
            }
            (Deed::Failed(_), _) => row.failed += 1,
            _ => {}
        }
        if let Why::End(end) = &step.why {
            row.skipped += end.skipped.len();
        }
    }

    fn ended(&self, row: &Row) -> String {
        match (&row.ended, row.begun) {
            (Some(ended), _) => ended.clone(),
            (None, false) => "open: not begun".into(),
            (None, true) => match row.deeds.iter().rev().find(|deed| deed.worked.is_none()) {
                Some(deed) => format!("open: waits for {}", self.words.names.literal(&deed.literal, None)),
                None => "open: at work".into(),
            },
        }
    }

    /// The belief changes, each behind the word for a removal or an addition.
    fn changes(&self, row: &Row, [removed, added]: [&str; 2], between: &str) -> String {
        let shown = |change: &Change| {
            let word = if change.removes { removed } else { added };
            format!("{word}{}", self.words.names.literal(&change.literal, None))
        };
        row.changes.iter().map(shown).collect::<Vec<_>>().join(between)
    }

    /// Actions that worked more than once for an event, by predicate and first term: a panel that was cut twice.
    fn again(&self, row: &Row) -> String {
        let worked: Vec<&Deeds> = row.deeds.iter().filter(|deed| deed.worked == Some(true)).collect();
        let is_repeated = |deed: &&&Deeds| worked.iter().filter(|other| is_same_deed(&other.literal, &deed.literal)).count() > 1;
        let shown = |deed: &&Deeds| format!("{} at line {}", self.words.names.literal(&deed.literal, None), deed.line);
        worked.iter().filter(is_repeated).map(shown).collect::<Vec<_>>().join(", ")
    }

    fn actions(&self, row: &Row) -> String {
        let shown = |deed: &Deeds| {
            let outcome = match deed.worked {
                Some(true) => "worked",
                Some(false) => "missed",
                None => "open",
            };
            format!("{} {outcome}", self.words.names.literal(&deed.literal, None))
        };
        row.deeds.iter().map(shown).collect::<Vec<_>>().join("; ")
    }
}

/// How an event ended for which no plan was left.
fn dropped(line: u64, failed: u32, has_plan: bool) -> String {
    match (has_plan, failed) {
        (false, _) => format!("closed at line {line}, no plan is for it"),
        (true, 0) => format!("given up at line {line}, no plan applied"),
        (true, 1) => format!("given up at line {line}, 1 plan failed"),
        (true, _) => format!("given up at line {line}, {failed} plans failed"),
    }
}

// ---- As text

impl Book<'_> {
    /// Beliefs as the start of a source, oldest first.
    fn beliefs(&self, beliefs: &[Literal]) -> String {
        let facts: String = beliefs.iter().map(|belief| format!("  {}\n", self.words.names.literal(belief, None))).collect();
        format!("start {{\n{facts}}}\n")
    }
}

const HEADS: [&str; 10] =
    ["event", "line", "reported", "done", "worked", "missed", "skipped", "plans failed", "ended", "belief changes"];

impl Book<'_> {
    fn cells(&self, number: usize, row: &Row, changes: String) -> [String; 10] {
        [
            number.to_string(),
            row.line.to_string(),
            row.what.clone(),
            row.deeds.len().to_string(),
            row.outcomes(Some(true)).to_string(),
            row.outcomes(Some(false)).to_string(),
            row.skipped.to_string(),
            row.failed.to_string(),
            self.ended(row),
            changes,
        ]
    }

    fn table(&self) -> String {
        let cells = |(place, row): (usize, &Row)| self.cells(place + 1, row, self.changes(row, ["-", "+"], " "));
        let rows: Vec<[String; 10]> = self.rows.iter().enumerate().map(cells).collect();
        let mut widths = HEADS.map(str::len);
        for row in &rows {
            for (width, cell) in widths.iter_mut().zip(row) {
                *width = (*width).max(cell.chars().count());
            }
        }
        let mut text = String::new();
        write_row(&mut text, &HEADS.map(String::from), &widths);
        rows.iter().for_each(|row| write_row(&mut text, row, &widths));
        self.sums(&mut text);
        self.repeats(&mut text);
        text
    }

    fn sums(&self, text: &mut String) {
        let sum = |of: &dyn Fn(&Row) -> usize| self.rows.iter().map(of).sum::<usize>();
        let closed = sum(&|row| usize::from(row.ended.is_some()));
        let (done, worked) = (sum(&|row| row.deeds.len()), sum(&|row| row.outcomes(Some(true))));
        let missed = sum(&|row| row.outcomes(Some(false)));
        // writing to a string does not fail
        let _ = writeln!(text, "{} events, {closed} of them closed", self.rows.len());
        let _ = writeln!(text, "{done} actions done, {worked} worked, {missed} missed, {} open", done - worked - missed);
        let skipped = sum(&|row| row.skipped);
        if skipped > 0 {
            let _ = writeln!(text, "!! {skipped} list actions SKIPPED: loft explain --about SKIPPED shows them");
        }
    }

    fn repeats(&self, text: &mut String) {
        let rows = self.rows.iter().enumerate().map(|(place, row)| (place + 1, self.again(row)));
        let repeats: String =
            rows.filter(|(_, again)| !again.is_empty()).map(|(event, again)| format!("  event {event}: {again}\n")).collect();
        if !repeats.is_empty() {
            let _ = write!(text, "worked more than once for one event, by action and first term:\n{repeats}");
        }
    }

    fn csv(&self) -> String {
        let mut text = HEADS.map(quoted).join(",") + ",actions,worked again\n";
        for (place, row) in self.rows.iter().enumerate() {
            // a spreadsheet would take a leading sign for a formula
            let changes = self.changes(row, ["removed ", "added "], "; ");
            let cells = self.cells(place + 1, row, changes).map(quoted);
            let _ = writeln!(text, "{},{},{}", cells.join(","), quoted(self.actions(row)), quoted(self.again(row)));
        }
        text
    }
}

/// Columns side by side: numbers to the right, words to the left.
fn write_row(text: &mut String, cells: &[String; 10], widths: &[usize; 10]) {
    let mut line = String::new();
    for (place, (cell, width)) in cells.iter().zip(widths).enumerate() {
        let words = place == 2 || place > 7;
        let _ = if words { write!(line, "{cell:<width$}  ") } else { write!(line, "{cell:>width$}  ") };
    }
    text.push_str(line.trim_end());
    text.push('\n');
}

/// A value of a comma-separated file.
fn quoted(cell: impl AsRef<str>) -> String {
    let cell = cell.as_ref();
    if cell.contains([',', '"', '\n']) {
        format!("\"{}\"", cell.replace('"', "\"\""))
    } else {
        cell.to_string()
    }
}
