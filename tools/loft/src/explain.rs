//! `loft explain`: a journal in words, line by line, with the reasons.

use crate::arguments::{bad_usage, Arguments};
use crate::library::Literal;
use crate::model::step::{Deed, Refused, Step, Why};
use crate::replay::{shown, Ending, Entry, Next, Replay};
use crate::stored::{bad, paths, Stored};
use crate::words::{is_same_deed, plural, Words};
use crate::FINE;
use std::collections::HashMap;
use std::io::{self, BufWriter, Write};

const HELP: &str = "\
loft explain LIBRARY INPUT OUTPUT

A journal in words. Replays the input by a model of the agent, compares each answer with the stored one, and tells what
happened and why: who starts for what, why other plans were passed over, why a branch was missed, why an instance
failed, what a refusal means, and each list action that was SKIPPED. Stops where the journal disagrees with the model.

  -f             goes on as the journal grows, until it is interrupted
  --event N      only lines that serve reported event N
  --instance N   only lines about plan instance N
  --about WORD   only lines with this word in them, or that serve an event with it
  --all          names the plans for other events too, where plans were passed over
  --raw          shows each line in and its answer before the words
  --names FILE   the names; else LIBRARY.names where there is one, else numbers are shown

Exit status: 0 the journal agrees, 1 it does not, 2 bad usage.
";

pub fn run(words: &[String]) -> i32 {
    explain(words).unwrap_or_else(|status| status)
}

fn explain(words: &[String]) -> Result<i32, i32> {
    let arguments = Arguments::read(words, HELP, &["--event", "--instance", "--about", "--names"], &["-f", "--all", "--raw"])?;
    let paths = paths(&arguments, HELP)?;
    let filter = Filter {
        event: number(&arguments, "--event")?,
        instance: number(&arguments, "--instance")?,
        about: arguments.option("--about").map(str::to_lowercase),
    };
    let stored = Stored::read(paths.library, arguments.option("--names"))?;
    let has = |flag| arguments.option(flag).is_some();
    let mut replay = stored.replay(&paths, has("-f"))?;
    let words = Words { library: &stored.library, names: &stored.names, all: has("--all") };
    let mut teller = Teller::new(words, filter, has("--raw"), has("-f"));
    let mut out = BufWriter::with_capacity(1 << 16, io::stdout().lock());
    match teller.tell_all(&mut replay, &mut out).and_then(|status| out.flush().map(|()| status)) {
        Err(error) if error.kind() == io::ErrorKind::BrokenPipe => Ok(FINE),
        told => told.map_err(bad),
    }
}

fn number(arguments: &Arguments, option: &str) -> Result<Option<u32>, i32> {
    let read = |value: &str| value.parse().map_err(|_| bad_usage(&format!("{option} wants a number, not '{value}'"), HELP));
    arguments.option(option).map(read).transpose()
}

/// Where the words of a line begin, as long as its number has six digits.
const NUMBER_WIDTH: usize = 8;

/// Which lines are shown.
struct Filter {
    event: Option<u32>,
    instance: Option<u32>,
    about: Option<String>,
}

impl Filter {
    fn is_open(&self) -> bool {
        self.event.is_none() && self.instance.is_none() && self.about.is_none()
    }

    fn takes(&self, step: &Step) -> bool {
        let event = self.event.is_none() || self.event == step.external;
        let instance = self.instance.is_none() || concerned(step).contains(&self.instance);
        event && instance
    }
}

/// The instances that a step is about: its own, and the one whose goal is met, missed or taken up.
fn concerned(step: &Step) -> [Option<u32>; 2] {
    match &step.why {
        Why::Choice(choice) => {
            let made = if let Deed::Made { id, .. } = step.deed { Some(id) } else { None };
            [made, choice.poster.map(|poster| poster.id)]
        }
        Why::Trial(trial) => [Some(trial.who.id), None],
        Why::End(end) => [Some(end.who.id), end.poster.map(|poster| poster.id)],
        Why::Refused(Refused::Ended(id) | Refused::NeverMade(id)) => [Some(*id), None],
        Why::Refused(Refused::NotWaiting { who, .. }) => [Some(who.id), None],
        _ => [None, None],
    }
}

/// What came up, for the last lines.
#[derive(Default)]
struct Sums {
    events: u64,
    closed: u64,
    made: u64,
    done: u64,
    failed: u64,
    skipped: u64,
    first_skipped: u64,
    refused: u64,
    first_refused: u64,
}

impl Sums {
    fn add(&mut self, number: u64, step: &Step) {
        match step.deed {
            Deed::Taken(_) => self.events += 1,
            Deed::Made { .. } => self.made += 1,
            Deed::Succeeded(_) => self.done += 1,
            Deed::Failed(_) => self.failed += 1,
            Deed::Refused(_) => {
                self.refused += 1;
                self.first_refused = if self.refused == 1 { number } else { self.first_refused };
            }
            _ => {}
        }
        self.closed += u64::from(step.closes_event());
        if let Why::End(end) = &step.why {
            if self.skipped == 0 && !end.skipped.is_empty() {
                self.first_skipped = number;
            }
            self.skipped += end.skipped.len() as u64;
        }
    }

    fn told(&self, lines: u64) -> String {
        let (open, live) = (self.events - self.closed, self.made - self.done - self.failed);
        let mut text = format!("{lines} {} agree with the model. ", plural(lines as usize, "line"));
        text.push_str(&format!("Events: {}, {} closed, {open} open. ", self.events, self.closed));
        text.push_str(&format!("Plan instances: {}, {} done, {} failed, {live} live.\n", self.made, self.done, self.failed));
        if self.refused > 0 {
            text.push_str(&format!(
                "{} refused, the first at line {}.\n",
                count(self.refused, "line was", "lines were"),
                self.first_refused
            ));
        }
        if self.skipped > 0 {
            let what = count(self.skipped, "list action was", "list actions were");
            text.push_str(&format!("!! {what} SKIPPED, the first at line {}: --about SKIPPED shows them.\n", self.first_skipped));
        }
        text
    }
}

fn count(number: u64, one: &str, more: &str) -> String {
    format!("{number} {}", if number == 1 { one } else { more })
}

struct Teller<'a> {
    words: Words<'a>,
    filter: Filter,
    raw: bool,
    follow: bool,
    /// The words of each open event, where a word is looked for.
    events: HashMap<u32, String>,
    /// The words of the idle line shown last, and the lines after it that say the same.
    idle: String,
    idle_again: Option<(u64, u64)>,
    /// The actions that worked for each open event, with their lines.
    worked: HashMap<u32, Vec<(Literal, u64)>>,
    shown: u64,
    sums: Sums,
}

impl<'a> Teller<'a> {
    fn new(words: Words<'a>, filter: Filter, raw: bool, follow: bool) -> Self {
        let (events, worked, idle) = (HashMap::new(), HashMap::new(), String::new());
        Teller { words, filter, raw, follow, events, idle, idle_again: None, worked, shown: 0, sums: Sums::default() }
    }

    fn tell_all(&mut self, replay: &mut Replay, out: &mut impl Write) -> io::Result<i32> {
        let mut text = String::new();
        loop {
            match replay.next()? {
                Next::Line(entry) => {
                    self.sums.add(entry.number, &entry.step);
                    text.clear();
                    if self.line(&entry, &mut text) && !self.is_same_idle(&entry, &text) {
                        self.tell_idle_again(out)?;
                        out.write_all(text.as_bytes())?;
                    }
                    if self.follow {
                        out.flush()?;
                    }
                }
                Next::End(ending) => {
                    self.tell_idle_again(out)?;
                    return self.end(&ending, replay.lines(), out);
                }
            }
        }
    }

    /// Whether a line is idle as the one shown last; such lines are told together.
    fn is_same_idle(&mut self, entry: &Entry, text: &str) -> bool {
        let words = text.get(NUMBER_WIDTH..).unwrap_or("");
        let idle = matches!(entry.step.deed, Deed::Idle) && !self.raw;
        if idle && self.idle == words {
            let first = self.idle_again.map_or(entry.number, |(first, _)| first);
            self.idle_again = Some((first, entry.number));
            return true;
        }
        self.idle.clear();
        if idle {
            self.idle.push_str(words);
        }
        false
    }

    fn tell_idle_again(&mut self, out: &mut impl Write) -> io::Result<()> {
        match self.idle_again.take() {
            Some((first, last)) if first == last => writeln!(out, "{first:>6}  idle, the same"),
            Some((first, last)) => writeln!(out, "{first:>6}  idle, the same to line {last}"),
            None => Ok(()),
        }
    }

    /// Writes a line in words; whether it is to be shown.
    fn line(&mut self, entry: &Entry, text: &mut String) -> bool {
        let again = self.worked_before(entry);
        if !self.filter.takes(&entry.step) {
            return false;
        }
        text.push_str(&format!("{:>6}  ", entry.number));
        if self.raw {
            text.push_str(&format!("{}  ->  {}\n        ", shown(entry.call), shown(entry.answer)));
        }
        let begin = text.len();
        self.words.tell(entry.call, &entry.step, text);
        if let Some((earlier, line)) = again {
            self.words.again(&earlier, line, text);
        }
        let is_about = self.is_about(&entry.step, text.get(begin..).unwrap_or(""));
        text.push('\n');
        self.shown += u64::from(is_about);
        is_about
    }

    /// The action of the same kind that worked before for the same event, with its line; by predicate and first term.
    fn worked_before(&mut self, entry: &Entry) -> Option<(Literal, u64)> {
        let event = entry.step.external?;
        if entry.step.closes_event() {
            self.worked.remove(&event);
        }
        let action = self.words.worked(&entry.step)?;
        let before = self.worked.entry(event).or_default();
        let found = before.iter().rev().find(|(earlier, _)| is_same_deed(earlier, &action)).copied();
        before.push((action, entry.number));
        found
    }

    fn is_about(&mut self, step: &Step, told: &str) -> bool {
        let Some(word) = &self.filter.about else { return true };
        let found = has_word(told, word);
        let Some(event) = step.external else { return found };
        if let Why::Report(_) = step.why {
            self.events.insert(event, told.to_string());
        }
        let of_event = self.events.get(&event).is_some_and(|told| has_word(told, word));
        if step.closes_event() {
            self.events.remove(&event);
        }
        found || of_event
    }

    fn end(&self, ending: &Ending, lines: u64, out: &mut impl Write) -> io::Result<i32> {
        if self.filter.is_open() {
            write!(out, "{}", self.sums.told(lines))?;
        } else {
            writeln!(out, "{} of {lines} lines are shown", self.shown)?;
        }
        out.flush()?;
        Ok(ending.status(lines))
    }
}

/// Whether a word stands in some text, by itself; without regard to capitals.
fn has_word(text: &str, word: &str) -> bool {
    let text = text.to_lowercase();
    let part_of_word = |letter: Option<char>| letter.is_some_and(|letter| letter.is_alphanumeric() || letter == '_');
    text.match_indices(word).any(|(place, _)| {
        let (before, after) = (&text[..place], &text[place + word.len()..]);
        !part_of_word(before.chars().next_back()) && !part_of_word(after.chars().next())
    })
}
