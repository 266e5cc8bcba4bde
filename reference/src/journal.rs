//! Lines in, lines out (document 01, "Journal").

use crate::agent::Agent;
use crate::answer::{Answer, Deed};
use crate::belief::Change;
use crate::literal::{Fact, Literal};
use crate::refusal::Refusal;
use crate::state::{Number, Origin, Place};

/// The length of the longest readable line, `P 00000 +00000 00000 00000 00000`.
const LONGEST_LINE: usize = 32;

/// A line that was read.
#[derive(Clone, Debug, PartialEq, Eq)]
pub enum Call {
    /// A device reports.
    Report(u16, Literal),
    /// The agent may do one thing.
    Cycle,
    /// A device tells whether an action worked.
    Outcome(Number, bool),
}

impl Call {
    /// The call that a line (without its newline) asks for.
    pub fn parse(line: &[u8]) -> Option<Call> {
        let mut fields = line.split(|byte| *byte == b' ');
        let call = match fields.next()? {
            b"P" => Call::Report(number(fields.next()?)?, literal(&mut fields)?),
            b"C" => Call::Cycle,
            b"O" => Call::Outcome(id(fields.next()?)?, flag(fields.next()?)?),
            _ => return None,
        };
        fields.next().is_none().then_some(call)
    }
}

/// A number of 1 to 5 digits, at most 65,535.
fn number(field: &[u8]) -> Option<u16> {
    value(field, 5)?.try_into().ok()
}

/// An id of 1 to 10 digits, at most 4,294,967,295.
fn id(field: &[u8]) -> Option<Number> {
    value(field, 10)?.try_into().ok()
}

/// The value of a field of digits, at least one and so many at most.
fn value(field: &[u8], most_digits: usize) -> Option<u64> {
    if field.is_empty() || field.len() > most_digits {
        return None;
    }
    let mut value = 0;
    for byte in field {
        if !byte.is_ascii_digit() {
            return None;
        }
        value = 10 * value + u64::from(byte - b'0');
    }
    Some(value)
}

fn flag(field: &[u8]) -> Option<bool> {
    match field {
        b"0" => Some(false),
        b"1" => Some(true),
        _ => None,
    }
}

fn literal<'a>(fields: &mut impl Iterator<Item = &'a [u8]>) -> Option<Literal> {
    let (sign, predicate) = fields.next()?.split_first()?;
    let negative = match sign {
        b'+' => 0,
        b'-' => 0x8000,
        _ => return None,
    };
    let predicate = number(predicate).filter(|predicate| *predicate < 0x8000)?;
    let mut term = || number(fields.next()?);
    Some(Literal::from_stored([predicate | negative, term()?, term()?, term()?]))
}

/// A line that is being written.
struct Line<'a>(&'a mut Vec<u8>);

impl Line<'_> {
    fn word(&mut self, word: &[u8]) -> &mut Self {
        self.0.extend_from_slice(word);
        self
    }

    fn digits(&mut self, number: usize) -> &mut Self {
        let mut digits = [0; 20];
        let mut start = digits.len();
        let mut left = number;
        loop {
            start -= 1;
            digits[start] = b'0' + (left % 10) as u8;
            left /= 10;
            if left == 0 {
                break;
            }
        }
        self.word(&digits[start..])
    }

    fn number(&mut self, number: impl Into<usize>) -> &mut Self {
        self.word(b" ").digits(number.into())
    }

    fn id(&mut self, id: Number) -> &mut Self {
        self.number(id as usize)
    }

    fn place(&mut self, place: Place) -> &mut Self {
        self.id(place.id).number(place.state).number(place.branch)
    }

    fn fact(&mut self, fact: &Fact) -> &mut Self {
        self.word(if fact.symbol.is_negative() { b" -" } else { b" +" }).digits(fact.symbol.predicate().into());
        let [first, second, third] = fact.terms;
        self.number(first).number(second).number(third)
    }

    fn answer(&mut self, answer: &Answer) {
        self.deed(answer.deed);
        for change in &answer.changes {
            match change {
                Change::Added(fact) => self.word(b" a").fact(fact),
                Change::Removed(fact) => self.word(b" r").fact(fact),
            };
        }
    }

    fn deed(&mut self, deed: Deed) -> &mut Self {
        match deed {
            Deed::Taken(number) => self.word(b"T").id(number),
            Deed::Idle => self.word(b"I"),
            Deed::Dropped(number, failed) => self.word(b"N").id(number).number(failed),
            Deed::Unmet(goal, failed) => self.word(b"U").place(goal).number(failed),
            Deed::Made { id, plan, serves } => {
                self.word(b"M").id(id).number(plan);
                match serves {
                    Origin::External(number) => self.word(b" e").id(number),
                    Origin::Goal(goal) => self.word(b" g").id(goal.id),
                }
            }
            Deed::Stepped(place, next) => self.word(b"S").place(place).number(next),
            Deed::Missed(place) => self.word(b"B").place(place),
            Deed::Done(place, fact) => self.word(b"D").place(place).fact(&fact),
            Deed::Posted(place) => self.word(b"G").place(place),
            Deed::Succeeded(id) => self.word(b"E").id(id),
            Deed::Failed(id) => self.word(b"F").id(id),
        }
    }
}

/// Writes the line of an answer or a refusal, with its newline.
pub fn write_line(output: &mut Vec<u8>, answer: &Result<Answer, Refusal>) {
    let mut line = Line(output);
    match answer {
        Ok(answer) => line.answer(answer),
        Err(refusal) => {
            line.word(b"X").number(refusal.number());
        }
    }
    line.word(b"\n");
}

/// An agent that is called by lines, which may come in pieces.
#[derive(Clone, Debug)]
pub struct Journal {
    agent: Agent,
    /// The start of a line whose newline has not come yet, kept up to a byte more than can be read.
    begun: Vec<u8>,
}

impl Journal {
    /// A journal of this agent, with no lines yet.
    pub fn new(agent: Agent) -> Self {
        Journal { agent, begun: Vec::with_capacity(LONGEST_LINE + 1) }
    }

    /// The agent after the lines so far.
    pub fn agent(&self) -> &Agent {
        &self.agent
    }

    /// The agent after the lines so far, once the journal is no longer needed.
    pub fn into_agent(self) -> Agent {
        self.agent
    }

    /// Answers one line, given without its newline.
    pub fn answer(&mut self, line: &[u8]) -> Result<Answer, Refusal> {
        match Call::parse(line).ok_or(Refusal::Unreadable)? {
            Call::Report(kind, literal) => self.agent.report(kind, &literal),
            Call::Cycle => self.agent.cycle(),
            Call::Outcome(id, worked) => self.agent.outcome(id, worked),
        }
    }

    /// Takes the next piece of the input and writes an answer for each line that ends in it.
    pub fn feed(&mut self, piece: &[u8], output: &mut Vec<u8>) {
        for part in piece.split_inclusive(|byte| *byte == b'\n') {
            match part.split_last() {
                Some((b'\n', line)) if self.begun.is_empty() => write_line(output, &self.answer(line)),
                Some((b'\n', line)) => {
                    self.begin(line);
                    self.finish(output);
                }
                _ => self.begin(part),
            }
        }
    }

    /// The input has ended: answers what stands after its last newline.
    pub fn finish(&mut self, output: &mut Vec<u8>) {
        if self.begun.is_empty() {
            return;
        }
        let line = std::mem::take(&mut self.begun);
        write_line(output, &self.answer(&line));
        self.begun = line;
        self.begun.clear();
    }

    fn begin(&mut self, part: &[u8]) {
        let room = LONGEST_LINE + 1 - self.begun.len();
        self.begun.extend_from_slice(&part[..part.len().min(room)]);
    }
}
