//! Journals for a valid library, written while the reference runs along, so that they know who waits.

use crate::coverage::{Coverage, Watch};
use crate::draft::{Library, Literal, V0, is_ground, opposite};
use crate::plans::Words;
use crate::random::Random;
use crate::unreadable;
use reference::agent::Agent;
use reference::journal::{Journal, write_line};
use reference::state::{Number, Status};

/// How a journal leans; the first five are weights.
struct Mood {
    reports: usize,
    cycles: usize,
    outcomes: usize,
    refused: usize,
    unreadable: usize,
    /// Share of outcomes that worked.
    worked: usize,
    /// How often reports come in a row.
    bursts: usize,
    length: usize,
}

fn mood(random: &mut Random) -> Mood {
    let lengths = [5, 40, 80, 150, 300, 300, 600, 600, 1_200, 2_400];
    let mixed = Mood {
        reports: 15,
        cycles: 70,
        outcomes: 12,
        refused: 3,
        unreadable: 3,
        worked: random.between(20, 95),
        bursts: 1,
        length: *random.pick(&lengths),
    };
    match random.below(6) {
        // many reports, so that the queue fills
        0 => Mood { reports: 40, bursts: 2, ..mixed },
        // devices that hardly ever answer, so that all stacks wait
        1 => Mood { outcomes: 2, bursts: 1, ..mixed },
        // few reports, so that the agent comes to rest
        2 => Mood { reports: 3, cycles: 80, outcomes: 20, bursts: 0, ..mixed },
        // lines that are refused
        3 => Mood { refused: 25, unreadable: 15, ..mixed },
        _ => mixed,
    }
}

/// A journal and what the reference answers.
pub struct Writer<'a> {
    random: &'a mut Random,
    coverage: &'a mut Coverage,
    library: &'a Library,
    words: &'a Words,
    journal: Journal,
    pub input: Vec<u8>,
    pub output: Vec<u8>,
}

impl<'a> Writer<'a> {
    pub fn new(random: &'a mut Random, coverage: &'a mut Coverage, library: &'a Library, words: &'a Words, agent: Agent) -> Self {
        Writer { random, coverage, library, words, journal: Journal::new(agent), input: vec![], output: vec![] }
    }

    /// The agent after the lines so far.
    pub fn agent(&self) -> &Agent {
        self.journal.agent()
    }

    /// Writes the journal.
    pub fn write(&mut self) {
        let mood = mood(self.random);
        let mut lines = 0;
        while lines < mood.length {
            lines += 1;
            if self.output.ends_with(b"\nI\n") && self.random.percent(60) {
                self.wake(mood.worked);
                continue;
            }
            match self.random.weighted(&[mood.cycles, mood.reports, mood.outcomes, mood.refused, mood.unreadable]) {
                0 => self.line(b"C"),
                1 if self.random.percent(mood.bursts) => {
                    lines += 40;
                    (0..40).for_each(|_| self.report());
                }
                1 => self.report(),
                2 => self.outcome(mood.worked),
                3 => self.refused(),
                _ => self.unreadable(),
            }
        }
        self.end();
    }

    /// After an idle cycle, something that gives the agent work.
    fn wake(&mut self, worked: usize) {
        let waits = self.waiting().len();
        if self.random.below(9) < waits { self.outcome(worked) } else { self.report() }
    }

    /// The last line may lack its newline.
    fn end(&mut self) {
        if self.random.percent(20) && self.input.pop_if(|byte| *byte == b'\n').is_some() && self.input.ends_with(b"\n") {
            // a last line that is empty needs its newline to be a line
            self.input.push(b'\n');
        }
    }

    fn line(&mut self, line: &[u8]) {
        let watch = Watch::new(self.journal.agent());
        let answer = self.journal.answer(line);
        self.coverage.observe(&watch, line, &answer, self.journal.agent());
        self.input.extend_from_slice(line);
        self.input.push(b'\n');
        write_line(&mut self.output, &answer);
    }

    /// A number, in a share of the cases with as many digits as may be.
    fn number(&mut self, number: Number, digits: usize, padded: usize) -> String {
        if self.random.percent(padded) { format!("{number:0digits$}") } else { number.to_string() }
    }

    /// The share of numbers with leading zeros in a line: now and then all of them.
    fn padded(&mut self) -> usize {
        if self.random.percent(3) { 100 } else { 3 }
    }

    fn report(&mut self) {
        let kind = self.random.below(3) as u16;
        let (kind, literal) = match self.random.below(11) {
            0..6 => self.triggering().unwrap_or((kind, self.words.ground(self.random, &self.words.facts))),
            6 => (kind, self.held().unwrap_or([1, 1, 0, 0])),
            7 => (kind, self.words.ground(self.random, &self.words.told)),
            8 => (0, opposite(self.held().unwrap_or([1, 1, 0, 0]))),
            9 => (0, [self.words.facts[0], self.random.between(1, 90) as u16, 0, 0]),
            _ => (kind, self.words.ground(self.random, &self.words.facts)),
        };
        self.report_of(kind, &literal);
    }

    fn report_of(&mut self, kind: u16, literal: &Literal) {
        let [symbol, first, second, third] = *literal;
        let sign = if symbol < 32_768 { '+' } else { '-' };
        let padded = self.padded();
        let numbers = [kind, symbol % 32_768, first, second, third].map(|number| self.number(number.into(), 5, padded));
        let [kind, predicate, first, second, third] = numbers;
        self.line(format!("P {kind} {sign}{predicate} {first} {second} {third}").as_bytes());
    }

    /// A report that some plan answers to.
    fn triggering(&mut self) -> Option<(u16, Literal)> {
        let reported: Vec<_> = self.library.plans.iter().filter(|plan| plan.kind < 3).collect();
        if reported.is_empty() {
            return None;
        }
        let plan = *self.random.pick(&reported);
        let mut literal = plan.trigger;
        let values: Vec<u16> = (0..8).map(|_| *self.random.pick(&self.words.constants)).collect();
        for term in &mut literal[1..] {
            if *term >= V0 {
                *term = values[usize::from(*term - V0)];
            }
        }
        Some((plan.kind, literal))
    }

    /// A belief that is held now.
    fn held(&mut self) -> Option<Literal> {
        let facts = self.journal.agent().beliefs().facts();
        if facts.is_empty() {
            return None;
        }
        Some(self.random.pick(facts).stored())
    }

    fn waiting(&self) -> Vec<Number> {
        let tops = self.journal.agent().stacks().iter().filter_map(|stack| stack.last());
        tops.filter(|top| top.status == Status::Waiting).map(|top| top.id).collect()
    }

    /// An outcome for an instance that waits, or a cycle where none does.
    fn outcome(&mut self, worked: usize) {
        let waiting = self.waiting();
        if waiting.is_empty() {
            return self.line(b"C");
        }
        let id = *self.random.pick(&waiting);
        let padded = self.padded();
        let id = self.number(id, 10, padded);
        let worked = u8::from(self.random.percent(worked));
        self.line(format!("O {id} {worked}").as_bytes());
    }

    /// A readable line that is refused, as a rule.
    fn refused(&mut self) {
        match self.random.below(4) {
            0 => {
                let kind = *self.random.pick(&[3, 4, 5, 255, 256, 32_768, 65_535]);
                let literal = self.words.ground(self.random, &self.words.facts);
                self.report_of(kind, &literal);
            }
            1 => {
                let mut literal = self.words.ground(self.random, &self.words.facts);
                literal[self.random.between(1, 3)] = V0 + self.random.below(8) as u16;
                debug_assert!(!is_ground(&literal));
                let kind = self.random.below(4) as u16;
                self.report_of(kind, &literal);
            }
            _ => {
                let live: Vec<Number> = self.journal.agent().stacks().iter().flatten().map(|instance| instance.id).collect();
                let any = self.random.number() as Number;
                let id = match self.random.below(3) {
                    0 if !live.is_empty() => *self.random.pick(&live),
                    1 => *self.random.pick(&[0, 1, 2, 65_535, 65_536, Number::MAX, any]),
                    _ => self.random.below(40) as Number,
                };
                let worked = self.random.below(2);
                self.line(format!("O {id} {worked}").as_bytes());
            }
        }
    }

    fn unreadable(&mut self) {
        if self.random.percent(10) {
            return self.changed();
        }
        let count = unreadable::KINDS.len() - usize::from(!self.random.percent(5));
        let (name, line) = unreadable::KINDS[self.random.below(count)];
        self.coverage.note(name);
        let line = line(self.random);
        self.line(&line);
    }

    /// A readable line with one byte changed, added or taken out, readable or not.
    fn changed(&mut self) {
        let lines: [&[u8]; 4] = [b"P 0 +1 1 0 0", b"P 65535 -32767 65527 10 0", b"O 1 1", b"C"];
        let mut line = self.random.pick(&lines).to_vec();
        let place = self.random.below(line.len());
        let byte = *self.random.pick(b"0123456789 +-POC\0\r\t\x7f\x80\xff/:");
        match self.random.below(3) {
            0 => line[place] = byte,
            1 => line.insert(place, byte),
            _ => drop(line.remove(place)),
        }
        self.coverage.note("one byte of a line changed");
        self.line(&line);
    }
}
