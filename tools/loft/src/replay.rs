//! A stored journal replayed: each line in goes through the model, and the model's answer is compared with the stored one.

use crate::journal::{self, Lines, Read};
use crate::library::Library;
use crate::model::step::Step;
use crate::model::{Agent, Call};
use crate::{FAULTS, FINE};
use std::io;
use std::path::Path;

/// A line that the journal and the model agree on.
pub struct Entry<'a> {
    pub number: u64,
    pub call: &'a [u8],
    pub answer: &'a [u8],
    pub step: Step,
}

/// What a disagreement may mean.
const OTHER_JOURNAL: &str = "\
Either the journal belongs to another library or input, or a line was lost or changed.
'loft audit' runs the program on the input and says which.";
const EXCHANGED: &str = "The journal's line is a call: are the input and the output exchanged?";

/// How a journal ends.
#[derive(Clone, Debug, PartialEq, Eq)]
pub enum Ending {
    Whole,
    /// Lines in that have no answer.
    Unanswered(u64),
    /// The last answer has no newline; what is there agrees so far.
    Torn {
        stored: Vec<u8>,
        whole: Vec<u8>,
    },
    /// There are answers beyond the lines in.
    Beyond(Vec<u8>),
    Disagrees {
        call: Vec<u8>,
        stored: Vec<u8>,
        model: Vec<u8>,
    },
}

pub enum Next<'a> {
    Line(Entry<'a>),
    End(Ending),
}

/// Replays the lines of an input file beside those of an output file.
pub struct Replay<'a> {
    agent: Agent<'a>,
    input: Lines,
    output: Lines,
    number: u64,
    call: Vec<u8>,
    answer: Vec<u8>,
    printed: Vec<u8>,
}

impl<'a> Replay<'a> {
    pub fn open(library: &'a Library, input: &Path, output: &Path, follow: bool) -> Result<Self, String> {
        let (input, output) = (Lines::open(input, follow)?, Lines::open(output, follow)?);
        let agent = Agent::new(library);
        Ok(Replay { agent, input, output, number: 0, call: vec![], answer: vec![], printed: vec![] })
    }

    /// How many lines were agreed on.
    pub fn lines(&self) -> u64 {
        self.number
    }

    pub fn agent(&self) -> &Agent<'a> {
        &self.agent
    }

    pub fn next(&mut self) -> io::Result<Next<'_>> {
        let called = self.input.next(&mut self.call)?;
        if called == Read::End {
            let more = self.output.next(&mut self.answer)? != Read::End;
            return Ok(Next::End(if more { Ending::Beyond(self.answer.clone()) } else { Ending::Whole }));
        }
        let answered = self.output.next(&mut self.answer)?;
        if answered == Read::End {
            return Ok(Next::End(Ending::Unanswered(1 + self.count_calls()?)));
        }
        let step = self.agent.call(&journal::call(&self.call));
        self.printed.clear();
        journal::print(&step, &mut self.printed);
        if answered == Read::Torn && self.printed.starts_with(&self.answer) {
            return Ok(Next::End(Ending::Torn { stored: self.answer.clone(), whole: self.printed.clone() }));
        }
        if self.answer != self.printed {
            let (call, stored, model) = (self.call.clone(), self.answer.clone(), self.printed.clone());
            return Ok(Next::End(Ending::Disagrees { call, stored, model }));
        }
        self.number += 1;
        Ok(Next::Line(Entry { number: self.number, call: &self.call, answer: &self.answer, step }))
    }

    fn count_calls(&mut self) -> io::Result<u64> {
        let mut count = 0;
        while self.input.next(&mut self.call)? != Read::End {
            count += 1;
        }
        Ok(count)
    }
}

/// A line as it is shown in a message.
pub fn shown(line: &[u8]) -> String {
    const MOST_SHOWN: usize = 120;
    let start: String = String::from_utf8_lossy(line).chars().take(MOST_SHOWN).collect();
    let escaped: String = start
        .chars()
        .flat_map(|letter| if letter.is_control() { letter.escape_default().collect() } else { vec![letter] })
        .collect();
    let rest = if line.len() > MOST_SHOWN { ".." } else { "" };
    format!("'{escaped}{rest}'")
}

impl Ending {
    /// Says how the journal ends where it is not whole; the exit status.
    pub fn status(&self, agreed: u64) -> i32 {
        if let Some(told) = self.told(agreed) {
            eprintln!("{told}");
        }
        if matches!(self, Ending::Whole | Ending::Unanswered(_)) {
            FINE
        } else {
            FAULTS
        }
    }

    /// What the ending means; none where the journal is whole. `agreed` lines came before.
    fn told(&self, agreed: u64) -> Option<String> {
        let line = agreed + 1;
        let before = if agreed > 0 { "The lines before agree. " } else { "" };
        match self {
            Ending::Whole => None,
            Ending::Unanswered(count) => Some(format!(
                "the journal ends here: {count} {} not answered, from line {line} on",
                if *count == 1 { "line of the input is" } else { "lines of the input are" }
            )),
            Ending::Torn { stored, whole } => Some(format!(
                "line {line} is torn: the journal ends in {}, and the whole answer is {}",
                shown(stored),
                shown(whole)
            )),
            Ending::Beyond(answer) => {
                Some(format!("line {line}: the journal has an answer, {}, and the input has no such line", shown(answer)))
            }
            Ending::Disagrees { call, stored, model } => Some(format!(
                "line {line}: the journal disagrees with the model\n  in      {}\n  journal {}\n  model   {}\n{before}{}",
                shown(call),
                shown(stored),
                shown(model),
                if journal::call(stored) == Call::Unreadable { OTHER_JOURNAL } else { EXCHANGED }
            )),
        }
    }
}
