//! The lines of a journal, read by themselves.

use crate::draft::Literal;
use std::str::FromStr;

/// A line in.
#[derive(Clone, Copy, Debug, PartialEq, Eq)]
pub enum Call {
    Report(u16, Literal),
    Cycle,
    Outcome(u32, bool),
}

/// A line out, without its changes. Three numbers are an instance, a state and a branch.
#[derive(Clone, Copy, Debug, PartialEq, Eq)]
pub enum Letter {
    T(u32),
    I,
    N(u32, u32),
    U([u32; 3], u32),
    /// The id, the plan, whether it serves an external event, and that event or the poster.
    M(u32, u32, bool, u32),
    S([u32; 3], u32),
    B([u32; 3]),
    D([u32; 3], Literal),
    G([u32; 3]),
    E(u32),
    F(u32),
    X(u32),
}

#[derive(Clone, Copy, Debug, PartialEq, Eq)]
pub struct Change {
    pub add: bool,
    pub literal: Literal,
}

#[derive(Clone, Debug, PartialEq, Eq)]
pub struct Answer {
    pub letter: Letter,
    pub changes: Vec<Change>,
}

/// The lines of some text; what stands after the last newline is one unless it is nothing.
pub fn lines(text: &[u8]) -> Vec<&[u8]> {
    let mut lines: Vec<&[u8]> = text.split(|byte| *byte == b'\n').collect();
    lines.pop_if(|last| last.is_empty());
    lines
}

/// The words of a line, read one after another.
struct Words<'a> {
    words: std::str::Split<'a, char>,
    /// Whether numbers must be as they are printed, without leading zeros.
    printed: bool,
}

impl<'a> Words<'a> {
    fn new(line: &'a [u8], printed: bool) -> Option<Self> {
        Some(Words { words: std::str::from_utf8(line).ok()?.split(' '), printed })
    }

    fn word(&mut self) -> Option<&'a str> {
        self.words.next()
    }

    fn digits<T: FromStr>(&self, word: &str, most: usize) -> Option<T> {
        let plain = (1..=most).contains(&word.len()) && word.bytes().all(|byte| byte.is_ascii_digit());
        let shown = !self.printed || word == "0" || !word.starts_with('0');
        if plain && shown { word.parse().ok() } else { None }
    }

    /// A number of an event or an instance, or one that is smaller.
    fn number(&mut self) -> Option<u32> {
        let word = self.word()?;
        self.digits(word, 10)
    }

    /// A kind or a term.
    fn stored(&mut self) -> Option<u16> {
        let word = self.word()?;
        self.digits(word, 5)
    }

    fn flag(&mut self) -> Option<bool> {
        let word = self.word()?;
        if word == "1" { Some(true) } else { (word == "0").then_some(false) }
    }

    fn place(&mut self) -> Option<[u32; 3]> {
        Some([self.number()?, self.number()?, self.number()?])
    }

    fn literal(&mut self) -> Option<Literal> {
        let word = self.word()?;
        let (negative, predicate) = match word.strip_prefix('-') {
            Some(rest) => (32_768, rest),
            None => (0, word.strip_prefix('+')?),
        };
        let predicate = self.digits(predicate, 5).filter(|predicate: &u16| *predicate <= 32_767)?;
        Some([predicate + negative, self.stored()?, self.stored()?, self.stored()?])
    }
}

/// The call of a line, if it can be read.
pub fn call(line: &[u8]) -> Option<Call> {
    let mut words = Words::new(line, false)?;
    let call = match words.word()? {
        "P" => Call::Report(words.stored()?, words.literal()?),
        "C" => Call::Cycle,
        "O" => Call::Outcome(words.number()?, words.flag()?),
        _ => return None,
    };
    if words.word().is_none() { Some(call) } else { None }
}

/// The answer on a line, if it is one.
pub fn answer(line: &[u8]) -> Option<Answer> {
    let mut words = Words::new(line, true)?;
    let letter = match words.word()? {
        "T" => Letter::T(words.number()?),
        "I" => Letter::I,
        "N" => Letter::N(words.number()?, words.number()?),
        "U" => Letter::U(words.place()?, words.number()?),
        "M" => {
            let (id, plan) = (words.number()?, words.number()?);
            let external = match words.word()? {
                "e" => true,
                "g" => false,
                _ => return None,
            };
            Letter::M(id, plan, external, words.number()?)
        }
        "S" => Letter::S(words.place()?, words.number()?),
        "B" => Letter::B(words.place()?),
        "D" => Letter::D(words.place()?, words.literal()?),
        "G" => Letter::G(words.place()?),
        "E" => Letter::E(words.number()?),
        "F" => Letter::F(words.number()?),
        "X" => Letter::X(words.number()?),
        _ => return None,
    };
    let mut changes = vec![];
    while let Some(word) = words.word() {
        let add = match word {
            "a" => true,
            "r" => false,
            _ => return None,
        };
        changes.push(Change { add, literal: words.literal()? });
    }
    Some(Answer { letter, changes })
}

/// The initial beliefs of an accepted library.
pub fn beliefs(library: &[u8]) -> Vec<Literal> {
    let number = |at: usize| u16::from_le_bytes([library[at], library[at + 1]]);
    let front = 4 + 4 * usize::from(number(0));
    let literal = |place: usize| [0, 2, 4, 6].map(|byte| number(front + 8 * place + byte));
    (0..number(2).into()).map(literal).collect()
}
