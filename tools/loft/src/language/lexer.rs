//! A source's words: names, variables, numbers, texts and signs.

use super::source::{Faults, Place};

#[derive(Clone, PartialEq, Eq, Debug)]
pub enum Kind {
    /// Begins with a small letter: a name or a word of the language.
    Name,
    /// Begins with a capital letter: a variable or a type; `_` is one too.
    Variable,
    /// A number, with its value; too large ones have the largest.
    Number(u64),
    /// What stands between quotes.
    Text,
    /// One of `SIGNS`.
    Sign,
    End,
}

#[derive(Clone, PartialEq, Eq, Debug)]
pub struct Token {
    pub kind: Kind,
    pub text: String,
    pub place: Place,
    /// Whether it is the first of its line.
    pub leads: bool,
}

const SIGNS: [&str; 10] = ["..", "->", "(", ")", "{", "}", ",", "=", "|", "~"];
const COMMENT: &str = "--";

/// The words of a source; characters that belong to none are faults.
pub fn tokens(source: &str, faults: &mut Faults) -> Vec<Token> {
    let mut tokens = vec![];
    let mut line = 0;
    for row in source.lines() {
        line += 1;
        Row { characters: row.chars().collect(), at: 0, line }.tokens(&mut tokens, faults);
    }
    let place =
        Place { line: line.max(1), column: source.lines().last().map_or(0, |row| row.chars().count()) as u32 + 1, length: 1 };
    tokens.push(Token { kind: Kind::End, text: "the end of the file".into(), place, leads: true });
    tokens
}

struct Row {
    characters: Vec<char>,
    at: usize,
    line: u32,
}

impl Row {
    fn tokens(&mut self, tokens: &mut Vec<Token>, faults: &mut Faults) {
        let mut leads = true;
        while let Some(first) = self.characters.get(self.at).copied() {
            if first.is_whitespace() {
                self.at += 1;
                continue;
            }
            if self.begins(COMMENT) {
                return;
            }
            let start = self.at;
            let kind = self.kind(first);
            let text: String = self.characters[start..self.at].iter().collect();
            let place = Place { line: self.line, column: start as u32 + 1, length: (self.at - start) as u32 };
            match kind {
                Ok(kind) => tokens.push(Token { kind: valued(kind, &text), text, place, leads }),
                Err(hint) => faults.error(place, format!("'{text}' begins nothing in this language"), &hint),
            }
            leads = false;
        }
    }

    fn begins(&self, sign: &str) -> bool {
        self.characters[self.at..].iter().copied().take(sign.len()).eq(sign.chars())
    }

    /// Takes the token that begins here; an error holds hints.
    fn kind(&mut self, first: char) -> Result<Kind, Vec<String>> {
        if first.is_ascii_alphabetic() || first == '_' {
            self.take_while(|c| c.is_ascii_alphanumeric() || c == '_');
            return Ok(if first.is_ascii_lowercase() { Kind::Name } else { Kind::Variable });
        }
        if first.is_ascii_digit() {
            self.take_while(|c| c.is_ascii_digit());
            return Ok(Kind::Number(0));
        }
        if let Some(sign) = SIGNS.iter().find(|sign| self.begins(sign)) {
            self.at += sign.len();
            return Ok(Kind::Sign);
        }
        self.at += 1;
        if first == '"' {
            self.take_while(|c| c != '"');
            let closed = self.at < self.characters.len();
            self.at += usize::from(closed);
            return if closed { Ok(Kind::Text) } else { Err(vec!["a text ends with \" on the same line".into()]) };
        }
        Err(hint_for(first))
    }

    fn take_while(&mut self, is_part: impl Fn(char) -> bool) {
        while self.characters.get(self.at).is_some_and(|c| is_part(*c)) {
            self.at += 1;
        }
    }
}

fn valued(kind: Kind, text: &str) -> Kind {
    match kind {
        Kind::Number(_) => Kind::Number(text.parse().unwrap_or(u64::MAX)),
        other => other,
    }
}

fn hint_for(first: char) -> Vec<String> {
    let hint = match first {
        ';' => "steps stand one after another, with nothing between them",
        '#' | '/' => "a comment begins with --",
        '-' => "names have _ between their words, and a denial is written ~",
        '!' | '¬' => "a denial is written ~",
        '\'' => "a text stands between \" and \"",
        _ => return vec![],
    };
    vec![hint.into()]
}
