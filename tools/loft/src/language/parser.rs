//! Words to trees: the file's items. A fault skips to the next item or step, so that one run finds them all.

use super::ast::*;
use super::lexer::{Kind, Token};
use super::source::{nearest, Faults, Place};
use crate::names::{ANY, ROLES};

/// Words that no name may be.
const RESERVED: &str =
    "cell type fact note told goal action start plan unchecked variables on gained lost to achieve answer if or and not \
                        always never with least while do ask add remove divide by into either up times at most done failed lock";
const ITEMS: [&str; 10] = ["cell", "type", "fact", "note", "told", "goal", "action", "start", "plan", "unchecked"];

fn is_reserved(word: &str) -> bool {
    RESERVED.split_whitespace().any(|reserved| reserved == word)
}

/// A fault that has been told; the caller skips on.
pub struct Told;
pub type Answer<T> = Result<T, Told>;

pub struct Parser<'a> {
    tokens: Vec<Token>,
    at: usize,
    /// How many `either` stand around the next token.
    pub depth: usize,
    pub faults: &'a mut Faults,
}

pub fn parse(tokens: Vec<Token>, faults: &mut Faults) -> FileTree {
    let mut parser = Parser { tokens, at: 0, depth: 0, faults };
    let mut file = FileTree::default();
    while !parser.is_at_end() {
        let start = parser.at;
        if parser.item(&mut file).is_err() {
            parser.skip_item(start);
        }
    }
    file
}

// ---- Tokens

impl Parser<'_> {
    pub fn token(&self) -> &Token {
        &self.tokens[self.at.min(self.tokens.len() - 1)]
    }

    pub fn next_token(&self) -> &Token {
        &self.tokens[(self.at + 1).min(self.tokens.len() - 1)]
    }

    pub fn place(&self) -> Place {
        self.token().place
    }

    pub fn is_at_end(&self) -> bool {
        self.token().kind == Kind::End
    }

    pub fn advance(&mut self) -> Token {
        let token = self.token().clone();
        self.at += usize::from(!self.is_at_end());
        token
    }

    /// Whether the next token is this word or sign.
    pub fn sees(&self, text: &str) -> bool {
        let token = self.token();
        matches!(token.kind, Kind::Name | Kind::Sign) && token.text == text
    }

    pub fn takes(&mut self, text: &str) -> bool {
        let seen = self.sees(text);
        self.at += usize::from(seen);
        seen
    }

    pub fn expect(&mut self, text: &str) -> Answer<()> {
        if self.takes(text) {
            Ok(())
        } else {
            self.unexpected_in_line(&format!("'{text}'"), &[])
        }
    }

    /// Tells that something else was wanted on this line; at its end where the next token begins another.
    pub fn unexpected_in_line<T>(&mut self, wanted: &str, hints: &[String]) -> Answer<T> {
        if !self.token().leads || self.at == 0 {
            return self.unexpected(wanted, hints);
        }
        let last = self.tokens[self.at - 1].place;
        let place = Place { column: last.column + last.length, length: 1, ..last };
        self.faults.error(place, format!("expected {wanted}, found the end of the line"), hints);
        Err(Told)
    }

    /// Tells that something else was wanted here.
    pub fn unexpected<T>(&mut self, wanted: &str, hints: &[String]) -> Answer<T> {
        let token = self.token();
        let found = if token.kind == Kind::End { token.text.clone() } else { format!("'{}'", token.text) };
        let place = token.place;
        self.faults.error(place, format!("expected {wanted}, found {found}"), hints);
        Err(Told)
    }

    /// A name that the author chooses; `what` says of what.
    pub fn name(&mut self, what: &str) -> Answer<Word> {
        let token = self.token().clone();
        match token.kind {
            Kind::Name if is_reserved(&token.text) && !token.leads => {
                self.advance();
                let text = format!("'{}' is a word of the language, and cannot name {what}", token.text);
                self.faults.error(token.place, text, &[]);
                Err(Told)
            }
            Kind::Name if !is_reserved(&token.text) => {
                self.advance();
                Ok(Word { text: token.text, place: token.place })
            }
            Kind::Variable => {
                self.unexpected_in_line(&format!("the name of {what}"), &["names begin with a small letter".into()])
            }
            _ => self.unexpected_in_line(&format!("the name of {what}"), &[]),
        }
    }

    pub fn capital(&mut self, what: &str) -> Answer<Word> {
        let token = self.token().clone();
        if token.kind != Kind::Variable || token.text.starts_with('_') {
            return self.unexpected_in_line(what, &["it begins with a capital letter".into()]);
        }
        self.advance();
        Ok(Word { text: token.text, place: token.place })
    }

    pub fn number(&mut self, what: &str) -> Answer<(u64, Place)> {
        match self.token().kind {
            Kind::Number(value) => Ok((value, self.advance().place)),
            _ => self.unexpected_in_line(what, &[]),
        }
    }

    /// Whether the next token begins an item: one of its words, first on its line.
    pub fn sees_item(&self) -> bool {
        let token = self.token();
        token.kind == Kind::End || token.leads && token.kind == Kind::Name && ITEMS.contains(&token.text.as_str())
    }

    /// Skips to the next item; past the first token where nothing of the item could be read.
    fn skip_item(&mut self, start: usize) {
        if self.at == start {
            self.advance();
        }
        while !self.sees_item() && !self.sees_misspelt_item() {
            self.advance();
        }
    }

    /// Whether the next token is a name at a line's very beginning, where items begin.
    fn sees_misspelt_item(&self) -> bool {
        let token = self.token();
        token.leads && token.kind == Kind::Name && token.place.column == 1
    }
}

// ---- Items

impl Parser<'_> {
    fn item(&mut self, file: &mut FileTree) -> Answer<()> {
        let token = self.token().clone();
        match token.text.as_str() {
            "cell" => {
                self.advance();
                file.cell = self.title()?;
            }
            "type" => {
                self.advance();
                self.type_item(&mut file.types)?;
            }
            "start" => {
                self.advance();
                self.start(&mut file.start)?;
            }
            "plan" | "unchecked" => file.plans.push(self.plan()?),
            word if token.kind == Kind::Name && ROLES.contains(&word) => file.predicates.push(self.predicate()?),
            word => {
                let hints = nearest(word, ITEMS);
                return self.unexpected("a type, a fact, a note, a told event, a goal, an action, start or a plan", &hints);
            }
        }
        Ok(())
    }

    fn title(&mut self) -> Answer<String> {
        if self.token().kind != Kind::Text {
            return self.unexpected("the cell's name between \" and \"", &[]);
        }
        Ok(self.advance().text.trim_matches('"').to_string())
    }

    /// A type; one that cannot be read to its end has any constants, so that its uses are no faults.
    fn type_item(&mut self, types: &mut Vec<TypeTree>) -> Answer<()> {
        let name = self.capital("the type's name")?;
        let any = Word { text: ANY.into(), place: name.place };
        match self.type_constants() {
            Ok(constants) => types.push(TypeTree { name, constants }),
            Err(told) => {
                types.push(TypeTree { name, constants: vec![ConstantTree::All(any)] });
                return Err(told);
            }
        }
        Ok(())
    }

    fn type_constants(&mut self) -> Answer<Vec<ConstantTree>> {
        self.expect("=")?;
        let mut constants = vec![self.type_constant()?];
        while self.takes("|") {
            constants.push(self.type_constant()?);
        }
        Ok(constants)
    }

    fn type_constant(&mut self) -> Answer<ConstantTree> {
        if self.token().kind == Kind::Variable {
            return self.capital("a type").map(ConstantTree::All);
        }
        if self.token().kind == Kind::Name && !self.sees_item() {
            let word = self.name("a constant")?;
            let Kind::Number(value) = self.token().kind else {
                return self
                    .unexpected_in_line("the number of this constant", &["each name has a number: white 1 | tan 2".into()]);
            };
            return Ok(ConstantTree::Named(word, value, self.advance().place));
        }
        let (first, place) = self.number("a range such as 1..8, a name and its number, or a type")?;
        let (last, end) = if self.takes("..") { self.number("the last number of the range")? } else { (first, place) };
        Ok(ConstantTree::Range(first, last, if last > first { end } else { place }))
    }

    fn predicate(&mut self) -> Answer<PredicateTree> {
        let roles = self.roles()?;
        let name = self.name("a predicate")?;
        let mut types = vec![];
        if self.takes("(") {
            types.push(self.capital("a type")?);
            while self.takes(",") {
                types.push(self.capital("a type")?);
            }
            self.expect(")")?;
        }
        if !self.sees("=") {
            let hint = "every predicate has a number of its own, which devices and ledgers use: fact in_rack(Bolt, Rack) = 1";
            return self.unexpected_in_line("'=' and a number", &[hint.into()]);
        }
        self.advance();
        let number = self.number("a number")?;
        let mut most = None;
        if self.takes("at") {
            self.expect("most")?;
            most = Some(self.number("how many")?);
        }
        Ok(PredicateTree { name, roles, types, number, most })
    }

    /// One role or several: `fact and told`.
    fn roles(&mut self) -> Answer<u8> {
        let mut roles = 0;
        loop {
            let token = self.token().clone();
            let Some(role) = ROLES.iter().position(|role| *role == token.text) else {
                return self.unexpected("fact, note, told, goal or action", &nearest(&token.text, ROLES));
            };
            self.advance();
            roles |= 1 << role;
            if !self.takes("and") {
                return Ok(roles);
            }
        }
    }

    fn start(&mut self, beliefs: &mut Vec<LiteralTree>) -> Answer<()> {
        self.expect("{")?;
        while !self.takes("}") {
            if self.sees_item() {
                return self.unexpected("a fact or '}'", &[]);
            }
            beliefs.push(self.literal("a fact")?);
            self.takes(",");
        }
        Ok(())
    }
}
