//! Literals get their numbers: names, types and variables of one plan, or of the initial beliefs.

use super::ast::*;
use super::constants;
use super::declared::*;
use super::source::{counted, nearest, Faults, Place};
use crate::library::*;
use crate::names::role_words;

/// A literal with its numbers, and where its name and terms stand.
#[derive(Clone, Debug)]
pub struct Spot {
    pub literal: Literal,
    pub place: Place,
    pub terms: [Place; MOST_TERMS],
}

#[derive(Clone, Debug)]
pub struct Variable {
    pub name: String,
    /// The types of the places where it stands, with the first place of each.
    pub types: Vec<(usize, Place)>,
}

/// What may stand at a place: its roles, the one that comes to mind first, and a sentence that says so.
pub struct Wanted<'a> {
    pub roles: u8,
    pub first: u8,
    pub words: &'a str,
}

/// The names that a plan's literals are read with.
pub struct Scope<'a> {
    pub declared: &'a Declared,
    pub faults: &'a mut Faults,
    /// The variables by number; none of them in an initial belief.
    pub variables: [Option<Variable>; MOST_VARIABLES],
    /// Numbers kept for variables that are written as V0 to V7.
    reserved: u8,
    takes_variables: bool,
    /// Whether a ninth variable was told.
    full: bool,
    /// Whether every predicate was known.
    pub is_whole: bool,
}

/// Stands for a predicate that is not declared; the fault is told, and no library is written.
const UNKNOWN: u16 = u16::MAX;

/// The number of a variable that is written as V0 to V7.
pub fn numbered(name: &str) -> Option<usize> {
    let digit = name.strip_prefix('V')?;
    (digit.len() == 1).then(|| digit.parse().ok()).flatten().filter(|number| *number < MOST_VARIABLES)
}

impl<'a> Scope<'a> {
    pub fn of_beliefs(declared: &'a Declared, faults: &'a mut Faults) -> Self {
        Scope {
            declared,
            faults,
            variables: Default::default(),
            reserved: 0,
            takes_variables: false,
            full: false,
            is_whole: true,
        }
    }

    pub fn of_plan(declared: &'a Declared, faults: &'a mut Faults, plan: &PlanTree) -> Self {
        let mut scope = Scope { takes_variables: true, ..Scope::of_beliefs(declared, faults) };
        super::walk::variable_names(plan, &mut |name| scope.reserved |= numbered(name).map_or(0, |number| 1 << number));
        for (place, word) in plan.variables.iter().enumerate() {
            if scope.variable(&word.text, word.place).is_some_and(|number| number != place) {
                let text = format!("{} stands at the place of V{place}, and has another number", word.text);
                scope.faults.error(word.place, text, &["V0 to V7 have their own numbers, and a name stands once".into()]);
            }
        }
        scope
    }

    /// The literal's numbers.
    pub fn literal(&mut self, tree: &LiteralTree, wanted: &Wanted) -> Spot {
        let predicate = self.predicate(tree, wanted).map(|place| &self.declared.predicates[place]);
        let types = predicate.map_or(&[][..], |known| &known.types);
        let mut terms = [0; MOST_TERMS];
        let mut places = [tree.name.place; MOST_TERMS];
        for (at, (term, place)) in tree.terms.iter().enumerate() {
            let value = self.term(term, types.get(at).copied().unwrap_or(0), *place, &tree.name.text);
            if at < MOST_TERMS {
                (terms[at], places[at]) = (value, *place);
            }
        }
        if let Some(known) = predicate.filter(|known| known.types.len() != tree.terms.len()) {
            let given = if tree.terms.len() == 1 { "is 1".into() } else { format!("are {}", tree.terms.len()) };
            let text = format!("{} takes {}, and here {given}", known.name, counted(types.len(), "term"));
            let hint = format!("declared at line {}: {}", known.place.line, self.declared.signature(known));
            self.faults.error(tree.name.place, text, &[hint]);
        }
        let literal = Literal { negative: tree.negative, predicate: predicate.map_or(UNKNOWN, |known| known.number), terms };
        Spot { literal, place: tree.name.place, terms: places }
    }

    fn predicate(&mut self, tree: &LiteralTree, wanted: &Wanted) -> Option<usize> {
        let (word, first) = (&tree.name, role_words(wanted.first, ""));
        let Some(place) = self.declared.predicate(&word.text) else {
            let fitting = self.declared.predicates.iter().filter(|known| known.roles & wanted.roles != 0);
            let mut hints = nearest(&word.text, fitting.map(|known| known.name.as_str()));
            if hints.is_empty() {
                hints = vec![format!("declare it: {first} {}{} = NUMBER", word.text, blanks(tree))];
            }
            let roles = role_words(wanted.roles, " or ").replace("told", "told event");
            self.faults.error(word.place, format!("no {roles} '{}'", word.text), &hints);
            self.is_whole = false;
            return None;
        };
        let predicate = &self.declared.predicates[place];
        if predicate.roles & wanted.roles == 0 {
            let roles = article(&predicate.role_words()).replace("told", "told event");
            let text = format!("{} is declared as {roles}, and {}", word.text, wanted.words);
            let both =
                format!("'{} and {first} {}' would make it both", predicate.role_words(), self.declared.signature(predicate));
            let noted = format!("write 'note {}(..)' in a done or failed list", word.text);
            let hint =
                format!("declared at line {}; {}", predicate.place.line, if predicate.roles == NOTE { noted } else { both });
            self.faults.error(word.place, text, &[hint]);
        }
        Some(place)
    }

    pub fn term(&mut self, term: &TermTree, of: usize, place: Place, predicate: &str) -> Term {
        match term {
            TermTree::Number(value) => constants::number(self.declared, *value, of, place, self.faults),
            TermTree::Word(word) => constants::word(self.declared, word, of, place, self.faults),
            TermTree::Variable(name) => self.variable_term(name, of, place, predicate),
            TermTree::Anything => self.variable_term("_", of, place, predicate),
        }
    }

    fn variable_term(&mut self, name: &str, of: usize, place: Place, predicate: &str) -> Term {
        if !self.takes_variables {
            self.faults.error(place, format!("{name} is a variable, and an initial belief has none"), &[]);
            return 0;
        }
        let Some(number) = self.variable(name, place) else { return 0 };
        self.agree(number, of, place, predicate);
        FIRST_VARIABLE + number as u16
    }

    /// The number of a variable, given out at its first use; none for a ninth one. One with a type's name is of that type.
    pub fn variable(&mut self, name: &str, place: Place) -> Option<usize> {
        let known = |held: &Option<Variable>| held.as_ref().is_some_and(|variable| variable.name == name && name != "_");
        if let Some(number) = self.variables.iter().position(known) {
            return Some(number);
        }
        let is_free = |number: &usize| self.variables[*number].is_none() && self.reserved >> number & 1 == 0;
        let Some(number) = numbered(name).or_else(|| (0..MOST_VARIABLES).find(is_free)) else {
            if !self.full {
                let names: Vec<&str> = self.variables.iter().flatten().map(|variable| variable.name.as_str()).collect();
                let text = format!(
                    "{name} is one variable too many: a plan has at most {MOST_VARIABLES}, and here are {}",
                    names.join(", ")
                );
                self.faults.error(place, text, &["let a goal of its own do a part of the plan".into()]);
            }
            self.full = true;
            return None;
        };
        let named = self.declared.types.iter().enumerate().find(|(_, known)| known.name == name && !known.is_any());
        let types = named.map(|(place, known)| (place, known.place)).into_iter().collect();
        self.variables[number] = Some(Variable { name: name.into(), types });
        Some(number)
    }

    /// A variable's types must be the same, or parts of one another.
    fn agree(&mut self, number: usize, of: usize, place: Place, predicate: &str) {
        let declared = self.declared;
        let Some(variable) = self.variables[number].as_mut() else { return };
        if of == 0 || variable.types.iter().any(|(other, _)| *other == of) {
            return;
        }
        let differs = variable.types.iter().find(|(other, _)| !declared.agree(*other, of));
        if let Some((other, first)) = differs {
            let (other, wanted) = (&declared.types[*other].name, &declared.types[of].name);
            let text = format!("{} is a {other} (line {}), and {predicate} takes a {wanted} here", variable.name, first.line);
            let known = declared.predicate(predicate).map(|place| &declared.predicates[place]);
            let hint = known.map(|known| format!("declared at line {}: {}", known.place.line, declared.signature(known)));
            self.faults.error(place, text, hint.as_slice());
        } else {
            variable.types.push((of, place));
        }
    }
}

/// "a fact", "an action".
pub fn article(word: &str) -> String {
    format!("{} {word}", if word.starts_with(['a', 'e', 'i', 'o', 'u']) { "an" } else { "a" })
}

fn blanks(tree: &LiteralTree) -> String {
    let types = vec!["Any"; tree.terms.len().min(MOST_TERMS)];
    if types.is_empty() {
        String::new()
    } else {
        format!("({})", types.join(", "))
    }
}
