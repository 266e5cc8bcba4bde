//! Types and predicates: what names mean, and the faults of their declarations.

use super::ast::*;
use super::source::{nearest, Faults, Place};
use crate::library::*;
use crate::names::{role_words, ANY};
use std::collections::HashMap;

/// Bits of `names::ROLES`.
pub const FACT: u8 = 1;
pub const NOTE: u8 = 2;
pub const TOLD_EVENT: u8 = 4;
pub const GOAL: u8 = 8;
pub const ACTION: u8 = 16;

/// The place of `Any` among the types.
const ANY_TYPE: usize = 0;

#[derive(Clone, Debug)]
pub struct Type {
    pub name: String,
    pub place: Place,
    pub ranges: Vec<(u16, u16)>,
    pub words: Vec<(String, u16)>,
    /// The types whose constants it has all, those within them too, as places in `Declared::types`.
    pub parts: Vec<usize>,
}

#[derive(Clone, Debug)]
pub struct Predicate {
    pub name: String,
    pub place: Place,
    pub roles: u8,
    /// Places in `Declared::types`.
    pub types: Vec<usize>,
    pub number: u16,
    pub most: Option<u16>,
}

pub struct Declared {
    /// The first is `Any`.
    pub types: Vec<Type>,
    pub predicates: Vec<Predicate>,
    by_name: HashMap<String, usize>,
}

impl Type {
    fn any() -> Type {
        Type { name: ANY.into(), place: Place::default(), ranges: vec![(0, LARGEST_CONSTANT)], words: vec![], parts: vec![] }
    }

    pub fn is_any(&self) -> bool {
        self.place == Place::default()
    }

    fn spans(&self) -> impl Iterator<Item = (u16, u16)> + '_ {
        self.ranges.iter().copied().chain(self.words.iter().map(|(_, value)| (*value, *value)))
    }
}

impl Predicate {
    /// The roles in words: "fact and told".
    pub fn role_words(&self) -> String {
        role_words(self.roles, " and ")
    }
}

impl Declared {
    pub fn of(file: &FileTree, faults: &mut Faults) -> Declared {
        let mut declared = Declared { types: vec![Type::any()], predicates: vec![], by_name: HashMap::new() };
        file.types.iter().for_each(|tree| declared.add_type(tree, faults));
        let mut numbers = HashMap::new();
        file.predicates.iter().for_each(|tree| declared.add_predicate(tree, &mut numbers, faults));
        declared
    }

    pub fn predicate(&self, name: &str) -> Option<usize> {
        self.by_name.get(name).copied()
    }

    /// The type with its parts.
    fn with_parts(&self, of: usize) -> impl Iterator<Item = &Type> {
        std::iter::once(of).chain(self.types[of].parts.iter().copied()).map(|place| &self.types[place])
    }

    pub fn holds(&self, of: usize, constant: u16) -> bool {
        self.with_parts(of).flat_map(Type::spans).any(|(first, last)| first <= constant && constant <= last)
    }

    /// The named constants of a type and its parts.
    pub fn words(&self, of: usize) -> impl Iterator<Item = (&str, u16)> {
        self.with_parts(of).flat_map(|known| &known.words).map(|(word, value)| (word.as_str(), *value))
    }

    /// Whether a variable may stand at places of both types: they are the same, or one is a part of the other.
    pub fn agree(&self, one: usize, other: usize) -> bool {
        let has_part = |whole: usize, part: usize| whole == part || self.types[whole].parts.contains(&part);
        let is_within = |part: usize, whole: usize| has_part(whole, part) || has_part(whole, ANY_TYPE);
        is_within(one, other) || is_within(other, one)
    }

    /// How many constants a type has.
    pub fn size(&self, of: usize) -> u64 {
        let mut spans: Vec<(u16, u16)> = self.with_parts(of).flat_map(Type::spans).collect();
        spans.sort_unstable();
        let (mut size, mut next) = (0, 0u64);
        for (first, last) in spans {
            let (first, end) = (u64::from(first).max(next), u64::from(last) + 1);
            size += end.saturating_sub(first);
            next = next.max(end);
        }
        size
    }

    /// A type's constants as a declaration writes them.
    pub fn constants(&self, of: usize) -> String {
        let range = |(first, last): &(u16, u16)| if first == last { first.to_string() } else { format!("{first}..{last}") };
        let known = &self.types[of];
        let parts = known.parts.iter().map(|part| self.types[*part].name.clone());
        let words = known.words.iter().map(|(word, value)| format!("{word} {value}"));
        parts.chain(known.ranges.iter().map(range)).chain(words).collect::<Vec<_>>().join(" | ")
    }

    /// `in_rack(Bolt, Rack)`.
    pub fn signature(&self, predicate: &Predicate) -> String {
        let types: Vec<&str> = predicate.types.iter().map(|place| self.types[*place].name.as_str()).collect();
        if types.is_empty() {
            predicate.name.clone()
        } else {
            format!("{}({})", predicate.name, types.join(", "))
        }
    }

    fn add_type(&mut self, tree: &TypeTree, faults: &mut Faults) {
        if let Some(other) = self.types.iter().find(|known| known.name == tree.name.text) {
            let hint =
                if other.name == ANY { "Any has every constant".into() } else { format!("first at line {}", other.place.line) };
            faults.error(tree.name.place, format!("the type {} is declared twice", tree.name.text), &[hint]);
            return;
        }
        let mut new = Type { name: tree.name.text.clone(), place: tree.name.place, ranges: vec![], words: vec![], parts: vec![] };
        for constant in &tree.constants {
            match constant {
                ConstantTree::Range(first, last, place) => {
                    if let (Some(first), Some(last)) = (constant_of(*first, *place, faults), constant_of(*last, *place, faults)) {
                        if first > last {
                            faults.error(*place, format!("the range {first}..{last} is empty"), &[]);
                        }
                        new.ranges.push((first, last));
                    }
                }
                ConstantTree::Named(word, value, place) => add_word(&mut new, word, *value, *place, faults),
                ConstantTree::All(word) => self.add_part(&mut new, word, faults),
            }
        }
        self.types.push(new);
    }

    fn add_part(&self, to: &mut Type, word: &Word, faults: &mut Faults) {
        let part = self.type_named(word, faults);
        for part in std::iter::once(part).chain(self.types[part].parts.iter().copied()) {
            if !to.parts.contains(&part) {
                to.parts.push(part);
            }
        }
    }

    fn add_predicate(&mut self, tree: &PredicateTree, numbers: &mut HashMap<u64, usize>, faults: &mut Faults) {
        let name = &tree.name;
        if let Some(first) = self.predicate(&name.text) {
            let hint = format!("first at line {}", self.predicates[first].place.line);
            faults.error(name.place, format!("{} is declared twice", name.text), &[hint]);
            return;
        }
        let place = self.predicates.len();
        self.by_name.insert(name.text.clone(), place);
        let (number, at) = tree.number;
        if number > LARGEST_PREDICATE.into() {
            faults.error(at, format!("this number is over {LARGEST_PREDICATE}, the largest of a predicate"), &[]);
        } else if let Some(other) = numbers.insert(number, place).map(|other| &self.predicates[other]) {
            let hint = "a predicate with two uses is declared once: fact and told ready(..) = 5";
            let text = format!("{} and {} (line {}) have the same number {number}", name.text, other.name, other.place.line);
            faults.error(at, text, &[hint.into()]);
        }
        if tree.types.len() > MOST_TERMS {
            let hint = "split it: order(Panel, Sail) and panel_of(Panel, Cloth, Length)";
            let text = format!("{} has {} terms, and a literal has at most {MOST_TERMS}", name.text, tree.types.len());
            faults.error(name.place, text, &[hint.into()]);
        }
        let types = tree.types.iter().take(MOST_TERMS).map(|word| self.type_named(word, faults)).collect();
        let most = self.most(tree, faults);
        let number = number.min(LARGEST_PREDICATE.into()) as u16;
        self.predicates.push(Predicate { name: name.text.clone(), place: name.place, roles: tree.roles, types, number, most });
    }

    fn type_named(&self, word: &Word, faults: &mut Faults) -> usize {
        let found = self.types.iter().position(|known| known.name == word.text);
        found.unwrap_or_else(|| {
            let hints = nearest(&word.text, self.types.iter().map(|known| known.name.as_str()));
            let hints = if hints.is_empty() {
                vec![format!("declare it: type {} = ..; a part of another type stands before that one", word.text)]
            } else {
                hints
            };
            faults.error(word.place, format!("no type {}", word.text), &hints);
            0
        })
    }

    fn most(&self, tree: &PredicateTree, faults: &mut Faults) -> Option<u16> {
        let (most, place) = tree.most?;
        if tree.roles & FACT == 0 {
            faults.error(place, format!("{} is no fact, and 'at most' says how many beliefs there are", tree.name.text), &[]);
        } else if most == 0 || most > MOST_BELIEFS as u64 {
            faults.error(place, format!("at most {most}: the table holds 1 to {MOST_BELIEFS} beliefs"), &[]);
        }
        Some(most.min(MOST_BELIEFS as u64) as u16)
    }
}

fn add_word(to: &mut Type, word: &Word, value: u64, place: Place, faults: &mut Faults) {
    let Some(value) = constant_of(value, place, faults) else { return };
    if to.words.iter().any(|(other, _)| *other == word.text) {
        faults.error(word.place, format!("{} stands twice in {}", word.text, to.name), &[]);
    } else if let Some((other, _)) = to.words.iter().find(|(_, number)| *number == value) {
        faults.error(word.place, format!("{} and {other} have the same number {value}", word.text), &[]);
    } else {
        to.words.push((word.text.clone(), value));
    }
}

/// A number as a constant; a fault where it is too large or a variable's code.
pub fn constant_of(value: u64, place: Place, faults: &mut Faults) -> Option<u16> {
    if value > u64::from(u16::MAX) {
        faults.error(place, format!("this number is over {LARGEST_CONSTANT}, the largest constant"), &[]);
        return None;
    }
    if value > LARGEST_CONSTANT.into() {
        let variable = value - u64::from(FIRST_VARIABLE);
        let text = format!("{value} would be read as the variable V{variable}; constants end at {LARGEST_CONSTANT}");
        faults.error(place, text, &[]);
        return None;
    }
    Some(value as u16)
}
