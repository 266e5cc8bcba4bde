//! What `library.names` holds beside a library: names, types, source lines and the library's hash.
//! Every accessor works without names too: numbers and V0 to V7 are shown then.

use crate::library::*;

/// The roles that a predicate may be declared with, in the order of their bits.
pub const ROLES: [&str; 5] = ["fact", "note", "told", "goal", "action"];
/// Roles in words.
pub fn role_words(roles: u8, between: &str) -> String {
    let words = ROLES.iter().enumerate().filter(|(bit, _)| roles >> bit & 1 == 1).map(|(_, word)| *word);
    words.collect::<Vec<_>>().join(between)
}

/// The type of all constants.
pub const ANY: &str = "Any";

const FORMAT: &str = "loft-names 1";

#[derive(Clone, PartialEq, Eq, Debug, Default)]
pub struct TypeNames {
    pub name: String,
    /// First and last constant of each range.
    pub ranges: Vec<(u16, u16)>,
    /// Named constants.
    pub words: Vec<(String, u16)>,
    /// Other types whose constants it has all.
    pub parts: Vec<String>,
}

#[derive(Clone, PartialEq, Eq, Debug, Default)]
pub struct PredicateNames {
    pub number: u16,
    pub name: String,
    /// A bit for each of `ROLES`.
    pub roles: u8,
    pub most: Option<u16>,
    pub types: Vec<String>,
}

#[derive(Clone, PartialEq, Eq, Debug, Default)]
pub struct PlanNames {
    pub name: String,
    /// The line of the source where the plan begins.
    pub line: u32,
    pub unchecked: bool,
    /// Name and type of V0, V1 and so on.
    pub variables: Vec<(String, String)>,
    /// The source line of each branch of each state.
    pub lines: Vec<Vec<u32>>,
}

#[derive(Clone, PartialEq, Eq, Debug, Default)]
pub struct Names {
    pub cell: String,
    pub source: String,
    pub types: Vec<TypeNames>,
    pub predicates: Vec<PredicateNames>,
    pub plans: Vec<PlanNames>,
}

/// The hash of a library that its names are bound to: FNV-1a of 64 bits.
pub fn hash(library: &[u8]) -> u64 {
    library.iter().fold(0xcbf2_9ce4_8422_2325, |hash, byte| (hash ^ u64::from(*byte)).wrapping_mul(0x0000_0100_0000_01b3))
}

impl Names {
    pub fn none() -> Names {
        Names::default()
    }

    fn predicate(&self, number: u16) -> Option<&PredicateNames> {
        self.predicates.iter().find(|predicate| predicate.number == number)
    }

    pub fn plan(&self, plan: usize) -> String {
        self.plans.get(plan).map_or_else(|| format!("plan{plan}"), |names| names.name.clone())
    }

    pub fn variable(&self, plan: usize, variable: u8) -> String {
        let named = self.plans.get(plan).and_then(|names| names.variables.get(usize::from(variable)));
        named.map_or_else(|| format!("V{variable}"), |(name, _)| name.clone())
    }

    /// A constant that a plan's variable has, by the name that the variable's type gives it.
    pub fn value(&self, plan: usize, variable: u8, constant: u16) -> String {
        let named = self.plans.get(plan).and_then(|names| names.variables.get(usize::from(variable)));
        named.map_or_else(|| constant.to_string(), |(_, type_name)| self.constant(type_name, constant))
    }

    fn constant(&self, type_name: &str, constant: u16) -> String {
        let named = |name: &str| self.types.iter().find(|known| known.name == name);
        let parts = named(type_name).into_iter().flat_map(|known| known.parts.iter().filter_map(|part| named(part)));
        let words = named(type_name).into_iter().chain(parts).flat_map(|known| &known.words);
        let word = words.into_iter().find(|(_, value)| *value == constant);
        word.map_or_else(|| constant.to_string(), |(word, _)| word.clone())
    }

    /// The roles that a predicate is declared with, as bits of `ROLES`.
    pub fn roles(&self, predicate: u16) -> u8 {
        self.predicate(predicate).map_or(0, |names| names.roles)
    }

    /// The name of a predicate.
    pub fn symbol(&self, predicate: u16) -> String {
        self.predicate(predicate).map_or_else(|| format!("p{predicate}"), |names| names.name.clone())
    }

    /// A literal as the plan language writes it, with the plan's names for variables.
    pub fn literal(&self, literal: &Literal, plan: Option<usize>) -> String {
        let types = self.predicate(literal.predicate).map_or(&[][..], |names| &names.types);
        let used = literal.terms.iter().rposition(|term| *term != 0).map_or(0, |last| last + 1);
        let count = types.len().max(used).min(MOST_TERMS);
        let terms: Vec<String> =
            literal.terms[..count].iter().enumerate().map(|(place, term)| self.term(*term, types.get(place), plan)).collect();
        let sign = if literal.negative { "~" } else { "" };
        let name = self.symbol(literal.predicate);
        if terms.is_empty() {
            format!("{sign}{name}")
        } else {
            format!("{sign}{name}({})", terms.join(", "))
        }
    }

    fn term(&self, term: Term, type_name: Option<&String>, plan: Option<usize>) -> String {
        match (variable_of(term), plan, type_name) {
            (Some(variable), Some(plan), _) => self.variable(plan, variable),
            (Some(variable), None, _) => format!("V{variable}"),
            (None, _, Some(type_name)) => self.constant(type_name, term),
            (None, _, None) => term.to_string(),
        }
    }

    /// The source file and line of a branch.
    pub fn place(&self, plan: usize, state: usize, branch: usize) -> Option<(String, u32)> {
        let line = *self.plans.get(plan)?.lines.get(state)?.get(branch)?;
        Some((self.source.clone(), line))
    }

    /// The source file and line where a plan begins.
    pub fn plan_place(&self, plan: usize) -> Option<(String, u32)> {
        self.plans.get(plan).map(|names| (self.source.clone(), names.line))
    }
}

// ---- The file's text

impl Names {
    /// The names' text for a library of these bytes.
    pub fn write(&self, library: &[u8]) -> String {
        let mut text = format!("{FORMAT}\nhash {:016x}\n", hash(library));
        text.push_str(&format!("source {}\ncell {}\n", self.source, self.cell));
        for known in &self.types {
            text.push_str(&format!("type {}", known.name));
            known.parts.iter().for_each(|part| text.push_str(&format!(" {part}")));
            known.ranges.iter().for_each(|(first, last)| text.push_str(&format!(" {first}..{last}")));
            known.words.iter().for_each(|(word, value)| text.push_str(&format!(" {word}={value}")));
            text.push('\n');
        }
        for predicate in &self.predicates {
            let most = predicate.most.map_or("-".into(), |most| most.to_string());
            let types: String = predicate.types.iter().map(|name| format!(" {name}")).collect();
            let roles = role_words(predicate.roles, ",");
            text.push_str(&format!("predicate {} {} {roles} {most}{types}\n", predicate.number, predicate.name));
        }
        for plan in &self.plans {
            let variables: String = plan.variables.iter().map(|(name, kind)| format!(" {name}:{kind}")).collect();
            text.push_str(&format!("plan {} {} {}{variables}\n", plan.name, plan.line, u8::from(plan.unchecked)));
            for lines in &plan.lines {
                text.push_str(&format!("state{}\n", lines.iter().map(|line| format!(" {line}")).collect::<String>()));
            }
        }
        text
    }

    /// Reads the names of a library; refused where they belong to other bytes.
    pub fn read(text: &str, library: &[u8]) -> Result<Names, String> {
        let mut lines = text.lines();
        if lines.next() != Some(FORMAT) {
            return Err(format!("the names do not begin with the line '{FORMAT}'"));
        }
        let wanted = format!("hash {:016x}", hash(library));
        if lines.next() != Some(wanted.as_str()) {
            return Err("the names belong to another library: build both again from one source".into());
        }
        let mut names = Names::none();
        for (place, line) in lines.enumerate() {
            let (head, rest) = line.split_once(' ').unwrap_or((line, ""));
            names.line(head, rest).ok_or_else(|| format!("line {} of the names cannot be read: {line}", place + 3))?;
        }
        Ok(names)
    }

    fn line(&mut self, head: &str, rest: &str) -> Option<()> {
        let mut words = rest.split_whitespace();
        match head {
            "source" => self.source = rest.into(),
            "cell" => self.cell = rest.into(),
            "type" => self.types.push(read_type(words)?),
            "predicate" => {
                let number = words.next()?.parse().ok()?;
                let name = words.next()?.into();
                let roles = read_roles(words.next()?)?;
                let most = match words.next()? {
                    "-" => None,
                    most => Some(most.parse().ok()?),
                };
                self.predicates.push(PredicateNames { number, name, roles, most, types: words.map(String::from).collect() });
            }
            "plan" => {
                let (name, line) = (words.next()?.into(), words.next()?.parse().ok()?);
                let unchecked = words.next()? == "1";
                let variables = words.map(|word| word.split_once(':').map(|(name, kind)| (name.into(), kind.into())));
                self.plans.push(PlanNames { name, line, unchecked, variables: variables.collect::<Option<_>>()?, lines: vec![] });
            }
            "state" => {
                let lines = words.map(|word| word.parse().ok()).collect::<Option<_>>()?;
                self.plans.last_mut()?.lines.push(lines);
            }
            _ => return None,
        }
        Some(())
    }
}

fn read_roles(words: &str) -> Option<u8> {
    words.split(',').try_fold(0, |roles, word| Some(roles | 1 << ROLES.iter().position(|role| *role == word)?))
}

fn read_type<'a>(mut words: impl Iterator<Item = &'a str>) -> Option<TypeNames> {
    let mut known = TypeNames { name: words.next()?.into(), ..TypeNames::default() };
    for word in words {
        if let Some((first, last)) = word.split_once("..") {
            known.ranges.push((first.parse().ok()?, last.parse().ok()?));
        } else if let Some((name, value)) = word.split_once('=') {
            known.words.push((name.into(), value.parse().ok()?));
        } else {
            known.parts.push(word.into());
        }
    }
    Some(known)
}
