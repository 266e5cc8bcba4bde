//! A library's bytes read, or refused by number, rule and place.

use crate::library::*;
use std::fmt;

/// Why a library is refused: the number that the agent answers, and where the rule is broken.
#[derive(Clone, PartialEq, Eq, Debug)]
pub struct Refusal {
    pub number: u16,
    pub plan: Option<usize>,
    pub state: Option<usize>,
    pub branch: Option<usize>,
    pub byte: usize,
    pub rule: String,
}

impl fmt::Display for Refusal {
    fn fmt(&self, out: &mut fmt::Formatter) -> fmt::Result {
        write!(out, "refused with {}: {}", self.number, self.rule)?;
        let places = [("plan", self.plan), ("state", self.state), ("branch", self.branch), ("byte", Some(self.byte))];
        let places: Vec<String> = places.iter().filter_map(|(name, at)| at.map(|at| format!("{name} {at}"))).collect();
        write!(out, " ({})", places.join(", "))
    }
}

type Answer<T> = Result<T, Refusal>;

/// Reads a library as the agent's program does; the stages are tested in the agent's order.
pub fn read(bytes: &[u8]) -> Answer<Library> {
    if bytes.len() > LONGEST_FILE {
        return Err(refusal(2, LONGEST_FILE, format!("the file has {} bytes, and at most {LONGEST_FILE} are read", bytes.len())));
    }
    let (plans, beliefs) = counts(bytes)?;
    let entries = packing(bytes, plans, beliefs)?;
    let first = 4 + 4 * plans;
    let beliefs = initial_beliefs(bytes, first, beliefs)?;
    let mut read = vec![];
    for (number, (start, end)) in entries.into_iter().enumerate() {
        read.push(Reader::new(bytes, number, start, end).plan()?);
    }
    Ok(Library { beliefs, plans: read })
}

fn refusal(number: u16, byte: usize, rule: String) -> Refusal {
    Refusal { number, plan: None, state: None, branch: None, byte, rule }
}

/// The number at an offset within the bytes.
fn number_at(bytes: &[u8], at: usize) -> Option<u16> {
    bytes.get(at..at + 2).map(|pair| u16::from_le_bytes([pair[0], pair[1]]))
}

fn counts(bytes: &[u8]) -> Answer<(usize, usize)> {
    let (Some(plans), Some(beliefs)) = (number_at(bytes, 0), number_at(bytes, 2)) else {
        return Err(refusal(1, bytes.len(), format!("{} bytes, and a library has at least 4", bytes.len())));
    };
    let (plans, beliefs) = (usize::from(plans), usize::from(beliefs));
    if plans > MOST_PLANS {
        return Err(refusal(1, 0, format!("{plans} plans, and a library has at most {MOST_PLANS}")));
    }
    if beliefs > MOST_BELIEFS {
        return Err(refusal(1, 2, format!("{beliefs} initial beliefs, and a library has at most {MOST_BELIEFS}")));
    }
    let front = 4 + 4 * plans + 8 * beliefs;
    if bytes.len() < front {
        let rule =
            format!("the entries of {plans} plans and {beliefs} beliefs end at byte {front}, and there are {}", bytes.len());
        return Err(refusal(1, bytes.len(), rule));
    }
    Ok((plans, beliefs))
}

/// Where each plan starts and ends, if the plans are packed up to the last byte.
fn packing(bytes: &[u8], plans: usize, beliefs: usize) -> Answer<Vec<(usize, usize)>> {
    let mut end = 4 + 4 * plans + 8 * beliefs;
    let mut entries = vec![];
    for plan in 0..plans {
        let at = 4 + 4 * plan;
        let offset = usize::from(number_at(bytes, at).unwrap_or(0));
        let length = usize::from(number_at(bytes, at + 2).unwrap_or(0));
        if offset != end {
            let rule = format!("the plan's entry says that it starts at byte {offset}, and the one before it ends at {end}");
            return Err(Refusal { plan: Some(plan), ..refusal(2, at, rule) });
        }
        end += length;
        entries.push((offset, end));
    }
    if end != bytes.len() {
        let rule = format!("the last plan ends at byte {end}, and the library has {} bytes", bytes.len());
        return Err(refusal(2, end.min(bytes.len()), rule));
    }
    Ok(entries)
}

fn initial_beliefs(bytes: &[u8], first: usize, count: usize) -> Answer<Vec<Literal>> {
    let mut beliefs: Vec<Literal> = vec![];
    for place in 0..count {
        let at = first + 8 * place;
        let numbers = [0, 2, 4, 6].map(|offset| number_at(bytes, at + offset).unwrap_or(0));
        let belief = literal(numbers);
        if !belief.is_ground() {
            return Err(refusal(3, at, format!("initial belief {place} has a variable")));
        }
        if let Some(held) = beliefs.iter().position(|held| *held == belief) {
            return Err(refusal(3, at, format!("initial belief {place} is the same as initial belief {held}")));
        }
        if let Some(held) = beliefs.iter().position(|held| *held == belief.opposite()) {
            return Err(refusal(3, at, format!("initial belief {place} is the opposite of initial belief {held}")));
        }
        beliefs.push(belief);
    }
    Ok(beliefs)
}

fn literal([symbol, first, second, third]: [u16; 4]) -> Literal {
    Literal { negative: symbol >= NEGATIVE, predicate: symbol % NEGATIVE, terms: [first, second, third] }
}

/// Reads one plan from its bytes, and knows where it is.
struct Reader<'a> {
    bytes: &'a [u8],
    plan: usize,
    state: Option<usize>,
    branch: Option<usize>,
    at: usize,
    end: usize,
}

impl<'a> Reader<'a> {
    fn new(bytes: &'a [u8], plan: usize, at: usize, end: usize) -> Self {
        Reader { bytes, plan, state: None, branch: None, at, end }
    }

    fn refused<T>(&self, byte: usize, rule: String) -> Answer<T> {
        Err(Refusal { number: 4, plan: Some(self.plan), state: self.state, branch: self.branch, byte, rule })
    }

    fn number(&mut self) -> Answer<u16> {
        let at = self.at;
        if at + 2 > self.end {
            return self.refused(at, "the plan needs more bytes than its entry gives it".into());
        }
        self.at += 2;
        Ok(number_at(self.bytes, at).unwrap_or(0))
    }

    /// A count and as many items.
    fn list<T>(&mut self, what: &str, mut item: impl FnMut(&mut Self) -> Answer<T>) -> Answer<Vec<T>> {
        let at = self.at;
        let count = self.number()?;
        if usize::from(count) > MOST_ITEMS {
            return self.refused(at, format!("{count} {what}, and there are at most {MOST_ITEMS}"));
        }
        (0..count).map(|_| item(self)).collect()
    }

    fn literal(&mut self) -> Answer<Literal> {
        Ok(literal([self.number()?, self.number()?, self.number()?, self.number()?]))
    }

    fn plan(&mut self) -> Answer<Plan> {
        let (kind, least) = self.trigger_kind()?;
        let plan = Plan {
            kind,
            least,
            trigger: self.literal()?,
            context: self.situation("the context")?,
            maintenance: self.situation("the maintenance")?,
            success: self.list("actions of the success list", Self::action)?,
            failure: self.list("actions of the failure list", Self::action)?,
            states: self.states()?,
        };
        if self.at != self.end {
            let rule = format!("the plan ends here, and by its entry it ends at byte {}", self.end);
            return self.refused(self.at, rule);
        }
        Ok(plan)
    }

    fn trigger_kind(&mut self) -> Answer<(u16, Option<u8>)> {
        let at = self.at;
        let field = self.number()?;
        let (kind, mark) = (field % LEAST_STEP, field / LEAST_STEP);
        if kind > QUERY || mark > MOST_VARIABLES as u16 {
            let rule = format!("trigger kind {field}: a kind is 0 to {QUERY}, with 16 to 128 added where a least value chooses");
            return self.refused(at, rule);
        }
        Ok((kind, mark.checked_sub(1).map(|variable| variable as u8)))
    }

    fn situation(&mut self, of: &str) -> Answer<Situation> {
        self.list(&format!("alternatives of {of}"), |reader| {
            reader.list(&format!("literals in an alternative of {of}"), Self::literal)
        })
    }

    fn action(&mut self) -> Answer<Action> {
        let at = self.at;
        let kind = self.number()?;
        if kind > REMOVE {
            return self.refused(at, format!("action kind {kind}: a list's action has kind 0 (add) or 1 (remove)"));
        }
        Ok(Action { removes: kind == REMOVE, literal: self.literal()? })
    }

    fn states(&mut self) -> Answer<Vec<Vec<Branch>>> {
        let at = self.at;
        let count = usize::from(self.number()?);
        if count == 0 || count > MOST_STATES {
            return self.refused(at, format!("{count} states, and a body has 1 to {MOST_STATES}"));
        }
        let mut led_to = [false; MOST_STATES];
        let mut states = vec![];
        for state in 0..count {
            self.state = Some(state);
            let mut place = 0;
            states.push(self.list("branches in a state", |reader| {
                reader.branch = Some(place);
                place += 1;
                reader.branch(state, count, &mut led_to)
            })?);
            self.branch = None;
        }
        self.state = None;
        match (1..count).find(|state| !led_to[*state]) {
            Some(state) => self.refused(at, format!("no branch leads to state {state}")),
            None => Ok(states),
        }
    }

    fn branch(&mut self, state: usize, states: usize, led_to: &mut [bool; MOST_STATES]) -> Answer<Branch> {
        let at = self.at;
        let branch = Branch { kind: self.number()?, literal: self.literal()?, next: self.number()? };
        match branch.kind {
            EXTERNAL if branch.literal.negative => return self.refused(at + 2, "an action's literal is negative".into()),
            DIVIDE => self.divide(at, &branch.literal)?,
            kind if kind > DIVIDE => return self.refused(at, format!("branch kind {kind}, and a kind is 0 to {DIVIDE}")),
            _ => {}
        }
        let next = usize::from(branch.next);
        if next >= states {
            return self.refused(at + 10, format!("next state {next}, and there are states 0 to {}", states - 1));
        }
        if next <= state {
            return self.refused(at + 10, format!("next state {next} is not above its own state {state}"));
        }
        if std::mem::replace(&mut led_to[next], true) {
            return self.refused(at + 10, format!("a second branch leads to state {next}"));
        }
        Ok(branch)
    }

    /// The rules for a divide's literal: two different variables, no sign, no third term.
    fn divide(&self, at: usize, literal: &Literal) -> Answer<()> {
        let field = literal.predicate;
        if literal.negative || field > 63 || field % 8 == field / 8 {
            let rule = "a divide's predicate field is q + 8 r for two different variable numbers q and r";
            return self.refused(at + 2, rule.into());
        }
        if literal.terms[2] != 0 {
            return self.refused(at + 8, "a divide's third term is not 0".into());
        }
        Ok(())
    }
}
