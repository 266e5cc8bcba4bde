//! Libraries as they are written, valid or not, and their bytes.

/// Sign and predicate, then three terms, as stored.
pub type Literal = [u16; 4];
pub type Situation = Vec<Vec<Literal>>;

pub const NEGATIVE: u16 = 32_768;

/// The literal with the other sign.
pub fn opposite([symbol, first, second, third]: Literal) -> Literal {
    [symbol ^ NEGATIVE, first, second, third]
}

/// Variable V0, as stored.
pub const V0: u16 = 65_528;

pub const ADDED: u16 = 0;
pub const REMOVED: u16 = 1;
pub const TOLD: u16 = 2;

pub const ADD: u16 = 0;
pub const REMOVE: u16 = 1;
pub const EXTERNAL: u16 = 2;
pub const ACHIEVE: u16 = 3;
pub const QUERY: u16 = 4;
pub const DIVIDE: u16 = 5;

#[derive(Clone)]
pub struct Branch {
    pub kind: u16,
    pub literal: Literal,
    pub next: u16,
}

#[derive(Clone)]
pub struct Plan {
    pub kind: u16,
    /// The variable, 0 to 7, whose least value decides among the context's solutions.
    pub least: Option<u16>,
    pub trigger: Literal,
    pub context: Situation,
    pub maintenance: Situation,
    pub success: Vec<(u16, Literal)>,
    pub failure: Vec<(u16, Literal)>,
    pub states: Vec<Vec<Branch>>,
}

#[derive(Clone, Default)]
pub struct Library {
    pub beliefs: Vec<Literal>,
    pub plans: Vec<Plan>,
}

impl Plan {
    /// A plan that always applies, has no lists and ends where it starts.
    pub fn simple(kind: u16, trigger: Literal) -> Self {
        Plan {
            kind,
            least: None,
            trigger,
            context: vec![vec![]],
            maintenance: vec![vec![]],
            success: vec![],
            failure: vec![],
            states: vec![vec![]],
        }
    }

    /// The same plan with a body of one path: each step a kind and a literal.
    pub fn path(mut self, steps: &[(u16, Literal)]) -> Self {
        let step = |(place, &(kind, literal)): (usize, &(u16, Literal))| vec![Branch { kind, literal, next: place as u16 + 1 }];
        self.states = steps.iter().enumerate().map(step).collect();
        self.states.push(vec![]);
        self
    }

    pub fn encode(&self) -> Vec<u8> {
        let mut numbers = vec![self.kind + self.least.map_or(0, |variable| 16 * (variable + 1))];
        numbers.extend(self.trigger);
        for situation in [&self.context, &self.maintenance] {
            numbers.push(situation.len() as u16);
            for literals in situation {
                numbers.push(literals.len() as u16);
                numbers.extend(literals.iter().flatten());
            }
        }
        for list in [&self.success, &self.failure] {
            numbers.push(list.len() as u16);
            numbers.extend(list.iter().flat_map(|(kind, literal)| [&[*kind][..], literal].concat()));
        }
        numbers.push(self.states.len() as u16);
        for branches in &self.states {
            numbers.push(branches.len() as u16);
            for branch in branches {
                numbers.push(branch.kind);
                numbers.extend(branch.literal);
                numbers.push(branch.next);
            }
        }
        stored(&numbers)
    }
}

impl Library {
    /// Where the first plan starts.
    pub fn front(&self) -> usize {
        4 + 4 * self.plans.len() + 8 * self.beliefs.len()
    }

    pub fn encode(&self) -> Vec<u8> {
        let bodies: Vec<Vec<u8>> = self.plans.iter().map(Plan::encode).collect();
        let mut numbers = vec![self.plans.len() as u16, self.beliefs.len() as u16];
        let mut offset = self.front();
        for body in &bodies {
            numbers.extend([offset as u16, body.len() as u16]);
            offset += body.len();
        }
        numbers.extend(self.beliefs.iter().flatten());
        [stored(&numbers), bodies.concat()].concat()
    }
}

/// The bytes of numbers, the low byte first.
pub fn stored(numbers: &[u16]) -> Vec<u8> {
    numbers.iter().flat_map(|number| number.to_le_bytes()).collect()
}

/// A literal as the journal writes it.
pub fn text(literal: &Literal) -> String {
    let [symbol, first, second, third] = *literal;
    let sign = if symbol >= NEGATIVE { '-' } else { '+' };
    format!("{sign}{} {first} {second} {third}", symbol % NEGATIVE)
}

/// Whether a literal has no variables.
pub fn is_ground(literal: &Literal) -> bool {
    literal[1..].iter().all(|term| *term < V0)
}
