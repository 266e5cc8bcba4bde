//! A library of plans as the agent stores it (docs/LIBRARY-FORMAT.md): its parts and its bytes.

pub use crate::library_reader::read;

/// A constant, or a variable from `FIRST_VARIABLE` on.
pub type Term = u16;

/// Variable V0, as stored.
pub const FIRST_VARIABLE: u16 = 65_528;
pub const LARGEST_CONSTANT: u16 = FIRST_VARIABLE - 1;
pub const LARGEST_PREDICATE: u16 = 32_767;
/// What a negative literal adds to its predicate.
pub const NEGATIVE: u16 = 32_768;

pub const MOST_PLANS: usize = 32;
pub const MOST_BELIEFS: usize = 64;
pub const MOST_STATES: usize = 16;
pub const MOST_VARIABLES: usize = 8;
/// The most alternatives of a situation, literals of an alternative, actions of a list, or branches of a state.
pub const MOST_ITEMS: usize = 4;
pub const MOST_TERMS: usize = 3;
/// The longest library file that the agent's program reads.
pub const LONGEST_FILE: usize = 65_535;

/// Trigger kinds.
pub const ADDED: u16 = 0;
pub const REMOVED: u16 = 1;
pub const TOLD: u16 = 2;

/// Branch kinds; 3 and 4 are the trigger kinds of goals too.
pub const ADD: u16 = 0;
pub const REMOVE: u16 = 1;
pub const EXTERNAL: u16 = 2;
pub const ACHIEVE: u16 = 3;
pub const QUERY: u16 = 4;
pub const DIVIDE: u16 = 5;

/// A trigger kind field is the kind, plus this times (v + 1) where the least value of variable v decides.
pub const LEAST_STEP: u16 = 16;

#[derive(Clone, Copy, PartialEq, Eq, Hash, Debug)]
pub struct Literal {
    pub negative: bool,
    pub predicate: u16,
    pub terms: [Term; MOST_TERMS],
}

/// An action of a success or failure list.
#[derive(Clone, Copy, PartialEq, Eq, Hash, Debug)]
pub struct Action {
    pub removes: bool,
    pub literal: Literal,
}

/// One way on from a state. One of kind 5 has its predicate field, q + 8 r, in `literal.predicate`.
#[derive(Clone, Copy, PartialEq, Eq, Hash, Debug)]
pub struct Branch {
    pub kind: u16,
    pub literal: Literal,
    pub next: u16,
}

pub type Situation = Vec<Vec<Literal>>;

#[derive(Clone, PartialEq, Eq, Debug)]
pub struct Plan {
    /// 0 belief added, 1 belief removed, 2 told, 3 achieve, 4 query.
    pub kind: u16,
    /// The variable whose least value chooses among the context's solutions.
    pub least: Option<u8>,
    pub trigger: Literal,
    pub context: Situation,
    pub maintenance: Situation,
    pub success: Vec<Action>,
    pub failure: Vec<Action>,
    pub states: Vec<Vec<Branch>>,
}

#[derive(Clone, PartialEq, Eq, Debug, Default)]
pub struct Library {
    pub beliefs: Vec<Literal>,
    pub plans: Vec<Plan>,
}

/// The number of a variable, 0 to 7; none for a constant.
pub fn variable_of(term: Term) -> Option<u8> {
    (term >= FIRST_VARIABLE).then(|| (term - FIRST_VARIABLE) as u8)
}

impl Literal {
    pub fn is_ground(&self) -> bool {
        self.terms.iter().all(|term| *term < FIRST_VARIABLE)
    }

    pub fn opposite(&self) -> Literal {
        Literal { negative: !self.negative, ..*self }
    }

    /// The variables, in order, with repeats.
    pub fn variables(&self) -> impl Iterator<Item = u8> + '_ {
        self.terms.iter().filter_map(|term| variable_of(*term))
    }
}

impl Branch {
    /// The variables that a divide binds: the whole panels, then the remainder.
    pub fn divide_results(&self) -> (u8, u8) {
        ((self.literal.predicate % 8) as u8, (self.literal.predicate / 8 % 8) as u8)
    }
}

// ---- Bytes

/// The bytes of a library.
pub fn write(library: &Library) -> Vec<u8> {
    let bodies: Vec<Vec<u8>> = library.plans.iter().map(plan_bytes).collect();
    let mut bytes = vec![];
    push(&mut bytes, library.plans.len() as u16);
    push(&mut bytes, library.beliefs.len() as u16);
    let mut offset = 4 + 4 * bodies.len() + 8 * library.beliefs.len();
    for body in &bodies {
        push(&mut bytes, offset as u16);
        push(&mut bytes, body.len() as u16);
        offset += body.len();
    }
    for belief in &library.beliefs {
        push_literal(&mut bytes, belief);
    }
    bytes.extend(bodies.concat());
    bytes
}

fn plan_bytes(plan: &Plan) -> Vec<u8> {
    let mut bytes = vec![];
    let mark = plan.least.map_or(0, |variable| LEAST_STEP * (u16::from(variable) + 1));
    push(&mut bytes, plan.kind + mark);
    push_literal(&mut bytes, &plan.trigger);
    for situation in [&plan.context, &plan.maintenance] {
        push(&mut bytes, situation.len() as u16);
        for literals in situation {
            push(&mut bytes, literals.len() as u16);
            literals.iter().for_each(|literal| push_literal(&mut bytes, literal));
        }
    }
    for list in [&plan.success, &plan.failure] {
        push(&mut bytes, list.len() as u16);
        for action in list {
            push(&mut bytes, action.removes.into());
            push_literal(&mut bytes, &action.literal);
        }
    }
    push(&mut bytes, plan.states.len() as u16);
    for branches in &plan.states {
        push(&mut bytes, branches.len() as u16);
        for branch in branches {
            push(&mut bytes, branch.kind);
            push_literal(&mut bytes, &branch.literal);
            push(&mut bytes, branch.next);
        }
    }
    bytes
}

fn push(bytes: &mut Vec<u8>, number: u16) {
    bytes.extend(number.to_le_bytes());
}

fn push_literal(bytes: &mut Vec<u8>, literal: &Literal) {
    push(bytes, literal.predicate + if literal.negative { NEGATIVE } else { 0 });
    literal.terms.iter().for_each(|term| push(bytes, *term));
}
