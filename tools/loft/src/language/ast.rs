//! A source as it is written, before names mean anything.

use super::source::Place;

#[derive(Clone, Debug)]
pub struct Word {
    pub text: String,
    pub place: Place,
}

#[derive(Clone, Debug)]
pub enum TermTree {
    Number(u64),
    Word(String),
    Variable(String),
    /// `_`: a variable of its own.
    Anything,
}

#[derive(Clone, Debug)]
pub struct LiteralTree {
    pub negative: bool,
    pub name: Word,
    pub terms: Vec<(TermTree, Place)>,
}

/// The alternatives of an `if` or a `while`.
#[derive(Clone, Debug)]
pub struct SituationTree {
    pub place: Place,
    pub alternatives: Vec<Vec<LiteralTree>>,
}

#[derive(Clone, Debug)]
pub enum Act {
    /// A branch of kind add, remove, external, achieve or query.
    On(u16, LiteralTree),
    /// Length by panel into how many and remainder.
    Divide { length: (TermTree, Place), panel: (TermTree, Place), whole: Word, rest: Word },
}

#[derive(Clone, Debug)]
pub enum StepTree {
    One {
        place: Place,
        act: Act,
        /// How often it is tried at its place.
        times: usize,
        /// The number of the state that it leads to, where the author fixes it.
        next: Option<(u64, Place)>,
    },
    Either {
        place: Place,
        alternatives: Vec<Vec<StepTree>>,
    },
}

#[derive(Clone, Copy, PartialEq, Eq, Debug)]
pub enum Verb {
    Add,
    Remove,
    Note,
}

#[derive(Clone, Debug)]
pub struct PlanTree {
    pub name: Word,
    pub unchecked: bool,
    /// The order of the variables, where the author fixes it.
    pub variables: Vec<Word>,
    pub kind: u16,
    pub trigger: LiteralTree,
    pub context: Option<SituationTree>,
    pub least: Option<Word>,
    pub maintenance: Option<SituationTree>,
    pub body: Vec<StepTree>,
    pub done: Vec<(Verb, LiteralTree)>,
    pub failed: Vec<(Verb, LiteralTree)>,
}

#[derive(Clone, Debug)]
pub enum ConstantTree {
    Range(u64, u64, Place),
    Named(Word, u64, Place),
    /// All of another type.
    All(Word),
}

#[derive(Clone, Debug)]
pub struct TypeTree {
    pub name: Word,
    pub constants: Vec<ConstantTree>,
}

#[derive(Clone, Debug)]
pub struct PredicateTree {
    pub name: Word,
    /// A bit for each of `names::ROLES`.
    pub roles: u8,
    pub types: Vec<Word>,
    pub number: (u64, Place),
    pub most: Option<(u64, Place)>,
}

#[derive(Clone, Debug, Default)]
pub struct FileTree {
    pub cell: String,
    pub types: Vec<TypeTree>,
    pub predicates: Vec<PredicateTree>,
    pub start: Vec<LiteralTree>,
    pub plans: Vec<PlanTree>,
}
