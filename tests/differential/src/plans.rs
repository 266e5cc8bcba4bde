//! Valid libraries from a seed.

use crate::draft::{
    ACHIEVE, ADD, ADDED, Branch, DIVIDE, EXTERNAL, Library, Literal, NEGATIVE, Plan, QUERY, Situation, V0, opposite,
};
use crate::offcuts;
use crate::panels;
use crate::random::Random;

/// What a library leans towards.
#[derive(Clone, Copy, Debug, PartialEq, Eq)]
pub enum Theme {
    /// A bit of everything.
    Mixed,
    /// Goals that other plans serve, until stacks are full.
    Tower,
    /// Many external actions, so that many stacks wait.
    Racks,
    /// A belief table that is full or nearly so.
    Crowded,
    /// Contexts that bind variables and go back.
    Search,
    /// Queries, with beliefs of both signs.
    Questions,
    /// Plans that choose the least value among many solutions.
    Offcuts,
    /// Plans that divide lengths.
    Panels,
    /// Hardly any plans.
    Bare,
}

pub const THEMES: [(Theme, usize); 9] = [
    (Theme::Mixed, 6),
    (Theme::Tower, 4),
    (Theme::Racks, 3),
    (Theme::Crowded, 3),
    (Theme::Search, 3),
    (Theme::Questions, 3),
    (Theme::Offcuts, 6),
    (Theme::Panels, 6),
    (Theme::Bare, 1),
];

/// How the plans of a theme come out; shares are of a hundred.
struct Shape {
    plans: (usize, usize),
    beliefs: (usize, usize),
    /// Weights of the six kinds of branches.
    branches: [usize; 6],
    /// Share of plans whose context is one empty alternative.
    plain_context: usize,
    /// Share of plans whose maintenance is one empty alternative.
    plain_maintenance: usize,
    /// Share of plans that serve goals.
    goal_plans: usize,
    most_states: usize,
    most_actions: usize,
    negative: usize,
}

fn shape(theme: Theme) -> Shape {
    let mixed = Shape {
        plans: (1, 32),
        beliefs: (0, 20),
        branches: [2, 2, 3, 3, 3, 1],
        plain_context: 65,
        plain_maintenance: 75,
        goal_plans: 45,
        most_states: 7,
        most_actions: 2,
        negative: 20,
    };
    match theme {
        Theme::Mixed => mixed,
        Theme::Tower => Shape { plans: (2, 12), branches: [1, 1, 1, 8, 5, 1], plain_context: 90, goal_plans: 75, ..mixed },
        Theme::Racks => Shape { plans: (2, 12), branches: [1, 1, 9, 1, 1, 1], plain_context: 85, goal_plans: 20, ..mixed },
        Theme::Crowded => Shape { beliefs: (57, 64), branches: [8, 2, 2, 2, 1, 1], most_actions: 4, ..mixed },
        Theme::Search => Shape { beliefs: (24, 64), plain_context: 8, plain_maintenance: 50, most_states: 4, ..mixed },
        Theme::Questions => Shape { beliefs: (8, 30), branches: [1, 1, 1, 2, 9, 1], negative: 40, ..mixed },
        Theme::Offcuts => Shape { plans: (0, 6), beliefs: (4, 40), negative: 8, ..mixed },
        Theme::Panels => Shape { plans: (0, 4), beliefs: (4, 40), branches: [1, 1, 1, 3, 3, 3], negative: 8, ..mixed },
        Theme::Bare => Shape { plans: (0, 2), most_states: 16, most_actions: 4, ..mixed },
    }
}

/// The words of a library: few enough that its literals meet.
pub struct Words {
    pub facts: Vec<u16>,
    pub told: Vec<u16>,
    pub goals: Vec<u16>,
    pub constants: Vec<u16>,
    negative: usize,
}

impl Words {
    fn new(random: &mut Random, theme: Theme, negative: usize) -> Self {
        let spread = if theme == Theme::Search { 7 } else { random.between(2, 5) };
        let mut facts: Vec<u16> = (1..=spread as u16).collect();
        let mut constants: Vec<u16> = (1..=random.between(2, 5) as u16).collect();
        if random.percent(15) {
            facts.extend([0, 32_767]);
            constants.extend([0, 65_527]);
        }
        if theme == Theme::Panels {
            constants.extend(panels::LENGTHS);
        }
        Words { facts, told: vec![20, 21, 22], goals: (40..40 + random.between(2, 6) as u16).collect(), constants, negative }
    }

    /// A ground literal of one of the symbols.
    pub fn ground(&self, random: &mut Random, symbols: &[u16]) -> Literal {
        let sign = if random.percent(self.negative) { NEGATIVE } else { 0 };
        let mut literal = [*random.pick(symbols) | sign, *random.pick(&self.constants), 0, 0];
        if random.percent(30) {
            literal[2] = *random.pick(&self.constants);
        }
        if random.percent(8) {
            literal[3] = *random.pick(&self.constants);
        }
        literal
    }

    /// A literal of one of the symbols, with variables below `variables` in a share of its terms.
    fn open(&self, random: &mut Random, symbols: &[u16], variables: u16, share: usize) -> Literal {
        let mut literal = self.ground(random, symbols);
        for (place, term) in literal[1..].iter_mut().enumerate() {
            if random.percent(if place == 0 { share } else { share / 5 }) {
                *term = V0 + random.below(variables.into()) as u16;
            }
        }
        literal
    }

    /// A literal of a body or a list: mostly of V0, which the trigger binds, now and then of a variable that may be unbound.
    fn bound(&self, random: &mut Random, symbols: &[u16]) -> Literal {
        let mut literal = self.open(random, symbols, 1, 60);
        if random.percent(12) {
            literal[random.between(1, 3)] = V0 + random.below(8) as u16;
        }
        literal
    }
}

/// A valid library and its words.
pub fn library(random: &mut Random, theme: Theme) -> (Library, Words) {
    let shape = shape(theme);
    let words = Words::new(random, theme, shape.negative);
    let mut plans = match theme {
        Theme::Tower => tower(random, &words),
        Theme::Crowded => vec![filler(&words)],
        Theme::Offcuts => offcuts::plans(random, &words),
        Theme::Panels => panels::plans(random, &words),
        _ => vec![],
    };
    let count = random.between(shape.plans.0, shape.plans.1);
    plans.extend((0..count).map(|_| plan(random, &words, &shape)));
    plans.truncate(32);
    let mut beliefs = beliefs(random, &words, &shape);
    if theme == Theme::Offcuts {
        beliefs.push(offcuts::LARGEST);
    }
    (Library { beliefs, plans }, words)
}

fn beliefs(random: &mut Random, words: &Words, shape: &Shape) -> Vec<Literal> {
    let count = random.between(shape.beliefs.0, shape.beliefs.1);
    let mut beliefs: Vec<Literal> = vec![];
    for extra in 0.. {
        if beliefs.len() == count {
            break;
        }
        let mut literal = words.ground(random, &words.facts);
        if extra > 100 {
            literal[3] = 100 + extra;
        }
        if !beliefs.contains(&literal) && !beliefs.contains(&opposite(literal)) {
            beliefs.push(literal);
        }
    }
    beliefs
}

/// Plans that each post the goal of the next, more of them than a stack has room for.
fn tower(random: &mut Random, words: &Words) -> Vec<Plan> {
    let height = random.between(5, 11) as u16;
    let goal = |floor: u16| [100 + floor, V0, 0, 0];
    let phase = random.below(3) as u16;
    let kind = |floor: u16| if (floor + phase) % 3 == 1 { QUERY } else { ACHIEVE };
    let mut plans = vec![];
    for floor in 0..=height {
        let trigger = if floor == 0 { (random.below(3) as u16, [words.facts[0], V0, 0, 0]) } else { (kind(floor), goal(floor)) };
        let mut steps = vec![];
        if random.percent(25) {
            steps.push((EXTERNAL, [60, V0, 0, 0]));
        }
        if floor < height {
            steps.push((kind(floor + 1), goal(floor + 1)));
        }
        let mut plan = Plan::simple(trigger.0, trigger.1).path(&steps);
        if random.percent(30) {
            plan.success.push((ADD, words.bound(random, &words.facts)));
        }
        if random.percent(25) {
            plans.push(Plan { maintenance: vec![], failure: plan.success.clone(), ..plan.clone() });
        }
        plans.push(plan);
    }
    plans
}

/// A plan that adds ever new beliefs, some for each number that is reported, and their opposites after them.
fn filler(words: &Words) -> Plan {
    let literal = |term: u16| [words.facts[0], V0, V0, term];
    Plan {
        success: [literal(3), literal(4), opposite(literal(3)), opposite(literal(4))].map(|literal| (ADD, literal)).to_vec(),
        ..Plan::simple(ADDED, [words.facts[0], V0, 0, 0]).path(&[(ADD, literal(1)), (ADD, literal(2))])
    }
}

fn plan(random: &mut Random, words: &Words, shape: &Shape) -> Plan {
    let (kind, symbols) = if random.percent(shape.goal_plans) {
        (random.between(3, 4) as u16, if random.percent(75) { &words.goals } else { &words.facts })
    } else {
        let kind = random.below(3) as u16;
        (kind, if kind == 2 && random.percent(60) { &words.told } else { &words.facts })
    };
    let mut trigger = words.open(random, symbols, 2, 75);
    if random.percent(70) {
        trigger = [trigger[0] % NEGATIVE, V0, 0, 0];
    }
    let context = situation(random, words, shape.plain_context);
    Plan {
        kind,
        least: least(random, &context),
        trigger,
        context,
        maintenance: situation(random, words, shape.plain_maintenance),
        success: actions(random, words, shape.most_actions),
        failure: actions(random, words, shape.most_actions),
        states: states(random, words, shape),
    }
}

fn situation(random: &mut Random, words: &Words, plain: usize) -> Situation {
    if random.percent(plain) {
        return vec![vec![]];
    }
    let alternatives = *random.pick(&[0, 1, 1, 1, 1, 2, 2, 3, 4]);
    let literals = |random: &mut Random| {
        let count = *random.pick(&[0, 1, 1, 2, 2, 2, 3, 3, 4]);
        (0..count).map(|_| words.open(random, &words.facts, 4, 80)).collect()
    };
    (0..alternatives).map(|_| literals(random)).collect()
}

/// A variable whose least value decides, for a context that has no long list of solutions.
fn least(random: &mut Random, context: &Situation) -> Option<u16> {
    let short = context.iter().all(|literals| literals.len() <= 2);
    (short && random.percent(20)).then(|| random.below(8) as u16)
}

/// Actions on facts; now and then one on the opposite of the one before it, or adds that turn one belief over and over.
fn actions(random: &mut Random, words: &Words, most: usize) -> Vec<(u16, Literal)> {
    if random.percent(6) {
        let literal = words.bound(random, &words.facts);
        return [literal, opposite(literal), literal, opposite(literal)].map(|literal| (ADD, literal)).to_vec();
    }
    let mut actions: Vec<(u16, Literal)> = vec![];
    for _ in 0..random.between(0, most) {
        let turned = actions.last().filter(|_| random.percent(25)).map(|(_, literal)| opposite(*literal));
        let literal = turned.unwrap_or_else(|| words.bound(random, &words.facts));
        actions.push((random.below(2) as u16, literal));
    }
    actions
}

/// A tree of states, each hung below an earlier one that has room.
fn states(random: &mut Random, words: &Words, shape: &Shape) -> Vec<Vec<Branch>> {
    let count = if random.percent(5) { 16 } else { random.between(1, shape.most_states) };
    let mut states: Vec<Vec<Branch>> = vec![vec![]];
    for next in 1..count {
        let latest = random.percent(50) && states[next - 1].len() < 4;
        let mut parent = if latest { next - 1 } else { random.below(next) };
        while states[parent].len() == 4 {
            parent = random.below(next);
        }
        let (kind, literal) = step(random, words, shape);
        states[parent].push(Branch { kind, literal, next: next as u16 });
        states.push(vec![]);
    }
    states
}

fn step(random: &mut Random, words: &Words, shape: &Shape) -> (u16, Literal) {
    let kind = random.weighted(&shape.branches) as u16;
    let literal = match kind {
        DIVIDE => return (kind, panels::division(random, words).0),
        EXTERNAL => words.bound(random, &[60, 61, 62]),
        ACHIEVE | QUERY if random.percent(65) => words.bound(random, &words.goals),
        QUERY => words.open(random, &words.facts, 4, 60),
        _ => words.bound(random, &words.facts),
    };
    if kind == EXTERNAL || (kind >= ACHIEVE && random.percent(60)) {
        return (kind, [literal[0] % NEGATIVE, literal[1], literal[2], literal[3]]);
    }
    (kind, literal)
}
