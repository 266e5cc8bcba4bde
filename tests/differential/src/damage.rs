//! Damaged libraries, one kind at a time, each with the refusal that it is to meet.

use crate::draft::{Branch, DIVIDE, EXTERNAL, Library, NEGATIVE, Plan, V0, opposite};
use crate::random::Random;

/// Damage to a draft, before it is written.
type OnDraft = fn(&mut Random, &mut Library);
/// Damage to the bytes of a library.
type OnBytes = fn(&mut Random, &Library, &mut Vec<u8>);

/// Damage that the bytes can carry although they are packed: refusals 3 and 4.
pub const TO_DRAFT: &[(&str, u16, OnDraft)] = &[
    ("belief with a variable", 3, |random, library| {
        let place = random.below(library.beliefs.len());
        library.beliefs[place][random.between(1, 3)] = V0 + random.below(8) as u16;
    }),
    ("belief repeated", 3, |random, library| {
        let first = library.beliefs[0];
        if library.beliefs.len() == 64 {
            library.beliefs.pop();
        }
        let place = random.between(1, library.beliefs.len());
        library.beliefs.insert(place, first);
    }),
    ("belief whose opposite stands", 3, |random, library| {
        let first = opposite(library.beliefs[0]);
        if library.beliefs.len() == 64 {
            library.beliefs.pop();
        }
        let place = random.between(0, library.beliefs.len());
        library.beliefs.insert(place, first);
    }),
    ("trigger kind over 4", 4, |random, library| {
        let plan = some_plan(random, library);
        plan.least = None;
        plan.kind = random.between(5, 15) as u16;
    }),
    ("trigger kind over 4 beside a variable", 4, |random, library| {
        let plan = some_plan(random, library);
        plan.least = Some(random.below(8) as u16);
        plan.kind = random.between(5, 15) as u16;
    }),
    ("least value of a variable past V7", 4, |random, library| {
        let any = random.between(8, 4_094) as u16;
        some_plan(random, library).least = Some(*random.pick(&[8, 4_094, any]));
    }),
    ("five alternatives in a context", 4, |random, library| some_plan(random, library).context = vec![vec![]; 5]),
    ("five alternatives in a maintenance", 4, |random, library| some_plan(random, library).maintenance = vec![vec![]; 5]),
    ("five literals in a context", 4, |random, library| some_plan(random, library).context = vec![vec![[1, 0, 0, 0]; 5]]),
    ("five literals in a maintenance", 4, |random, library| {
        some_plan(random, library).maintenance = vec![vec![], vec![[1, 0, 0, 0]; 5]];
    }),
    ("five success actions", 4, |random, library| some_plan(random, library).success = vec![(0, [1, 0, 0, 0]); 5]),
    ("five failure actions", 4, |random, library| some_plan(random, library).failure = vec![(0, [1, 0, 0, 0]); 5]),
    ("success action of kind over 1", 4, |random, library| {
        some_plan(random, library).success = vec![(random.between(2, 65_535) as u16, [1, 0, 0, 0])];
    }),
    ("failure action of kind over 1", 4, |random, library| {
        some_plan(random, library).failure = vec![(0, [1, 0, 0, 0]), (random.between(2, 65_535) as u16, [1, 0, 0, 0])];
    }),
    ("no states", 4, |random, library| some_plan(random, library).states = vec![]),
    ("seventeen states", 4, |random, library| some_plan(random, library).states = path(17)),
    ("five branches", 4, |random, library| {
        some_plan(random, library).states = vec![(1..=5).map(branch_to).collect(), vec![], vec![], vec![], vec![], vec![]];
    }),
    ("branch kind over 5", 4, |random, library| some_branch(random, library).kind = random.between(6, 65_535) as u16),
    ("division with a sign", 4, |random, library| some_division(random, library).literal[0] |= NEGATIVE),
    ("division field over 63", 4, |random, library| {
        let any = random.between(64, 32_767) as u16;
        some_division(random, library).literal[0] = *random.pick(&[64, 65, 72, 128, 32_767, any]);
    }),
    ("division into one variable", 4, |random, library| {
        some_division(random, library).literal[0] = 9 * random.below(8) as u16;
    }),
    ("division with a third term", 4, |random, library| {
        let any = random.between(1, 65_535) as u16;
        some_division(random, library).literal[3] = *random.pick(&[1, 32_768, V0, any]);
    }),
    ("negative external action", 4, |random, library| {
        let branch = some_branch(random, library);
        branch.kind = EXTERNAL;
        branch.literal[0] |= NEGATIVE;
    }),
    ("next state its own", 4, |random, library| some_plan(random, library).states = vec![vec![branch_to(0)]]),
    ("next state lower", 4, |random, library| {
        some_plan(random, library).states = vec![vec![branch_to(1)], vec![branch_to(2)], vec![branch_to(1)]];
    }),
    ("next state past the last", 4, |random, library| {
        some_plan(random, library).states = vec![vec![branch_to(1), branch_to(random.between(2, 65_535) as u16)], vec![]];
    }),
    ("state not led to", 4, |random, library| some_plan(random, library).states = vec![vec![branch_to(2)], vec![], vec![]]),
    ("state led to twice", 4, |random, library| {
        some_plan(random, library).states = vec![vec![branch_to(1), branch_to(2)], vec![branch_to(2)], vec![]];
    }),
];

/// Damage to the bytes, with the refusal.
pub const TO_BYTES: &[(&str, u16, OnBytes)] = &[
    ("under 4 bytes", 1, |random, _, bytes| bytes.truncate(random.below(4))),
    ("over 32 plans", 1, |random, _, bytes| set(bytes, 0, random.between(33, 65_535) as u16)),
    ("over 64 beliefs", 1, |random, _, bytes| set(bytes, 2, random.between(65, 65_535) as u16)),
    ("contents past the end", 1, |random, library, bytes| bytes.truncate(random.between(4, 3 + 4 * library.plans.len()))),
    ("beliefs past the end", 1, |random, library, bytes| {
        bytes.truncate(random.between(library.front() - 8 * library.beliefs.len(), library.front() - 1));
    }),
    ("offset off by some", 2, |random, library, bytes| {
        let entry = 4 + 4 * random.below(library.plans.len());
        alter(bytes, entry, |number| number.wrapping_add(1 << random.below(16)));
    }),
    ("length off by some", 2, |random, library, bytes| {
        let entry = 6 + 4 * random.below(library.plans.len());
        alter(bytes, entry, |number| number.wrapping_sub(1 << random.below(16)));
    }),
    ("a byte too many", 2, |random, _, bytes| bytes.push(random.below(256) as u8)),
    ("a byte too few", 2, |_, _, bytes| {
        bytes.pop();
    }),
    ("a gap before the plans", 2, |_, library, bytes| bytes.insert(library.front(), 0)),
    ("a sum past 65,535", 2, |random, library, bytes| {
        for plan in 0..library.plans.len() {
            set(bytes, 6 + 4 * plan, random.between(60_000, 65_535) as u16);
        }
    }),
    ("a file of 65,535 bytes", 2, |_, _, bytes| bytes.resize(65_535, 0)),
    ("a file of 65,536 bytes", 2, |_, _, bytes| bytes.resize(65_536, 0)),
    ("a larger file with over 32 plans", 2, |random, _, bytes| {
        set(bytes, 0, random.between(33, 65_535) as u16);
        bytes.resize(random.between(65_536, 70_000), 0);
    }),
    ("an entry of no bytes", 4, |_, library, bytes| {
        bytes.truncate(library.front());
        set_entries(bytes, library, 0);
    }),
    ("a plan longer than its parts", 4, |_, library, bytes| {
        bytes.extend([0, 0]);
        let entry = 2 + 4 * library.plans.len();
        alter(bytes, entry, |length| length + 2);
    }),
    ("a plan shorter than its parts", 4, |random, library, bytes| {
        let cut = random.between(1, 20);
        bytes.truncate(bytes.len() - cut);
        let entry = 2 + 4 * library.plans.len();
        alter(bytes, entry, |length| length - cut as u16);
    }),
];

/// Damage whose refusal, if any, only running shows.
pub const UNKNOWN: &[(&str, OnBytes)] = &[
    ("one byte changed", |random, _, bytes| {
        let place = random.below(bytes.len());
        bytes[place] ^= 1 << random.below(8);
    }),
    ("some bytes changed", |random, _, bytes| {
        for _ in 0..random.between(2, 10) {
            let place = random.below(bytes.len());
            bytes[place] = random.below(256) as u8;
        }
    }),
    ("a small number changed", |random, library, bytes| {
        let place = library.front() + 2 * random.below((bytes.len() - library.front()) / 2);
        set(bytes, place, random.below(6) as u16);
    }),
    ("any bytes as a library", |random, _, bytes| {
        let length = if random.percent(50) { random.below(200) } else { random.below(65_536) };
        *bytes = (0..length).map(|_| random.below(256) as u8).collect();
        if length >= 4 && random.percent(70) {
            bytes[..4].copy_from_slice(&[random.below(40) as u8, 0, random.below(70) as u8, 0]);
        }
    }),
];

fn some_plan<'a>(random: &mut Random, library: &'a mut Library) -> &'a mut Plan {
    let place = random.below(library.plans.len());
    &mut library.plans[place]
}

/// Some branch of some plan, which gets a body of branches first.
fn some_branch<'a>(random: &mut Random, library: &'a mut Library) -> &'a mut Branch {
    let plan = some_plan(random, library);
    plan.states = path(random.between(2, 16) as u16);
    let place = random.below(plan.states.len() - 1);
    &mut plan.states[place][0]
}

/// Some branch that divides.
fn some_division<'a>(random: &mut Random, library: &'a mut Library) -> &'a mut Branch {
    let variable = random.below(8) as u16;
    let other = (variable + random.between(1, 7) as u16) % 8;
    let branch = some_branch(random, library);
    (branch.kind, branch.literal) = (DIVIDE, [variable + 8 * other, 7, 2, 0]);
    branch
}

fn path(states: u16) -> Vec<Vec<Branch>> {
    (1..states).map(|next| vec![branch_to(next)]).chain([vec![]]).collect()
}

fn branch_to(next: u16) -> Branch {
    Branch { kind: EXTERNAL, literal: [60, 1, 0, 0], next }
}

fn alter(bytes: &mut [u8], at: usize, change: impl FnOnce(u16) -> u16) {
    let number = u16::from_le_bytes([bytes[at], bytes[at + 1]]);
    set(bytes, at, change(number));
}

fn set(bytes: &mut [u8], at: usize, number: u16) {
    bytes[at..at + 2].copy_from_slice(&number.to_le_bytes());
}

/// Entries that pack plans of one length.
fn set_entries(bytes: &mut [u8], library: &Library, length: u16) {
    for plan in 0..library.plans.len() {
        set(bytes, 4 + 4 * plan, library.front() as u16 + length * plan as u16);
        set(bytes, 6 + 4 * plan, length);
    }
}
