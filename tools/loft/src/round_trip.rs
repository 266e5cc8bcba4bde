//! Tests on generated libraries and damaged bytes: decompile and build give the same bytes, and nothing panics.

use crate::decompile::source;
use crate::language::compile;
use crate::library::{self, *};
use crate::names::Names;

const CELLS: [&str; 2] =
    [include_str!("../../../examples/cutting-cell/cell.plan"), include_str!("../../../examples/eight-racks/cell.plan")];

/// Numbers from a seed (xorshift).
struct Random(u64);

impl Random {
    fn below(&mut self, end: usize) -> usize {
        self.0 ^= self.0 << 13;
        self.0 ^= self.0 >> 7;
        self.0 ^= self.0 << 17;
        (self.0 >> 11) as usize % end
    }

    fn pick<T: Copy>(&mut self, items: &[T]) -> T {
        items[self.below(items.len())]
    }

    fn several<T>(&mut self, most: usize, mut item: impl FnMut(&mut Self) -> T) -> Vec<T> {
        (0..self.below(most + 1)).map(|_| item(self)).collect()
    }
}

fn literal(random: &mut Random, is_ground: bool) -> Literal {
    let term = |random: &mut Random| match random.below(if is_ground { 3 } else { 6 }) {
        0 => 0,
        1 => random.pick(&[1, 2, 65_527]),
        2 => random.below(9) as u16,
        _ => FIRST_VARIABLE + random.below(MOST_VARIABLES) as u16,
    };
    let predicate = random.pick(&[0, 1, 2, 3, 40, 32_767]);
    Literal { negative: random.below(4) == 0, predicate, terms: [term(random), term(random), term(random)] }
}

fn branch(random: &mut Random, next: u16) -> Branch {
    let kind = random.below(6) as u16;
    let mut literal = literal(random, false);
    if kind == EXTERNAL {
        literal.negative = false;
    }
    if kind == DIVIDE {
        let whole = random.below(8) as u16;
        let rest = (whole + 1 + random.below(7) as u16) % 8;
        literal = Literal { negative: false, predicate: whole + 8 * rest, terms: [literal.terms[0], literal.terms[1], 0] };
    }
    Branch { kind, literal, next }
}

/// A tree of states, each hung below an earlier one that has room; now and then a branch is repeated.
fn states(random: &mut Random) -> Vec<Vec<Branch>> {
    let count = random.pick(&[1, 2, 3, 5, 8, 16]);
    let mut states: Vec<Vec<Branch>> = vec![vec![]];
    for next in 1..count {
        let room: Vec<usize> = (0..next).filter(|state| states[*state].len() < MOST_ITEMS).collect();
        let parent = random.pick(&room);
        let repeated = states[parent].last().copied().filter(|_| random.below(2) == 0);
        let branch = repeated.unwrap_or_else(|| branch(random, 0));
        states[parent].push(Branch { next: next as u16, ..branch });
        states.push(vec![]);
    }
    states
}

fn plan(random: &mut Random) -> Plan {
    let situation = |random: &mut Random| match random.below(3) {
        0 => vec![vec![]],
        _ => random.several(MOST_ITEMS, |random| random.several(MOST_ITEMS, |random| literal(random, false))),
    };
    let list = |random: &mut Random| {
        random.several(MOST_ITEMS, |random| Action { removes: random.below(2) == 0, literal: literal(random, false) })
    };
    Plan {
        kind: random.below(5) as u16,
        least: (random.below(3) == 0).then(|| random.below(MOST_VARIABLES) as u8),
        trigger: literal(random, false),
        context: situation(random),
        maintenance: situation(random),
        success: list(random),
        failure: list(random),
        states: states(random),
    }
}

fn generated(seed: u64) -> Library {
    let mut random = Random(seed.wrapping_mul(0x9e37_79b9_7f4a_7c15) | 1);
    let mut beliefs: Vec<Literal> = vec![];
    for belief in random.several(20, |random| literal(random, true)) {
        if !beliefs.contains(&belief) && !beliefs.contains(&belief.opposite()) {
            beliefs.push(belief);
        }
    }
    Library { beliefs, plans: random.several(8, plan) }
}

/// Decompiles, builds, and does both again with the names of the first build.
fn assert_round_trip(library: &Library) {
    let bytes = library::write(library);
    let text = source(library, &Names::none()).expect("a source that builds to the same bytes");
    let built = compile("a.plan", &text);
    assert_eq!(built.faults.errors(), 0, "{}", built.faults.shown("a.plan", &text));
    assert_eq!(library::write(&built.library), bytes, "{text}");
    let names = Names::read(&built.names.write(&bytes), &bytes).expect("names");
    assert_eq!(names, built.names);
    let named = source(library, &names).expect("a source with names");
    assert_eq!(library::write(&compile("b.plan", &named).library), bytes, "{named}");
}

#[test]
fn generated_libraries_come_back() {
    for seed in 0..400 {
        let library = generated(seed);
        assert_eq!(library::read(&library::write(&library)).as_ref(), Ok(&library), "seed {seed}");
        assert_round_trip(&library);
    }
}

#[test]
fn the_largest_library_comes_back() {
    let mut random = Random(7);
    let mut large =
        |literal: Literal| Literal { terms: literal.terms.map(|_| FIRST_VARIABLE + random.below(8) as u16), ..literal };
    let any = Literal { negative: false, predicate: 1, terms: [0; 3] };
    let situation: Situation = (0..4).map(|_| (0..4).map(|_| large(any)).collect()).collect();
    let list: Vec<Action> = (0..4).map(|place| Action { removes: place % 2 == 0, literal: large(any) }).collect();
    let chain = (0..15).map(|state| vec![Branch { kind: ADD, literal: large(any), next: state + 1 }]).chain([vec![]]).collect();
    let plan = Plan {
        kind: TOLD,
        least: Some(7),
        trigger: large(any),
        context: situation.clone(),
        maintenance: situation,
        success: list.clone(),
        failure: list,
        states: chain,
    };
    let beliefs = (0..64).map(|value| Literal { terms: [value, 0, 0], ..any }).collect();
    let library = Library { beliefs, plans: vec![plan; MOST_PLANS] };
    assert_eq!(library::write(&library).len(), 19_332);
    assert_round_trip(&library);
}

#[test]
fn damaged_libraries_are_refused_or_come_back() {
    let mut random = Random(11);
    for seed in 0..400 {
        let mut bytes = library::write(&generated(seed));
        for _ in 0..=random.below(3) {
            let at = random.below(bytes.len());
            match random.below(4) {
                0 => bytes.truncate(at.max(1)),
                1 => bytes.insert(at, random.below(256) as u8),
                _ => bytes[at] = random.pick(&[0, 1, 2, 4, 5, 16, 128, 248, 255]),
            }
        }
        if let Ok(library) = library::read(&bytes) {
            assert_eq!(library::write(&library), bytes);
            assert_round_trip(&library);
        }
    }
}

/// A text with pieces put in, taken out, or its end cut off.
fn damaged(random: &mut Random, text: &str) -> String {
    let pieces = [
        "{",
        "}",
        "(",
        ")",
        ",",
        "either",
        "plan",
        "or",
        "~",
        "-> 3",
        "65530",
        "99999999999999999999",
        "V7",
        "_",
        "é",
        "\"",
        "--",
    ];
    let mut text: Vec<char> = text.chars().collect();
    for _ in 0..=random.below(4) {
        let at = random.below(text.len() + 1);
        let end = (at + random.below(30)).min(text.len());
        match random.below(3) {
            0 => drop(text.drain(at..end)),
            1 => text.truncate(at.max(1)),
            _ => drop(text.splice(at..at, random.pick(&pieces).chars())),
        }
    }
    text.into_iter().collect()
}

#[test]
fn damaged_sources_give_faults_and_no_panic() {
    let mut random = Random(13);
    for round in 0..1_000 {
        let text = damaged(&mut random, CELLS[round % 2]);
        let compiled = compile("damaged.plan", &text);
        compiled.faults.shown("damaged.plan", &text);
        if compiled.faults.errors() == 0 {
            let bytes = library::write(&compiled.library);
            assert_eq!(library::read(&bytes), Ok(compiled.library), "{text}");
        }
    }
}

#[test]
fn deep_and_wide_sources_end_in_time() {
    let deep = format!("told t = 1\nplan p on told t {}", "{ either ".repeat(100_000));
    let wide = format!(
        "told t = 1\naction a = 2\nplan p on told t {{ {} }}",
        "either { do a } or { do a up to 3 times } ".repeat(20_000)
    );
    for text in [deep, wide] {
        assert!(compile("large.plan", &text).faults.errors() > 0);
    }
}

#[test]
fn of_many_faults_the_first_are_shown() {
    let text = "?\n".repeat(300);
    assert!(compile("many.plan", &text).faults.shown("many.plan", &text).ends_with("many.plan: and 100 more\n"));
}

#[test]
fn damaged_names_give_no_panic() {
    let compiled = compile("cell.plan", CELLS[1]);
    let bytes = library::write(&compiled.library);
    let names = compiled.names.write(&bytes);
    let mut random = Random(17);
    for _ in 0..300 {
        if let Ok(names) = Names::read(&damaged(&mut random, &names), &bytes) {
            source(&compiled.library, &names);
        }
    }
}

#[test]
fn names_of_another_library_are_refused() {
    let names = compile("cell.plan", CELLS[0]).names;
    let text = names.write(&[1, 2, 3]);
    assert!(Names::read(&text, &[1, 2, 4]).is_err());
    assert!(Names::read("", &[]).is_err());
    for line in ["type", "predicate x", "plan a", "state 1", "what"] {
        assert!(Names::read(&format!("{}{line}\n", Names::none().write(&[])), &[]).is_err(), "{line}");
    }
}
