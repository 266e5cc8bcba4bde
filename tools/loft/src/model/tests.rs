//! Document 01's small cases, what requests 1, 11 and 12 add, and that no line and no library makes the replay panic.

use super::environment::Environment;
use super::situation::{first, least};
use super::step::{Came, Deed, Step, Why};
use super::*;
use crate::journal;
use crate::language::compile;
use crate::library;
use crate::words::Words;

const CELLS: [&str; 2] =
    [include_str!("../../../../examples/cutting-cell/cell.plan"), include_str!("../../../../examples/eight-racks/cell.plan")];
const V0: u16 = library::FIRST_VARIABLE;

fn literal(negative: bool, predicate: u16, terms: [u16; 3]) -> Literal {
    Literal { negative, predicate, terms }
}

fn beliefs() -> Vec<Literal> {
    vec![literal(false, 1, [5, 0, 0]), literal(false, 1, [6, 0, 0]), literal(false, 2, [6, 0, 0])]
}

/// The constant of V0 in the first solution, and in the least one.
fn solved(situation: &[Vec<Literal>], beliefs: &[Literal]) -> [Option<Option<u16>>; 2] {
    let start = Environment::default();
    let found = [first(situation, beliefs, &start), least(situation, beliefs, &start, 0)];
    found.map(|solution| solution.ok().map(|solution| solution.environment.get(0)))
}

#[test]
fn small_cases_of_situations() {
    let one = literal(false, 1, [V0, 0, 0]);
    let two = literal(false, 2, [V0, 0, 0]);
    let cases: [(&[Vec<Literal>], [Option<Option<u16>>; 2]); 7] = [
        (&[vec![one]], [Some(Some(5)), Some(Some(5))]),
        (&[vec![one, two]], [Some(Some(6)), Some(Some(6))]),
        (&[vec![two], vec![one]], [Some(Some(6)), Some(Some(5))]),
        (&[], [None, None]),
        (&[vec![]], [Some(None), Some(None)]),
        (&[vec![literal(true, 1, [V0, 0, 0])]], [None, None]),
        (&[vec![literal(false, 1, [V0, V0, 0])]], [None, None]),
    ];
    for (place, (situation, wanted)) in cases.into_iter().enumerate() {
        assert_eq!(solved(situation, &beliefs()), wanted, "case {}", place + 1);
    }
    // unbound counts above all constants, and equal values go to the earlier
    assert_eq!(solved(&[vec![], vec![one]], &beliefs()), [Some(None), Some(Some(5))]);
}

/// A library of 58 bytes: when +1 x is gained, do action 9 with x, then remove +1 x.
fn small_library() -> Library {
    let trigger = literal(false, 1, [V0, 0, 0]);
    let branch = Branch { kind: library::EXTERNAL, literal: literal(false, 9, [V0, 0, 0]), next: 1 };
    let plan = library::Plan {
        kind: ADDED,
        least: None,
        trigger,
        context: vec![vec![]],
        maintenance: vec![vec![]],
        success: vec![library::Action { removes: true, literal: trigger }],
        failure: vec![],
        states: vec![vec![branch], vec![]],
    };
    Library { beliefs: vec![], plans: vec![plan] }
}

fn answers(library: &Library, lines: &[&str]) -> Vec<String> {
    let mut agent = Agent::new(library);
    let answer = |line: &&str| {
        let mut text = vec![];
        journal::print(&agent.call(&journal::call(line.as_bytes())), &mut text);
        String::from_utf8(text).expect("plain letters")
    };
    lines.iter().map(answer).collect()
}

#[test]
fn journal_of_document_01() {
    let library = small_library();
    assert_eq!(library::write(&library).len(), 58);
    let worked = answers(&library, &["P 0 +1 5 0 0", "C", "C", "C", "O 1 1", "C", "C", "O 1 1"]);
    assert_eq!(worked, ["T 1 a +1 5 0 0", "M 1 0 e 1", "D 1 0 0 +9 5 0 0", "I", "S 1 0 0 1", "E 1 r +1 5 0 0", "I", "X 8"]);
    let missed = answers(&library, &["P 0 +1 5 0 0", "C", "C", "C", "O 1 0", "C", "C", "O 1 1"]);
    assert_eq!(missed[4..], ["B 1 0 0", "F 1", "N 1 1", "X 8"]);
    let opposites = answers(&library, &["P 0 +7 5 0 0", "P 0 -7 5 0 0", "P 1 +7 5 0 0", "P 00 -00007 5 0 00"]);
    assert_eq!(opposites, ["T 1 a +7 5 0 0", "T 2 r +7 5 0 0 a -7 5 0 0", "T 3", "T 4"]);
}

#[test]
fn divides_exactly() {
    let mut library = small_library();
    let divided = |length: u16, panel: u16, library: &mut Library| -> Step {
        let terms = [length, panel, 0];
        library.plans[0].states[0][0] = Branch { kind: library::DIVIDE, literal: literal(false, 1 + 8 * 2, terms), next: 1 };
        let mut agent = Agent::new(library);
        agent.call(&Call::Report(ADDED, literal(false, 1, [1_000, 0, 0])));
        agent.call(&Call::Cycle);
        agent.call(&Call::Cycle)
    };
    let step = divided(V0, 300, &mut library);
    assert!(matches!(step.deed, Deed::Stepped { next: 1, .. }) && step.changes.is_empty());
    let Why::Trial(trial) = step.why else { panic!("a branch is tried") };
    assert_eq!((trial.after.get(1), trial.after.get(2)), (Some(3), Some(100)));
    for (length, panel, came) in [(V0, 0, Came::PanelZero), (V0 + 3, 300, Came::Unbound)] {
        let Why::Trial(trial) = divided(length, panel, &mut library).why else { panic!("a branch is tried") };
        assert_eq!(trial.came, came);
    }
}

/// Numbers from a seed (xorshift).
fn random(state: &mut u64, end: u64) -> u64 {
    *state ^= *state << 13;
    *state ^= *state >> 7;
    *state ^= *state << 17;
    (*state >> 11) % end
}

#[test]
fn no_line_makes_the_replay_panic() {
    let mut state = 0x9e37_79b9_7f4a_7c15;
    for cell in CELLS {
        let compiled = compile("cell.plan", cell);
        let library = compiled.library;
        let words = Words { library: &library, names: &compiled.names, all: true };
        let mut agent = Agent::new(&library);
        for _ in 0..50_000 {
            let mut line = match random(&mut state, 8) {
                0 => format!(
                    "P {} +{} {} {} 0",
                    random(&mut state, 4),
                    random(&mut state, 50),
                    random(&mut state, 300),
                    random(&mut state, 9)
                ),
                1 => format!("O {} {}", random(&mut state, 300), random(&mut state, 2)),
                _ => "C".to_string(),
            }
            .into_bytes();
            if random(&mut state, 20) == 0 {
                let place = random(&mut state, line.len() as u64) as usize;
                line[place] = random(&mut state, 256) as u8;
            }
            let call = journal::call(&line);
            if call == Call::Unreadable {
                journal::why_unreadable(&line);
            }
            let step = agent.call(&call);
            let (mut text, mut told) = (vec![], String::new());
            journal::print(&step, &mut text);
            words.tell(&line, &step, &mut told);
            assert!(!text.is_empty() && !told.is_empty() && agent.beliefs().len() <= library::MOST_BELIEFS);
        }
    }
}
