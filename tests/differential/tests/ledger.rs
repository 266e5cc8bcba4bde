//! The check of a journal by itself accepts true journals and refuses tampered ones.

use differential::coverage::Coverage;
use differential::ledger::{check, parse};
use differential::random::Random;
use differential::scenario;

const CALLS: &str = "P 0 +1 5 0 0\nC\nC\nC\nO 1 1\nC\nC\nO 1 1\n";
const ANSWERS: [&str; 8] = ["T 1 a +1 5 0 0", "M 1 0 e 1", "D 1 0 0 +9 5 0 0", "I", "S 1 0 0 1", "E 1 r +1 5 0 0", "I", "X 8"];

fn checked(answers: &[&str]) -> Result<Vec<[u16; 4]>, String> {
    check(vec![], CALLS.as_bytes(), answers.join("\n").as_bytes())
}

#[test]
fn the_example_is_accepted() {
    assert_eq!(checked(&ANSWERS), Ok(vec![]));
}

#[test]
fn each_tampered_line_of_the_example_is_refused() {
    let tampered = [
        (0, "T 2 a +1 5 0 0"),
        (0, "T 1"),
        (0, "T 1 a +1 6 0 0"),
        (0, "T 1 a +1 5 0 0 a +2 5 0 0"),
        (0, "T 01 a +1 5 0 0"),
        (1, "M 2 0 e 1"),
        (1, "M 1 0 e 2"),
        (1, "M 1 0 g 1"),
        (1, "N 1 1"),
        (1, "I"),
        (2, "D 2 0 0 +9 5 0 0"),
        (2, "D 1 0 1 +9 5 0 0"),
        (2, "D 1 0 0 -9 5 0 0"),
        (2, "D 1 0 0"),
        (3, "E 1"),
        (3, "I a +2 5 0 0"),
        (4, "S 1 0 1 1"),
        (4, "B 1 0 0"),
        (4, "X 8"),
        (5, "E 1 a +1 5 0 0"),
        (5, "E 1 r +1 6 0 0"),
        (5, "E 2 r +1 5 0 0"),
        (5, "I"),
        (6, "E 1"),
        (6, "F 1"),
        (6, "C"),
        (7, "S 1 0 0 1"),
        (7, "X 0"),
    ];
    for (place, line) in tampered {
        let mut answers = ANSWERS;
        answers[place] = line;
        assert!(checked(&answers).is_err(), "{line} in line {}", place + 1);
    }
    assert!(checked(&ANSWERS[..7]).is_err());
}

/// Of generated journals: any line said twice, left out or exchanged for another is noticed, save where two lines are equal.
#[test]
fn generated_journals_are_accepted_and_tampered_ones_refused() {
    let mut random = Random::new(7);
    for seed in 0..30 {
        let scenario = scenario::valid(seed, &mut Coverage::default());
        let beliefs = || parse::beliefs(scenario.library.as_deref().unwrap_or_default());
        assert!(check(beliefs(), &scenario.input, &scenario.output).is_ok(), "seed {seed}");
        let lines = parse::lines(&scenario.output);
        let acts: Vec<usize> = (0..lines.len()).filter(|place| !matches!(lines[*place][0], b'X' | b'I')).collect();
        for _ in 0..10.min(acts.len()) {
            let place = *random.pick(&acts);
            let mut tampered = lines.clone();
            tampered[place] = *random.pick(&[&b"I"[..], b"X 0", b"X 8", lines[place.saturating_sub(1)]]);
            if tampered[place] != lines[place] {
                let output = tampered.join(&b'\n');
                assert!(check(beliefs(), &scenario.input, &output).is_err(), "seed {seed} line {}", place + 1);
            }
        }
    }
}

/// A report, a branch and a list that turn a belief over, and what they may not say of it.
#[test]
fn an_opposite_is_taken_out_before_the_add_and_by_the_same_action() {
    let calls = "P 0 -1 5 0 0\nC\nC\nC\n";
    let answers = [
        "T 1 r +1 5 0 0 a -1 5 0 0",
        "M 1 0 e 1",
        "S 1 0 0 1 r -1 5 0 0 a +1 5 0 0",
        "E 1 a +2 5 0 0 r +2 5 0 0 a -2 5 0 0 r -2 5 0 0 a +2 5 0 0 a +3 5 0 0",
    ];
    let checked = |answers: &[&str]| check(vec![[1, 5, 0, 0]], calls.as_bytes(), answers.join("\n").as_bytes());
    assert_eq!(checked(&answers), Ok(vec![[1, 5, 0, 0], [2, 5, 0, 0], [3, 5, 0, 0]]));
    let tampered = [
        (0, "T 1 a -1 5 0 0"),
        (0, "T 1 a -1 5 0 0 r +1 5 0 0"),
        (2, "S 1 0 0 1 a +1 5 0 0"),
        (2, "S 1 0 0 1 r -1 5 0 0 a +2 5 0 0"),
        (3, "E 1 a +2 5 0 0 r +2 5 0 0 a -2 5 0 0 a +3 5 0 0 a +4 5 0 0 a +5 5 0 0"),
    ];
    for (place, line) in tampered {
        let mut answers = answers;
        answers[place] = line;
        assert!(checked(&answers).is_err(), "{line} in line {}", place + 1);
    }
}
