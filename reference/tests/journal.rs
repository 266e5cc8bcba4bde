//! The example of document 01 with its small cases 9 and 10, and how lines are told apart.

use reference::agent::Agent;
use reference::journal::Journal;
use reference::library::Library;

/// The library of 58 bytes of document 01, number by number.
const NUMBERS: [u16; 29] = [
    1, 0, 8, 50, // one plan, no beliefs, plan 0 at 8 with 50 bytes
    0, 1, 65_528, 0, 0, // belief added: +1 V0 0 0
    1, 0, 1, 0, // context and maintenance: one empty alternative
    1, 1, 1, 65_528, 0, 0, // success removes +1 V0 0 0
    0, // no failure actions
    2, 1, 2, 9, 65_528, 0, 0, 1, // two states; state 0 does +9 V0 0 0 and goes to state 1
    0, // state 1 ends
];

fn journal() -> Journal {
    let bytes: Vec<u8> = NUMBERS.iter().flat_map(|number| number.to_le_bytes()).collect();
    assert_eq!(bytes.len(), 58);
    Journal::new(Agent::new(Library::decode(&bytes).expect("the example is accepted")))
}

fn answers(input: &str) -> String {
    let mut journal = journal();
    let mut output = Vec::new();
    journal.feed(input.as_bytes(), &mut output);
    journal.finish(&mut output);
    String::from_utf8(output).expect("answers are text")
}

#[test]
fn case_9_the_example() {
    let expected = "T 1 a +1 5 0 0\nM 1 0 e 1\nD 1 0 0 +9 5 0 0\nI\nS 1 0 0 1\nE 1 r +1 5 0 0\nI\nX 8\n";
    assert_eq!(answers("P 0 +1 5 0 0\nC\nC\nC\nO 1 1\nC\nC\nO 1 1"), expected);
    assert_eq!(answers("P 0 +1 5 0 0\nC\nC\nC\nO 1 1\nC\nC\nO 1 1\n"), expected);
}

#[test]
fn case_10_the_action_does_not_work() {
    let expected = "T 1 a +1 5 0 0\nM 1 0 e 1\nD 1 0 0 +9 5 0 0\nI\nB 1 0 0\nF 1\nN 1 1\nX 8\n";
    assert_eq!(answers("P 0 +1 5 0 0\nC\nC\nC\nO 1 0\nC\nC\nO 1 1\n"), expected);
}

#[test]
fn answers_do_not_depend_on_the_pieces() {
    let input = b"P 0 +1 5 0 0\nC\n\nC\nO 00001 1\nC 1\nC\nP 65535 -32767 65535 0 0\nO 1 1";
    let mut whole = Vec::new();
    let mut one = journal();
    one.feed(input, &mut whole);
    one.finish(&mut whole);
    for size in 1..input.len() {
        let mut pieces = Vec::new();
        let mut other = journal();
        for piece in input.chunks(size) {
            other.feed(piece, &mut pieces);
        }
        other.finish(&mut pieces);
        assert_eq!(pieces, whole, "pieces of {size}");
    }
}

/// Lines that are none of the three calls.
#[rustfmt::skip]
const UNREADABLE: &[&str] = &[
    "", " ", "C ", " C", "c", "CC", "C\r", "C\t", "C 0", "P", "P 0", "P 0 +1 5 0", "P 0 +1 5 0 0 ", "P 0 +1 5 0 0 0",
    "P 0 1 5 0 0", "P  0 +1 5 0 0", "P 0 + 5 0 0", "P 0 +32768 5 0 0", "P 0 +1 65536 0 0", "P 0 +1 000005 0 0",
    "P 65536 +1 5 0 0", "P 0 +-1 5 0 0", "P -0 +1 5 0 0", "P 0 +1 5 0 0\0", "O", "O 1", "O 1 2", "O 1 01", "O 1 1 1",
    "O 4294967296 1", "O 9999999999 1", "O 00000000001 1", "O 18446744073709551617 1", "O +1 1", "O  1", "X 1",
];

#[test]
fn unreadable_lines() {
    for line in UNREADABLE {
        assert_eq!(answers(&format!("{line}\n")), "X 0\n", "{line:?}");
    }
    assert_eq!(answers(&"C".repeat(100_000)), "X 0\n");
    assert_eq!(answers(""), "");
}

#[test]
fn readable_lines_that_are_refused() {
    assert_eq!(answers("P 3 +1 5 0 0\nP 65535 +1 5 0 0\nP 0 +1 65528 0 0\nO 0 1\n"), "X 5\nX 5\nX 5\nX 8\n");
    assert_eq!(answers("O 65536 1\nO 4294967295 1\nO 0000000001 1\nO 100000 0\n"), "X 8\nX 8\nX 8\nX 8\n");
    assert_eq!(answers("P 00000 -00000 00005 0 00\n"), "T 1 a -0 5 0 0\n");
}
