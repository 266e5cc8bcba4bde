//! Pages of the board, written by hand from document 02, request 9.

use reference::agent::Agent;
use reference::board::{board, page};
use reference::image::{image, restore};
use reference::journal::Journal;
use reference::library::Library;
use reference::refusal::Refusal;

/// Plan 0: told +1 V0, achieve +2 V0. Plan 1: to achieve +2 V0, do action 9 with V0.
#[rustfmt::skip]
const NUMBERS: [u16; 46] = [
    2, 0, 12, 40, 52, 40,
    2, 1, 65_528, 0, 0, 1, 0, 1, 0, 0, 0, 2, 1, 3, 2, 65_528, 0, 0, 1, 0,
    3, 2, 65_528, 0, 0, 1, 0, 1, 0, 0, 0, 2, 1, 2, 9, 65_528, 0, 0, 1, 0,
];

fn loaded() -> Agent {
    let bytes: Vec<u8> = NUMBERS.iter().flat_map(|number| number.to_le_bytes()).collect();
    Agent::new(Library::decode(&bytes).expect("the library is accepted"))
}

fn after(agent: Agent, input: &str) -> Agent {
    let mut journal = Journal::new(agent);
    journal.feed(input.as_bytes(), &mut Vec::new());
    journal.into_agent()
}

/// Two jobs, each with a goal; the second one's has just been made, the first one's waits.
fn two_jobs() -> Agent {
    after(loaded(), "P 2 +1 5 0 0\nP 2 +1 65527 0 0\nC\nC\nC\nC\nC\nC\nC\n")
}

const TWO_JOBS: &str = "\
1 1          2  0  0 1 S 65527     -     -     -     -     -     -     -
1 2          4  1  0 0 A 65527     -     -     -     -     -     -     -
2 1          1  0  0 1 S     5     -     -     -     -     -     -     -
2 2          3  1  0 1 W     5     -     -     -     -     -     -     -
";

#[test]
fn stacks_in_turn_order_the_lowest_first() {
    assert_eq!(page(&two_jobs()), TWO_JOBS);
    assert!(TWO_JOBS.lines().all(|line| line.len() == 72));
}

#[test]
fn no_live_instance_is_an_empty_page() {
    assert_eq!(page(&loaded()), "");
    assert_eq!(board(&loaded(), &mut []), Ok(0));
}

#[test]
fn the_last_id_fills_its_column() {
    let mut bytes = image(&loaded());
    // the second of the two counts, before the width
    let made = bytes.len() - 6;
    bytes[made..made + 4].copy_from_slice(&(u32::MAX - 1).to_le_bytes());
    let agent = after(restore(&bytes).expect("counts may be any"), "P 2 +1 0 0 0\nC\n");
    assert_eq!(page(&agent), "1 1 4294967295  0  0 0 A     0     -     -     -     -     -     -     -\n");
}

#[test]
fn a_page_fills_the_front_of_a_buffer() {
    let length = TWO_JOBS.len();
    let mut short = vec![7; length - 1];
    assert_eq!(board(&two_jobs(), &mut short), Err(Refusal::BoardRoom));
    assert!(short.iter().all(|byte| *byte == 7));
    for room in [length, length + 1, 2 * length] {
        let mut buffer = vec![7; room];
        assert_eq!(board(&two_jobs(), &mut buffer), Ok(length));
        assert_eq!(&buffer[..length], TWO_JOBS.as_bytes());
        assert!(buffer[length..].iter().all(|byte| *byte == 7));
    }
}
