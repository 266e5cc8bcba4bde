//! The example of docs/IMAGE-FORMAT.md, what is refused of it, and agents that are carried over.

use reference::agent::Agent;
use reference::image::{image, restore, save};
use reference::journal::Journal;
use reference::library::Library;
use reference::refusal::Refusal;

/// The library of 58 bytes of document 01.
#[rustfmt::skip]
const LIBRARY: [u8; 58] = [
    1, 0, 0, 0, 8, 0, 50, 0,
    0, 0, 1, 0, 248, 255, 0, 0, 0, 0,
    1, 0, 0, 0, 1, 0, 0, 0,
    1, 0, 1, 0, 1, 0, 248, 255, 0, 0, 0, 0,
    0, 0,
    2, 0, 1, 0, 2, 0, 9, 0, 248, 255, 0, 0, 0, 0, 1, 0,
    0, 0,
];

/// The page's example in one of its forms, and where its parts stand.
struct Example {
    contents: &'static [u8],
    /// The bodies behind the library.
    bodies: &'static [u8],
    beliefs: usize,
    events: usize,
    event: usize,
    stacks: usize,
    instance: usize,
    counts: usize,
    /// The bytes of an event's number, an id or a count.
    number: usize,
}

#[rustfmt::skip]
const OLD: Example = Example {
    contents: &[20, 0, 58, 0, 78, 0, 10, 0, 88, 0, 24, 0, 112, 0, 32, 0, 144, 0, 4, 0],
    bodies: &[
        1, 0, 1, 0, 5, 0, 0, 0, 0, 0,
        1, 0, 0, 0, 0, 0, 0, 0, 0, 0, 1, 0, 5, 0, 0, 0, 0, 0, 0, 0, 0, 0, 1, 0,
        1, 0, 1, 0, 1, 0,
        0, 0, 0, 0, 1, 0, 1, 0, 5, 0, 249, 255, 250, 255, 251, 255, 252, 255, 253, 255, 254, 255, 255, 255, 1, 0,
        1, 0, 1, 0,
    ],
    beliefs: 78, events: 88, event: 90, stacks: 112, instance: 118, counts: 144, number: 2,
};

#[rustfmt::skip]
const NEW: Example = Example {
    contents: &[24, 0, 58, 0, 82, 0, 10, 0, 92, 0, 26, 0, 118, 0, 36, 0, 154, 0, 8, 0, 162, 0, 2, 0],
    bodies: &[
        1, 0, 1, 0, 5, 0, 0, 0, 0, 0,
        1, 0, 0, 0, 0, 0, 0, 0, 0, 0, 1, 0, 5, 0, 0, 0, 0, 0, 0, 0, 0, 0, 1, 0, 0, 0,
        1, 0, 1, 0, 1, 0, 0, 0,
        0, 0, 0, 0, 1, 0, 1, 0, 5, 0, 249, 255, 250, 255, 251, 255, 252, 255, 253, 255, 254, 255, 255, 255, 1, 0, 0, 0,
        1, 0, 0, 0, 1, 0, 0, 0,
        32, 0,
    ],
    beliefs: 82, events: 92, event: 94, stacks: 118, instance: 126, counts: 154, number: 4,
};

impl Example {
    fn bytes(&self) -> Vec<u8> {
        [self.contents, &LIBRARY, self.bodies].concat()
    }

    /// What comes of the example with some numbers put in place of its own.
    fn with(&self, changes: &[(usize, u16)]) -> Option<u16> {
        let mut bytes = self.bytes();
        for (place, number) in changes {
            bytes[*place..place + 2].copy_from_slice(&number.to_le_bytes());
        }
        refused(&bytes)
    }
}

fn ran(agent: Agent, input: &str) -> (Agent, String) {
    let mut journal = Journal::new(agent);
    let mut output = Vec::new();
    journal.feed(input.as_bytes(), &mut output);
    journal.finish(&mut output);
    (journal.into_agent(), String::from_utf8(output).expect("answers are text"))
}

fn loaded() -> Agent {
    Agent::new(Library::decode(&LIBRARY).expect("the example is accepted"))
}

/// The refusal's number; an accepted image of the newest form is the image of its agent.
fn refused(bytes: &[u8]) -> Option<u16> {
    match restore(bytes) {
        Ok(agent) => {
            assert!(bytes[0] == 20 || image(&agent) == bytes);
            None
        }
        Err(refusal) => Some(refusal.number()),
    }
}

#[test]
fn the_example_of_the_page() {
    let (agent, _) = ran(loaded(), "P 0 +1 5 0 0\nC\nC\n");
    assert_eq!(image(&agent), NEW.bytes());
    assert_eq!((OLD.bytes().len(), NEW.bytes().len()), (148, 164));
    for form in [OLD, NEW] {
        assert_eq!(image(&restore(&form.bytes()).expect("an image")), NEW.bytes());
        assert_eq!(form.with(&[(12, 4), (form.instance, 3)]), Some(12));
        assert_eq!(form.with(&[(form.instance, 3)]), Some(10));
    }
}

#[test]
fn a_restored_agent_carries_on() {
    for form in [OLD, NEW] {
        let restored = restore(&form.bytes()).expect("an image");
        assert_eq!(ran(restored, "C\nO 1 1\nC\nC\nO 1 1\n").1, "I\nS 1 0 0 1\nE 1 r +1 5 0 0\nI\nX 8\n");
    }
    let lines = ["P 0 +1 5 0 0\n", "C\n", "C\n", "C\n", "O 1 0\n", "C\n", "P 2 +1 9 0 0\n", "C\n", "C\n"];
    let (mut whole, mut carried) = (loaded(), loaded());
    for line in lines {
        let (next, answer) = ran(whole, line);
        let (other, same) = ran(restore(&image(&carried)).expect("an image"), line);
        assert_eq!(answer, same);
        assert_eq!(image(&next), image(&other));
        (whole, carried) = (next, other);
    }
}

#[test]
fn contents_that_are_not_packed() {
    for form in [OLD, NEW] {
        for length in 0..form.bytes().len() {
            assert_eq!(refused(&form.bytes()[..length]), Some(12), "{length} bytes");
        }
        assert_eq!(refused(&[form.bytes(), vec![0]].concat()), Some(12));
        for place in (0..form.contents.len()).step_by(2) {
            let number = u16::from_le_bytes([form.contents[place], form.contents[place + 1]]);
            for other in (0..=u16::MAX).filter(|other| *other != number) {
                assert_eq!(form.with(&[(place, other)]), Some(12), "{other} at {place}");
            }
        }
    }
}

#[test]
fn another_width_of_numbers() {
    let width = NEW.counts + 8;
    for other in (0..=u16::MAX).filter(|other| *other != 32) {
        assert_eq!(NEW.with(&[(width, other)]), Some(12), "{other} bits");
    }
    // the old form's numbers with the new form's contents, and a width of 16 bits
    let contents = [24, 0, 58, 0, 82, 0, 10, 0, 92, 0, 24, 0, 116, 0, 32, 0, 148, 0, 4, 0, 152, 0, 2, 0];
    for width in [16, 32] {
        assert_eq!(refused(&[&contents[..], &LIBRARY, OLD.bodies, &[width, 0]].concat()), Some(12));
    }
}

#[test]
fn bodies_that_do_not_fill_their_length() {
    for form in [OLD, NEW] {
        for count in [form.beliefs, form.events, form.stacks] {
            for other in [0, 2, 8, 9, 64, 65, 88, 89, u16::MAX] {
                assert_eq!(form.with(&[(count, other)]), Some(12), "{other} items at {count}");
            }
        }
    }
    // the counts get two bytes of the stacks' body, or give two to it
    assert_eq!(OLD.with(&[(14, 30), (16, 142), (18, 6)]), Some(12));
    assert_eq!(OLD.with(&[(14, 34), (16, 146), (18, 2)]), Some(12));
    assert_eq!(NEW.with(&[(14, 34), (16, 152), (18, 10)]), Some(12));
    assert_eq!(NEW.with(&[(14, 38), (16, 156), (18, 6)]), Some(12));
}

#[test]
fn lists_and_a_library_over_their_limits() {
    let sized = |library: usize, beliefs: usize| {
        let bodies = [vec![7; library], vec![beliefs as u8, 0], vec![9; 8 * beliefs], vec![0; 12], vec![32, 0]].concat();
        let mut contents = vec![];
        let mut offset = 24;
        for length in [library, 2 + 8 * beliefs, 2, 2, 8, 2] {
            contents.extend([offset as u16, length as u16].map(u16::to_le_bytes).concat());
            offset += length;
        }
        refused(&[contents, bodies].concat())
    };
    assert_eq!(sized(19_332, 64), Some(10));
    assert_eq!(sized(19_333, 64), Some(12));
    assert_eq!(sized(19_332, 65), Some(12));
    assert_eq!(sized(0, 0), Some(10));
}

#[test]
fn codes_that_the_page_does_not_give() {
    for form in [OLD, NEW] {
        // an external event has no state and no branch; a goal may have any, though nobody posted it
        assert_eq!(form.with(&[(form.event, 2)]), Some(12));
        assert_eq!(form.with(&[(form.event + 2, 1)]), Some(12));
        assert_eq!(form.with(&[(form.event + 4, 1)]), Some(12));
        assert_eq!(form.with(&[(form.event, 1), (form.event + 2, u16::MAX), (form.event + 4, u16::MAX)]), Some(10));
        assert_eq!(form.with(&[(form.event + 6, 5)]), Some(12));
        assert_eq!(form.with(&[(form.stacks + 2, 0)]), Some(12));
        assert_eq!(form.with(&[(form.stacks + 2, 9)]), Some(12));
        assert_eq!(form.with(&[(form.instance + 6, 3)]), Some(12));
        for variable in 0..8 {
            for number in 65_528..=u16::MAX {
                let expected = (number != 65_528 + variable).then_some(12);
                let place = form.instance + 8 + 2 * usize::from(variable);
                assert_eq!(form.with(&[(place, number)]), expected, "{number} as V{variable}");
            }
        }
    }
}

#[test]
fn states_that_are_not_well_formed() {
    for form in [OLD, NEW] {
        let Example { beliefs, event, instance, .. } = form;
        // a library that load refuses
        assert_eq!(form.with(&[(form.contents.len(), 2)]), Some(10));
        // a belief, then an event, of a variable
        assert_eq!(form.with(&[(beliefs + 4, 65_528)]), Some(10));
        assert_eq!(form.with(&[(event + 10, 65_528)]), Some(10));
        // kinds of goals in an external event, another kind than the plan's
        for kind in 1..5 {
            assert_eq!(form.with(&[(event + 6, kind)]), Some(10), "kind {kind}");
        }
        // failed: the plan that serves, a plan that does not exist
        assert_eq!(form.with(&[(event + 16, 1)]), Some(10));
        assert_eq!(form.with(&[(event + 16, 2)]), Some(10));
        assert_eq!(form.with(&[(event + 18, 0x8000)]), Some(10));
        // plan, state and tried; an end waits for nothing
        for (place, number) in [(0, 1), (2, 1), (2, 2), (4, 0), (4, 2), (6, 2)] {
            assert_eq!(form.with(&[(instance + place, number)]), Some(10), "{number} at {place} of the instance");
        }
        assert_eq!(form.with(&[(instance + 6, 0)]), None);
        assert_eq!(form.with(&[(instance + 6, 0), (instance + 4, 0)]), None);
        assert_eq!(form.with(&[(instance + 6, 0), (instance + 4, 0), (instance + 2, 1)]), None);
    }
}

#[test]
fn numbers_ids_and_counts() {
    for form in [OLD, NEW] {
        let Example { event, stacks, instance, counts, number, .. } = form;
        for place in [event + 20, stacks + 4, instance + 24, counts, counts + number] {
            assert_eq!(form.with(&[(place, 0)]), Some(10), "0 at {place}");
            let expected = if place < counts { Some(10) } else { None };
            assert_eq!(form.with(&[(place, 2)]), expected, "2 at {place}");
        }
        assert_eq!(form.with(&[(event + 20, 2), (stacks + 4, 2), (counts, 2)]), None);
    }
    // over 65,535: 65,537 in place of 1
    let Example { event, stacks, instance, counts, .. } = NEW;
    assert_eq!(NEW.with(&[(event + 22, 1), (stacks + 6, 1)]), Some(10));
    assert_eq!(NEW.with(&[(event + 22, 1), (stacks + 6, 1), (counts + 2, 1)]), None);
    assert_eq!(NEW.with(&[(instance + 26, 1)]), Some(10));
    assert_eq!(NEW.with(&[(instance + 26, 1), (counts + 6, 1)]), None);
}

#[test]
fn the_last_numbers() {
    // as many events taken, and instances made, as the two numbers say
    let agent = |taken: u32, made: u32| {
        let mut bytes = image(&loaded());
        let counts = bytes.len() - 10;
        bytes[counts..counts + 8].copy_from_slice(&[taken, made].map(u32::to_le_bytes).concat());
        restore(&bytes).expect("counts may be any")
    };
    let input = "P 0 +1 5 0 0\nC\nC\nO 65536 1\nC\n";
    assert_eq!(
        ran(agent(65_535, 65_535), input).1,
        "T 65536 a +1 5 0 0\nM 65536 0 e 65536\nD 65536 0 0 +9 5 0 0\nS 65536 0 0 1\nE 65536 r +1 5 0 0\n"
    );
    let input = "P 0 +1 5 0 0\nC\nC\nO 4294967295 1\nC\nP 0 +1 5 0 0\nO 04294967295 1\nO 4294967296 1\n";
    let expected = "T 4294967295 a +1 5 0 0\nM 4294967295 0 e 4294967295\nD 4294967295 0 0 +9 5 0 0\nS 4294967295 0 0 1\n\
                    E 4294967295 r +1 5 0 0\nX 9\nX 0\nX 0\n";
    assert_eq!(ran(agent(u32::MAX - 1, u32::MAX - 1), input).1, expected);
    assert_eq!(ran(agent(0, u32::MAX), "P 0 +1 5 0 0\nC\nC\nP 0 +2 0 0 0\n").1, "T 1 a +1 5 0 0\nX 9\nX 9\nT 2 a +2 0 0 0\n");
}

#[test]
fn saving_fills_the_front_of_a_buffer() {
    let agent = restore(&NEW.bytes()).expect("an image");
    let mut short = [77; 163];
    assert_eq!(save(&agent, &mut short), Err(Refusal::ImageRoom));
    assert_eq!(short, [77; 163]);
    for room in [164, 165, 1_000] {
        let mut buffer = vec![77; room];
        assert_eq!(save(&agent, &mut buffer), Ok(164));
        assert_eq!(buffer[..164], NEW.bytes());
        assert!(buffer[164..].iter().all(|byte| *byte == 77));
    }
}
