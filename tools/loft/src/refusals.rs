//! Tests of what refused libraries are told: the number, the rule and the place.

use crate::library::read;

/// The library of 58 bytes of docs/LIBRARY-FORMAT.md.
const PLAIN: [u8; 58] = [
    1, 0, 0, 0, 8, 0, 50, 0, 0, 0, 1, 0, 248, 255, 0, 0, 0, 0, 1, 0, 0, 0, 1, 0, 0, 0, 1, 0, 1, 0, 1, 0, 248, 255, 0, 0, 0, 0, 0,
    0, 2, 0, 1, 0, 2, 0, 9, 0, 248, 255, 0, 0, 0, 0, 1, 0, 0, 0,
];

fn told(bytes: &[u8]) -> String {
    read(bytes).map_or_else(|refusal| refusal.to_string(), |_| "accepted".into())
}

/// The plain library with bytes replaced from an offset on.
fn edited(offset: usize, bytes: &[u8]) -> Vec<u8> {
    let mut library = PLAIN.to_vec();
    library[offset..offset + bytes.len()].copy_from_slice(bytes);
    library
}

#[test]
fn the_front_is_refused_by_1_to_3() {
    assert_eq!(told(&PLAIN), "accepted");
    assert_eq!(told(&[0, 0, 0]), "refused with 1: 3 bytes, and a library has at least 4 (byte 3)");
    assert_eq!(told(&[33, 0, 0, 0]), "refused with 1: 33 plans, and a library has at most 32 (byte 0)");
    assert_eq!(told(&[0, 0, 65, 0]), "refused with 1: 65 initial beliefs, and a library has at most 64 (byte 2)");
    let short = "refused with 1: the entries of 1 plans and 0 beliefs end at byte 8, and there are 4 (byte 4)";
    assert_eq!(told(&[1, 0, 0, 0]), short);
    assert_eq!(told(&[0; 5]), "refused with 2: the last plan ends at byte 4, and the library has 5 bytes (byte 4)");
    let offset =
        "refused with 2: the plan's entry says that it starts at byte 9, and the one before it ends at 8 (plan 0, byte 4)";
    assert_eq!(told(&edited(4, &[9])), offset);
    let file = "refused with 2: the file has 65536 bytes, and at most 65535 are read (byte 65535)";
    assert_eq!(told(&[0; 65_536]), file);
    let belief = [1, 0, 5, 0, 0, 0, 0, 0];
    let two = |second: [u8; 8]| [&[0, 0, 2, 0][..], &belief, &second].concat();
    assert_eq!(told(&two(belief)), "refused with 3: initial belief 1 is the same as initial belief 0 (byte 12)");
    let opposite = "refused with 3: initial belief 1 is the opposite of initial belief 0 (byte 12)";
    assert_eq!(told(&two([1, 128, 5, 0, 0, 0, 0, 0])), opposite);
    assert_eq!(told(&two([1, 0, 248, 255, 0, 0, 0, 0])), "refused with 3: initial belief 1 has a variable (byte 12)");
}

#[test]
fn plans_are_refused_by_4() {
    let kind = "trigger kind 5: a kind is 0 to 4, with 16 to 128 added where a least value chooses (plan 0, byte 8)";
    let branch = "(plan 0, state 0, branch 0, byte";
    let cases = [
        (edited(8, &[5]), kind.into()),
        (edited(18, &[5]), "5 alternatives of the context, and there are at most 4 (plan 0, byte 18)".into()),
        (edited(20, &[5]), "5 literals in an alternative of the context, and there are at most 4 (plan 0, byte 20)".into()),
        (edited(26, &[5]), "5 actions of the success list, and there are at most 4 (plan 0, byte 26)".into()),
        (edited(28, &[2]), "action kind 2: a list's action has kind 0 (add) or 1 (remove) (plan 0, byte 28)".into()),
        (edited(40, &[0]), "0 states, and a body has 1 to 16 (plan 0, byte 40)".into()),
        (edited(40, &[17]), "17 states, and a body has 1 to 16 (plan 0, byte 40)".into()),
        (edited(40, &[3]), "the plan needs more bytes than its entry gives it (plan 0, state 2, byte 58)".into()),
        (edited(42, &[5]), "5 branches in a state, and there are at most 4 (plan 0, state 0, byte 42)".into()),
        (edited(44, &[6]), format!("branch kind 6, and a kind is 0 to 5 {branch} 44)")),
        (
            edited(44, &[5]),
            format!("a divide's predicate field is q + 8 r for two different variable numbers q and r {branch} 46)"),
        ),
        (edited(44, &[5, 0, 8, 0, 1, 0, 1, 0, 1, 0]), format!("a divide's third term is not 0 {branch} 52)")),
        (edited(47, &[128]), format!("an action's literal is negative {branch} 46)")),
        (edited(54, &[0]), format!("next state 0 is not above its own state 0 {branch} 54)")),
        (edited(54, &[2]), format!("next state 2, and there are states 0 to 1 {branch} 54)")),
    ];
    for (bytes, rule) in cases {
        assert_eq!(told(&bytes), format!("refused with 4: {rule}"));
    }
}

#[test]
fn plans_of_another_length_are_refused_by_4() {
    let longer = [&edited(6, &[51])[..], &[0]].concat();
    assert_eq!(told(&longer), "refused with 4: the plan ends here, and by its entry it ends at byte 59 (plan 0, byte 58)");
    let unreached = [&edited(6, &[38])[..42], &[0, 0, 0, 0]].concat();
    assert_eq!(told(&unreached), "refused with 4: no branch leads to state 1 (plan 0, byte 40)");
    let twice = [&edited(6, &[62])[..42], &[2, 0], &PLAIN[44..56], &PLAIN[44..56], &[0, 0]].concat();
    assert_eq!(told(&twice), "refused with 4: a second branch leads to state 1 (plan 0, state 0, branch 1, byte 66)");
}
