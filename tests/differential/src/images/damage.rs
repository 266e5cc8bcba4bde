//! Damaged images, one kind at a time: to the bytes, or by a code or a count that docs/IMAGE-FORMAT.md does not give.

use super::parts::{any_instance, fresh_event, some};
use super::{Form, OnImage, Stack, WIDTH};
use crate::draft::V0;
use crate::random::Random;
use reference::library::LARGEST_LIBRARY;

/// Damage to the bytes of an image.
pub type OnBytes = fn(&mut Random, &mut Vec<u8>);

/// Damage that is refused with 12.
pub const TO_BYTES: &[(&str, OnBytes)] = &[
    ("image cut", |random, bytes| bytes.truncate(random.below(bytes.len()))),
    ("image of a few bytes", |random, bytes| bytes.truncate(random.below(contents(bytes)))),
    ("image lengthened", |random, bytes| bytes.extend(vec![random.below(256) as u8; random.between(1, 30)])),
    ("byte added within", |random, bytes| bytes.insert(random.below(bytes.len()), random.below(256) as u8)),
    ("byte taken out", |random, bytes| {
        bytes.remove(random.between(contents(bytes), bytes.len() - 1));
    }),
    ("offset of a body changed", |random, bytes| alter(random, bytes, 0)),
    ("length of a body changed", |random, bytes| alter(random, bytes, 2)),
    ("two bodies swapped in the contents", |random, bytes| {
        let entry = 4 * random.below(contents(bytes) / 4 - 1);
        let (one, other) = bytes[entry..].split_at_mut(4);
        one.swap_with_slice(&mut other[..4]);
    }),
];

/// Damage whose refusal, if any, only running shows.
pub const UNKNOWN: &[(&str, OnBytes)] = &[
    ("bit of an image changed", |random, bytes| {
        let place = random.below(bytes.len());
        bytes[place] ^= 1 << random.below(8);
    }),
    ("bytes of an image changed", |random, bytes| {
        for _ in 0..random.between(2, 10) {
            let place = random.below(bytes.len());
            bytes[place] = random.below(256) as u8;
        }
    }),
    ("field behind the library changed", |random, bytes| {
        let place = field(random, bytes);
        let (small, any) = (random.below(9) as u16, random.below(65_536) as u16);
        set(bytes, place, *random.pick(&[small, small, small, any, V0, u16::MAX]));
    }),
    ("field behind the library off by one", |random, bytes| {
        let place = field(random, bytes);
        let number = get(bytes, place);
        set(bytes, place, if random.percent(50) { number.wrapping_add(1) } else { number.wrapping_sub(1) });
    }),
    ("two fields swapped", |random, bytes| {
        let (one, other) = (field(random, bytes), field(random, bytes));
        let numbers = [get(bytes, one), get(bytes, other)];
        set(bytes, one, numbers[1]);
        set(bytes, other, numbers[0]);
    }),
    ("end of a body moved", |random, bytes| {
        let entry = 4 * random.below(contents(bytes) / 4 - 1);
        let most = get(bytes, entry + 2).min(get(bytes, entry + 6));
        let by = random.between(1, most.max(1).into()) as u16;
        let by = if random.percent(50) { by } else { by.wrapping_neg() };
        for (place, by) in [(2, by), (4, by), (6, by.wrapping_neg())] {
            let number = get(bytes, entry + place).wrapping_add(by);
            set(bytes, entry + place, number);
        }
    }),
    ("any bytes as an image", |random, bytes| {
        let most = *random.pick(&[30, 300, 70_000]);
        let length = random.below(most);
        *bytes = (0..length).map(|_| random.below(256) as u8).collect();
    }),
];

/// Codes and counts that are refused with 12.
pub const CODES: &[(&str, OnImage)] = &[
    ("origin over 1", |random, image| {
        fresh_event(random, image)?.origin[0] = random.between(2, 65_535) as u16;
        Some(())
    }),
    ("external event with a state", |random, image| {
        fresh_event(random, image)?.origin[1] = random.between(1, 65_535) as u16;
        Some(())
    }),
    ("external event with a branch", |random, image| {
        fresh_event(random, image)?.origin[2] = random.between(1, 65_535) as u16;
        Some(())
    }),
    ("event kind over 4", |random, image| {
        some(random, &mut image.events)?.kind = *random.pick(&[5, 6, 16, 256, 65_535]);
        Some(())
    }),
    ("stack of no instances", |random, image| {
        image.stacks.pop();
        let place = random.between(0, image.stacks.len());
        image.stacks.insert(place, Stack { event: 1, instances: vec![] });
        Some(())
    }),
    ("stack of nine", |random, image| {
        let stack = some(random, &mut image.stacks)?;
        let top = stack.instances.last()?.clone();
        stack.instances.resize(9, top);
        Some(())
    }),
    ("status over 2", |random, image| {
        any_instance(random, image)?.status = *random.pick(&[3, 4, 256, 65_535]);
        Some(())
    }),
    ("variable in another's place", |random, image| {
        let variable = random.below(8);
        let other = (variable + random.between(1, 7)) % 8;
        any_instance(random, image)?.environment[variable] = V0 + other as u16;
        Some(())
    }),
    ("65 beliefs", |_, image| {
        image.beliefs.resize(65, [9, 9, 9, 9]);
        Some(())
    }),
    ("89 events", |random, image| {
        let event = fresh_event(random, image)?.clone();
        image.events.resize(89, event);
        Some(())
    }),
    ("nine stacks", |random, image| {
        let stack = some(random, &mut image.stacks)?.clone();
        image.stacks.resize(9, stack);
        Some(())
    }),
    ("another width of numbers", |random, image| {
        let any = random.below(65_536) as u16;
        image.width = *random.pick(&[0, 8, 16, 31, 33, 64, 32 << 8, any]);
        (image.form == Form::Wide && image.width != WIDTH).then_some(())
    }),
    ("library of 19,333 bytes", |random, image| {
        let more = random.between(1, 1_000);
        image.library.resize(LARGEST_LIBRARY + *random.pick(&[1, more]), 0);
        Some(())
    }),
];

/// The bytes of the contents, which the first number tells.
fn contents(bytes: &[u8]) -> usize {
    get(bytes, 0).into()
}

/// Changes the offset or the length in some entry of the contents.
fn alter(random: &mut Random, bytes: &mut [u8], part: usize) {
    let place = 4 * random.below(contents(bytes) / 4) + part;
    let by = *random.pick(&[1, 1, 2, 4, 8, 256, 32_768]);
    let number = get(bytes, place);
    set(bytes, place, if random.percent(50) { number.wrapping_add(by) } else { number.wrapping_sub(by) });
}

/// The place of some number behind the library, which starts at an even place and has whole numbers.
fn field(random: &mut Random, bytes: &[u8]) -> usize {
    let start = usize::from(get(bytes, 4));
    start + 2 * random.below((bytes.len() - start) / 2)
}

fn get(bytes: &[u8], place: usize) -> u16 {
    u16::from_le_bytes([bytes[place], bytes[place + 1]])
}

fn set(bytes: &mut [u8], place: usize, number: u16) {
    bytes[place..place + 2].copy_from_slice(&number.to_le_bytes());
}
