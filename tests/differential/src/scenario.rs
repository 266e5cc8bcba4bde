//! A seed's library and journal.

use crate::coverage::{Coverage, REFUSALS};
use crate::damage::{TO_BYTES, TO_DRAFT, UNKNOWN};
use crate::draft::{ACHIEVE, ADDED, Library, Plan, TOLD, V0};
use crate::images::Image;
use crate::lines::Writer;
use crate::plans::{THEMES, Theme, library};
use crate::random::Random;
use reference::agent::Agent;
use reference::journal::Journal;
use reference::literal::Fact;
use reference::refusal::Refusal;
use reference::state::Number;

/// The most bytes that a library's file may have.
pub const LARGEST_FILE: usize = 65_535;

/// A library, a journal, and what is known of the answers.
pub struct Scenario {
    /// What it is called when it shows a difference.
    pub name: String,
    /// The file's bytes; none where there is no file.
    pub library: Option<Vec<u8>>,
    pub input: Vec<u8>,
    /// The answers of the reference, as the generator saw them.
    pub output: Vec<u8>,
    /// The beliefs at the end, oldest first.
    pub beliefs: Vec<Fact>,
}

/// A valid library with a journal that reaches deep.
pub fn valid(seed: u64, coverage: &mut Coverage) -> Scenario {
    let mut random = Random::new(seed.wrapping_mul(2));
    let (theme, _) = THEMES[random.weighted(&THEMES.map(|(_, weight)| weight))];
    let (draft, words) = library(&mut random, theme);
    let bytes = draft.encode();
    let decoded = reference::library::Library::decode(&bytes).expect("a drafted library is valid");
    let mut writer = Writer::new(&mut random, coverage, &draft, &words, Agent::new(decoded));
    writer.write();
    let beliefs = writer.agent().beliefs().facts().to_vec();
    let (input, output) = (writer.input, writer.output);
    Scenario { name: format!("seed {seed} ({theme:?})"), library: Some(bytes), input, output, beliefs }
}

/// A damaged library; the kind of damage goes round with the seed.
pub fn damaged(seed: u64, coverage: &mut Coverage) -> Scenario {
    let mut random = Random::new(seed.wrapping_mul(2).wrapping_add(1));
    let kinds = TO_DRAFT.len() + TO_BYTES.len() + UNKNOWN.len() + 1;
    let kind = (seed % kinds as u64) as usize;
    let (bytes, known) = damage(&mut random, kind, coverage);
    let input = b"C\nP 2 +1 1 0 0\nC\nC\nC\nO 1 1\nC".repeat(random.below(3));
    let (output, beliefs) = answers(bytes.as_deref().unwrap_or_default(), &input);
    if let Some(number) = known {
        assert_eq!(output, format!("X {number}\n").into_bytes(), "damaged {seed}: the refusal that the damage is to meet");
    }
    if let Some(number) = output.strip_prefix(b"X ").filter(|_| beliefs.is_none()) {
        coverage.note(REFUSALS[usize::from(number[0] - b'0')]);
    }
    Scenario { name: format!("damaged {seed}"), library: bytes, input, output, beliefs: beliefs.unwrap_or_default() }
}

/// The bytes after damage of one kind, and the refusal if it is known. One in three has a second kind of damage.
fn damage(random: &mut Random, kind: usize, coverage: &mut Coverage) -> (Option<Vec<u8>>, Option<u16>) {
    let mut draft = loop {
        let theme = *random.pick(&[Theme::Mixed, Theme::Questions, Theme::Crowded]);
        let (draft, _) = library(random, theme);
        if !draft.plans.is_empty() && !draft.beliefs.is_empty() {
            break draft;
        }
    };
    let mut least = u16::MAX;
    let on_draft = if kind < TO_DRAFT.len() { Some(kind) } else { random.percent(33).then(|| random.below(TO_DRAFT.len())) };
    if let Some((name, number, change)) = on_draft.map(|kind| &TO_DRAFT[kind]) {
        coverage.note(name);
        change(random, &mut draft);
        least = *number;
    }
    let mut bytes = draft.encode();
    let Some(kind) = kind.checked_sub(TO_DRAFT.len()) else {
        return (Some(bytes), Some(least));
    };
    if let Some((name, number, change)) = TO_BYTES.get(kind) {
        coverage.note(name);
        change(random, &draft, &mut bytes);
        return (Some(bytes), Some(least.min(*number)));
    }
    let Some((name, change)) = UNKNOWN.get(kind - TO_BYTES.len()) else {
        coverage.note("no file");
        return (None, Some(1));
    };
    coverage.note(name);
    change(random, &draft, &mut bytes);
    (Some(bytes), None)
}

/// What the reference answers, and its beliefs at the end if the library was accepted.
fn answers(library: &[u8], input: &[u8]) -> (Vec<u8>, Option<Vec<Fact>>) {
    match loaded(library) {
        Err(refusal) => (format!("X {}\n", refusal.number()).into_bytes(), None),
        Ok(agent) => {
            let (output, agent) = fed(agent, input);
            (output, Some(agent.beliefs().facts().to_vec()))
        }
    }
}

/// The reference's agent of a library's file.
pub fn loaded(library: &[u8]) -> Result<Agent, Refusal> {
    if library.len() > LARGEST_FILE {
        return Err(Refusal::Packing);
    }
    reference::library::Library::decode(library).map(Agent::new)
}

/// The reference's answers to an input, and the agent after it.
pub fn fed(agent: Agent, input: &[u8]) -> (Vec<u8>, Agent) {
    let mut journal = Journal::new(agent);
    let mut output = vec![];
    journal.feed(input, &mut output);
    journal.finish(&mut output);
    (output, journal.into_agent())
}

/// A journal whose numbers of events (even) or of instances (odd) pass 65,535.
pub fn long(seed: u64, coverage: &mut Coverage) -> Scenario {
    let mut random = Random::new(seed ^ 0x5eed);
    let first = Plan { maintenance: vec![], ..Plan::simple(TOLD, [1, V0, 0, 0]) };
    let second = Plan::simple(TOLD, [1, V0, 0, 0]).path(&[(ACHIEVE, [2, V0, 0, 0])]);
    let goal = Plan::simple(ACHIEVE, [2, V0, 0, 0]);
    let draft = Library { beliefs: vec![[1, 1, 0, 0]], plans: vec![first, second, goal, Plan::simple(ADDED, [3, V0, 0, 0])] };
    // no plan answers to +5; an event of +1 makes three instances
    let (symbol, rounds, cycles) = if seed.is_multiple_of(2) { (5, 65_530, 1) } else { (1, 21_840, 8) };
    let round = |random: &mut Random| format!("P 2 +{symbol} {} 0 0\n{}", random.below(9), "C\n".repeat(cycles));
    let mut input: Vec<u8> = (0..rounds).flat_map(|_| round(&mut random).into_bytes()).collect();
    for _ in 0..200 {
        let (kind, symbol, term) = (random.below(4), random.between(1, 4), random.below(9));
        input.extend(format!("P {kind} +{symbol} {term} 0 0\n{}", "C\n".repeat(random.between(1, 4))).into_bytes());
    }
    let bytes = draft.encode();
    let (output, beliefs) = answers(&bytes, &input);
    for (letter, name) in [("T ", "T over 65,535"), ("M ", "M over 65,535")] {
        let numbers = output.split(|byte| *byte == b'\n').filter_map(|line| std::str::from_utf8(line).ok()?.strip_prefix(letter));
        let passed =
            |line: &&str| line.split(' ').next().is_some_and(|number| number.parse().is_ok_and(|number: u32| number > 65_535));
        numbers.filter(passed).for_each(|_| coverage.note(name));
    }
    Scenario { name: format!("long {seed}"), library: Some(bytes), input, output, beliefs: beliefs.unwrap_or_default() }
}

/// An image close to a limit of its numbers, and a journal that goes on from it.
pub struct Season {
    pub image: Vec<u8>,
    pub input: Vec<u8>,
}

/// A new agent that has taken events, and made instances, nearly up to 65,535 or to the last number, with a journal.
pub fn season(seed: u64, coverage: &mut Coverage) -> Season {
    let mut random = Random::new(seed ^ 0x5ea5_0000);
    let theme = *random.pick(&[Theme::Mixed, Theme::Tower, Theme::Racks]);
    let (draft, words) = library(&mut random, theme);
    let decoded = reference::library::Library::decode(&draft.encode()).expect("a drafted library is valid");
    let mut image = Image::of(&Agent::new(decoded));
    let close_to = |random: &mut Random| random.pick(&[65_535, Number::MAX, Number::MAX]) - random.below(40) as Number;
    (image.taken, image.made) = (close_to(&mut random), close_to(&mut random));
    let bytes = image.encode();
    let agent = reference::image::restore(&bytes).expect("an agent may have any counts");
    let mut writer = Writer::new(&mut random, coverage, &draft, &words, agent);
    writer.write();
    Season { image: bytes, input: writer.input }
}
