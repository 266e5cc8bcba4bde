//! Constants at a place of a type: numbers and names.

use super::declared::{constant_of, Declared};
use super::source::{nearest, Faults, Place};
use crate::library::Term;

/// The constant of a number; a fault where the type does not have it.
pub fn number(declared: &Declared, value: u64, of: usize, place: Place, faults: &mut Faults) -> Term {
    let Some(constant) = constant_of(value, place, faults) else { return 0 };
    if !declared.holds(of, constant) {
        let kind = &declared.types[of];
        let hint = format!("declared at line {}: {} = {}", kind.place.line, kind.name, declared.constants(of));
        faults.error(place, format!("{value} is no {}", kind.name), &[hint]);
    }
    constant
}

/// The constant of a name. Where any type may stand, all types that have the name must give it one number.
pub fn word(declared: &Declared, word: &str, of: usize, place: Place, faults: &mut Faults) -> Term {
    let value_in = |of: usize| declared.words(of).find(|(name, _)| *name == word).map(|(_, value)| value);
    if let Some(value) = value_in(of) {
        return value;
    }
    let types = (1..declared.types.len()).filter_map(|place| value_in(place).map(|value| (place, value)));
    let known: Vec<(&str, u16)> = types.map(|(place, value)| (declared.types[place].name.as_str(), value)).collect();
    let is_any = declared.types[of].is_any();
    match known.first() {
        Some((_, value)) if is_any && known.iter().all(|(_, other)| other == value) => return *value,
        Some(_) if is_any => {
            let names: Vec<&str> = known.iter().map(|(name, _)| *name).collect();
            let text = format!("'{word}' has different numbers in {}", names.join(" and "));
            faults.error(place, text, &["write the number".into()]);
        }
        Some((name, _)) => {
            faults.error(place, format!("'{word}' is a {name}, and a {} is wanted here", declared.types[of].name), &[]);
        }
        None => unknown(declared, word, of, place, faults),
    }
    0
}

fn unknown(declared: &Declared, word: &str, of: usize, place: Place, faults: &mut Faults) {
    let kind = &declared.types[of];
    let types = if kind.is_any() { 1..declared.types.len() } else { of..of + 1 };
    let mut hints = nearest(word, types.flat_map(|place| declared.words(place)).map(|(name, _)| name));
    if let Some(named) = declared.types.iter().find(|known| known.name.to_lowercase() == word) {
        hints = vec![format!("did you mean '{}'? variables begin with a capital letter", named.name)];
    }
    if hints.is_empty() {
        hints = vec![format!("{} = {}; variables begin with a capital letter", kind.name, declared.constants(of))];
    }
    let what = if kind.is_any() { "constant" } else { &kind.name };
    faults.error(place, format!("no {what} is called '{word}'"), &hints);
}
