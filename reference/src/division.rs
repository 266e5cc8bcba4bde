//! Panels from a bolt, and the offcut (document 02, request 11).

use crate::literal::{Bindings, Literal, Term};

const VARIABLES: u16 = 8;
/// The fields q + 8 × r are below this.
const FIELDS: u16 = VARIABLES * VARIABLES;

/// A length divided into whole panels and what is left of it.
#[derive(Clone, Copy, Debug, PartialEq, Eq)]
pub struct Division {
    /// The length left.
    pub length: Term,
    /// The length of a panel.
    pub panel: Term,
    /// The variable that gets the number of whole panels.
    pub panels: u8,
    /// The variable that gets the remainder.
    pub offcut: u8,
}

impl Division {
    /// The division that a branch's literal stands for: in place of sign and predicate q + 8 × r, then both lengths and 0.
    pub fn of(literal: &Literal) -> Option<Division> {
        let [length, panel, third] = literal.terms;
        let field = literal.symbol.predicate();
        let (panels, offcut) = (field % VARIABLES, field / VARIABLES);
        let readable = !literal.symbol.is_negative() && field < FIELDS && panels != offcut && third == Term::Constant(0);
        readable.then_some(Division { length, panel, panels: panels as u8, offcut: offcut as u8 })
    }

    /// The bindings with both results; none where a length is unbound, the panel is 0 or a result's variable is bound already.
    pub fn worked_out(&self, bindings: &Bindings) -> Option<Bindings> {
        let length = bindings.value(self.length)?;
        let panel = bindings.value(self.panel)?;
        let panels = length.checked_div(panel)?;
        bindings.with(self.panels, panels)?.with(self.offcut, length - panels * panel)
    }
}

#[cfg(test)]
mod tests {
    use super::*;

    const V0: u16 = 65_528;
    /// Whole panels to V1, the offcut to V2.
    const FIELD: u16 = 1 + 8 * 2;

    fn division(numbers: [u16; 4]) -> Option<Division> {
        Division::of(&Literal::from_stored(numbers))
    }

    /// V1 and V2 after a division, where V0 is bound to 37.
    fn results(length: u16, panel: u16) -> Option<(Option<u16>, Option<u16>)> {
        let bindings = Bindings::default().with(0, 37).expect("V0 is unbound");
        let bound = division([FIELD, length, panel, 0]).expect("a division").worked_out(&bindings)?;
        Some((bound.get(1), bound.get(2)))
    }

    #[test]
    fn the_field_names_two_different_variables() {
        let accepted: Vec<u16> = (0..=u16::MAX).filter(|field| division([*field, 1, 1, 0]).is_some()).collect();
        let expected: Vec<u16> = (0..64).filter(|field| field % 8 != field / 8).collect();
        assert_eq!(accepted, expected);
        assert_eq!(division([FIELD, 1, 1, 0]).map(|division| (division.panels, division.offcut)), Some((1, 2)));
    }

    #[test]
    fn the_third_term_is_0() {
        assert!((1..=u16::MAX).all(|third| division([FIELD, 1, 1, third]).is_none()));
    }

    #[test]
    fn whole_panels_and_the_remainder() {
        assert_eq!(results(V0, 5), Some((Some(7), Some(2))));
        assert_eq!(results(V0, V0), Some((Some(1), Some(0))));
        assert_eq!(results(36, 6), Some((Some(6), Some(0))));
        assert_eq!(results(5, V0), Some((Some(0), Some(5))));
        assert_eq!(results(0, 1), Some((Some(0), Some(0))));
        assert_eq!(results(65_527, 1), Some((Some(65_527), Some(0))));
        assert_eq!(results(65_527, 65_527), Some((Some(1), Some(0))));
    }

    #[test]
    fn missed() {
        assert_eq!(results(V0 + 3, 5), None);
        assert_eq!(results(V0, V0 + 3), None);
        assert_eq!(results(V0, 0), None);
        let bound = |variable: u8| Bindings::default().with(variable, 9).expect("nothing is bound");
        let constants = division([FIELD, 7, 2, 0]).expect("a division");
        assert!(constants.worked_out(&bound(0)).is_some());
        assert_eq!(constants.worked_out(&bound(1)), None);
        assert_eq!(constants.worked_out(&bound(2)), None);
        let into_its_input = division([FIELD, V0 + 1, 2, 0]).expect("a division");
        assert_eq!(into_its_input.worked_out(&bound(1)), None);
        assert_eq!(into_its_input.worked_out(&bound(0)), None);
    }
}
