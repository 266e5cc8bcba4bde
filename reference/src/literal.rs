//! Terms, literals and matching (document 01, "Literals and matching").

/// The number that stands for variable V0; V7 is 65,535.
const FIRST_VARIABLE: u16 = 65_528;
/// The bit of a stored predicate that makes the literal negative.
const NEGATIVE: u16 = 0x8000;

/// A predicate with its sign.
#[derive(Clone, Copy, Debug, PartialEq, Eq, Hash)]
pub struct Symbol(u16);

impl Symbol {
    /// The symbol of a stored number: the predicate, plus 32,768 if negative.
    pub fn from_stored(number: u16) -> Self {
        Symbol(number)
    }

    /// The number that stands for this symbol.
    pub fn stored(self) -> u16 {
        self.0
    }

    /// Whether the sign is minus.
    pub fn is_negative(self) -> bool {
        self.0 & NEGATIVE != 0
    }

    /// The predicate without its sign.
    pub fn predicate(self) -> u16 {
        self.0 & !NEGATIVE
    }

    /// The same predicate with the other sign.
    pub fn opposite(self) -> Self {
        Symbol(self.0 ^ NEGATIVE)
    }
}

/// A constant or a variable.
#[derive(Clone, Copy, Debug, PartialEq, Eq)]
pub enum Term {
    /// A constant, 0 to 65,527.
    Constant(u16),
    /// A variable, 0 to 7.
    Variable(u8),
}

impl Term {
    /// The term of a stored number.
    pub fn from_stored(number: u16) -> Self {
        match number.checked_sub(FIRST_VARIABLE) {
            Some(variable) => Term::Variable(variable as u8),
            None => Term::Constant(number),
        }
    }
}

/// A literal without variables.
#[derive(Clone, Copy, Debug, PartialEq, Eq, Hash)]
pub struct Fact {
    /// Sign and predicate.
    pub symbol: Symbol,
    /// Three constants, 0 where unused.
    pub terms: [u16; 3],
}

impl Fact {
    /// The fact with the other sign.
    pub fn opposite(self) -> Self {
        Fact { symbol: self.symbol.opposite(), ..self }
    }

    /// The four numbers that stand for this fact.
    pub fn stored(self) -> [u16; 4] {
        let [first, second, third] = self.terms;
        [self.symbol.stored(), first, second, third]
    }
}

/// What each of the eight variables is bound to.
#[derive(Clone, Copy, Debug, Default, PartialEq, Eq)]
pub struct Bindings([Option<u16>; 8]);

impl Bindings {
    /// The bindings of eight stored numbers: each a constant or, where it is unbound, the variable itself.
    pub(crate) fn from_stored(numbers: &[u16; 8]) -> Option<Self> {
        let mut bindings = Bindings::default();
        for (variable, (place, &number)) in (0..).zip(bindings.0.iter_mut().zip(numbers)) {
            *place = match Term::from_stored(number) {
                Term::Constant(constant) => Some(constant),
                Term::Variable(unbound) if unbound == variable => None,
                Term::Variable(_) => return None,
            };
        }
        Some(bindings)
    }

    /// The eight numbers that stand for these bindings.
    pub(crate) fn stored(&self) -> [u16; 8] {
        std::array::from_fn(|variable| self.0[variable].unwrap_or(FIRST_VARIABLE + variable as u16))
    }

    /// The constant that a variable is bound to.
    pub fn get(&self, variable: u8) -> Option<u16> {
        self.0[usize::from(variable)]
    }

    /// Where a variable's value stands among others: constants by themselves, unbound above them all.
    pub fn rank(&self, variable: u8) -> u32 {
        self.get(variable).map_or(u32::MAX, u32::from)
    }

    /// The bindings with a variable bound to a constant; none if it is bound already.
    pub(crate) fn with(mut self, variable: u8, constant: u16) -> Option<Bindings> {
        let place = &mut self.0[usize::from(variable)];
        if place.is_some() {
            return None;
        }
        *place = Some(constant);
        Some(self)
    }

    /// The constant that a term stands for.
    pub fn value(&self, term: Term) -> Option<u16> {
        match term {
            Term::Constant(constant) => Some(constant),
            Term::Variable(variable) => self.get(variable),
        }
    }
}

/// A literal that may have variables.
#[derive(Clone, Copy, Debug, PartialEq, Eq)]
pub struct Literal {
    /// Sign and predicate.
    pub symbol: Symbol,
    /// Three terms, constant 0 where unused.
    pub terms: [Term; 3],
}

impl Literal {
    /// The literal of four stored numbers.
    pub fn from_stored(numbers: [u16; 4]) -> Self {
        let [symbol, first, second, third] = numbers;
        Literal { symbol: Symbol::from_stored(symbol), terms: [first, second, third].map(Term::from_stored) }
    }

    /// The fact that this literal states under the bindings, if they bind all its variables.
    pub fn ground(&self, bindings: &Bindings) -> Option<Fact> {
        let [first, second, third] = self.terms;
        let terms = [bindings.value(first)?, bindings.value(second)?, bindings.value(third)?];
        Some(Fact { symbol: self.symbol, terms })
    }

    /// The bindings, extended so that this literal states the fact; none if it cannot.
    pub fn matched(&self, fact: &Fact, bindings: &Bindings) -> Option<Bindings> {
        if self.symbol != fact.symbol {
            return None;
        }
        let mut extended = *bindings;
        for (term, &constant) in self.terms.iter().zip(&fact.terms) {
            let known = match *term {
                Term::Constant(known) => known,
                Term::Variable(variable) => *extended.0[usize::from(variable)].get_or_insert(constant),
            };
            if known != constant {
                return None;
            }
        }
        Some(extended)
    }
}

#[cfg(test)]
mod tests {
    use super::*;

    fn literal(symbol: u16, terms: [u16; 3]) -> Literal {
        Literal::from_stored([symbol, terms[0], terms[1], terms[2]])
    }

    fn fact(symbol: u16, terms: [u16; 3]) -> Fact {
        Fact { symbol: Symbol::from_stored(symbol), terms }
    }

    #[test]
    fn the_last_constant_and_the_first_variable() {
        assert_eq!(Term::from_stored(65_527), Term::Constant(65_527));
        assert_eq!(Term::from_stored(65_528), Term::Variable(0));
        assert_eq!(Term::from_stored(65_535), Term::Variable(7));
    }

    #[test]
    fn a_variable_that_stands_twice_wants_equal_terms() {
        let twice = literal(1, [65_528, 65_528, 0]);
        assert_eq!(twice.matched(&fact(1, [5, 0, 0]), &Bindings::default()), None);
        let bound = twice.matched(&fact(1, [5, 5, 0]), &Bindings::default()).unwrap();
        assert_eq!((bound.get(0), bound.get(1)), (Some(5), None));
    }

    #[test]
    fn a_negative_literal_matches_a_negative_fact_alone() {
        let negative = literal(32_769, [5, 0, 0]);
        assert_eq!(negative.matched(&fact(1, [5, 0, 0]), &Bindings::default()), None);
        assert!(negative.matched(&fact(1, [5, 0, 0]).opposite(), &Bindings::default()).is_some());
    }

    #[test]
    fn ground_wants_every_variable_bound() {
        let pattern = literal(3, [65_529, 7, 0]);
        assert_eq!(pattern.ground(&Bindings::default()), None);
        let bound = pattern.matched(&fact(3, [9, 7, 0]), &Bindings::default()).unwrap();
        assert_eq!(pattern.ground(&bound), Some(fact(3, [9, 7, 0])));
    }
}
