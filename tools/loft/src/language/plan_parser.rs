//! Words to trees: a plan's trigger, situations, body and endings.

use super::ast::*;
use super::lexer::Kind;
use super::parser::{Answer, Parser, Told};
use super::source::{nearest, Place};
use crate::library::*;

const ORDER_OF_PARTS: &str = "the parts of a plan stand in this order: on or to, if, with least, while, { steps }, done, failed";
const STEPS: [&str; 7] = ["do", "achieve", "ask", "add", "remove", "divide", "either"];

impl Parser<'_> {
    pub fn plan(&mut self) -> Answer<PlanTree> {
        self.depth = 0;
        let unchecked = self.takes("unchecked");
        self.expect("plan")?;
        let name = self.name("a plan")?;
        let variables = if self.takes("variables") { self.variables()? } else { vec![] };
        let (kind, trigger) = self.trigger()?;
        let context = self.situation("if")?;
        let least = self.least()?;
        let maintenance = self.situation("while")?;
        let body = self.body()?;
        let mut plan = PlanTree {
            name,
            unchecked,
            variables,
            kind,
            trigger,
            context,
            least,
            maintenance,
            body,
            done: vec![],
            failed: vec![],
        };
        while !self.sees_item() {
            self.ending(&mut plan)?;
        }
        Ok(plan)
    }

    fn variables(&mut self) -> Answer<Vec<Word>> {
        let mut variables = vec![self.capital("a variable")?];
        while self.takes(",") {
            variables.push(self.capital("a variable")?);
        }
        Ok(variables)
    }

    fn trigger(&mut self) -> Answer<(u16, LiteralTree)> {
        let ways = [
            ("on", "gained", ADDED),
            ("on", "lost", REMOVED),
            ("on", "told", TOLD),
            ("to", "achieve", ACHIEVE),
            ("to", "answer", QUERY),
        ];
        let first = self.token().text.clone();
        if !self.takes("on") && !self.takes("to") {
            let hint = "a plan says what it is for: on told .., on gained .., on lost .., to achieve .., to answer ..";
            return self.unexpected("'on' or 'to'", &[hint.into()]);
        }
        let second = self.token().text.clone();
        match ways.iter().find(|(head, word, _)| *head == first && *word == second) {
            Some((_, _, kind)) => {
                self.advance();
                Ok((*kind, self.literal("a literal")?))
            }
            None => {
                let words: Vec<&str> = ways.iter().filter(|(head, _, _)| *head == first).map(|(_, word, _)| *word).collect();
                let mut hints = match ways.iter().find(|(_, word, _)| *word == second) {
                    Some((head, word, _)) => vec![format!("write '{head} {word} ..'")],
                    None => nearest(&second, words.iter().copied()),
                };
                if hints.is_empty() && first == "on" && self.token().kind == Kind::Name {
                    hints.push(format!("write 'on told {second} ..'"));
                }
                self.unexpected(&words.join(" or "), &hints)
            }
        }
    }

    fn least(&mut self) -> Answer<Option<Word>> {
        if !self.takes("with") {
            return Ok(None);
        }
        self.expect("least")?;
        self.capital("a variable").map(Some)
    }

    /// The alternatives behind `if` or `while`; none where the word is absent.
    fn situation(&mut self, word: &str) -> Answer<Option<SituationTree>> {
        let place = self.place();
        if !self.takes(word) {
            return Ok(None);
        }
        let mut alternatives = vec![];
        if self.takes("never") {
            return Ok(Some(SituationTree { place, alternatives }));
        }
        loop {
            alternatives.push(if self.takes("always") { vec![] } else { self.literals()? });
            if !self.takes("or") {
                return Ok(Some(SituationTree { place, alternatives }));
            }
        }
    }

    fn literals(&mut self) -> Answer<Vec<LiteralTree>> {
        let mut literals = vec![self.literal("a fact")?];
        while self.takes(",") {
            literals.push(self.literal("a fact")?);
        }
        if self.sees("and") {
            return self.unexpected("',' or 'or'", &["what must hold together has a comma between".into()]);
        }
        Ok(literals)
    }

    pub fn literal(&mut self, what: &str) -> Answer<LiteralTree> {
        if self.sees("not") {
            let place = self.place();
            let hint = "'~in_rack(..)' asks for a stored denial; let the device report one";
            self.faults.error(place, "there is no 'not': that a belief is absent cannot be tested", &[hint.into()]);
            return Err(Told);
        }
        let negative = self.takes("~");
        let name = self.name(what)?;
        let mut terms = vec![];
        if self.takes("(") {
            terms.push(self.term()?);
            while self.takes(",") {
                terms.push(self.term()?);
            }
            self.expect(")")?;
        }
        Ok(LiteralTree { negative, name, terms })
    }

    fn term(&mut self) -> Answer<(TermTree, Place)> {
        let token = self.token().clone();
        let term = match token.kind {
            Kind::Number(value) => TermTree::Number(value),
            Kind::Variable if token.text == "_" => TermTree::Anything,
            Kind::Variable => TermTree::Variable(token.text),
            Kind::Name => TermTree::Word(token.text),
            _ => return self.unexpected_in_line("a number, a constant's name or a variable", &[]),
        };
        self.advance();
        Ok((term, token.place))
    }
}

// ---- Bodies and endings

impl Parser<'_> {
    fn body(&mut self) -> Answer<Vec<StepTree>> {
        if !self.sees("{") {
            return self.unexpected("'{' and the plan's steps", &[ORDER_OF_PARTS.into()]);
        }
        self.block()
    }

    /// The steps between { and }; a step that cannot be read is told, and the next one read.
    fn block(&mut self) -> Answer<Vec<StepTree>> {
        self.expect("{")?;
        let mut steps = vec![];
        let mut whole = true;
        while !self.takes("}") {
            if self.sees_item() {
                return self.unexpected("a step or '}'", &["a '{' above is not closed".into()]);
            }
            match self.step() {
                Ok(step) => steps.push(step),
                Err(Told) => {
                    whole = false;
                    self.skip_step();
                }
            }
        }
        if whole {
            Ok(steps)
        } else {
            Err(Told)
        }
    }

    fn skip_step(&mut self) {
        while !self.sees_item() && !self.sees("}") && !self.token().leads && !STEPS.iter().any(|step| self.sees(step)) {
            self.advance();
        }
    }

    /// Whether a name and '(' come next.
    fn is_literal_next(&self) -> bool {
        self.token().kind == Kind::Name && self.next_token().text == "("
    }

    fn step_hints(&self, word: &str) -> Vec<String> {
        if self.is_literal_next() {
            return vec![format!("a step begins with its verb: do {word}(..)")];
        }
        if word == "," {
            return vec!["steps stand one after another, with nothing between them".into()];
        }
        nearest(word, STEPS)
    }

    fn step(&mut self) -> Answer<StepTree> {
        let token = self.token().clone();
        let kind = match token.text.as_str() {
            "either" => return self.either(),
            "divide" => return self.divide(),
            "add" => ADD,
            "remove" => REMOVE,
            "do" => EXTERNAL,
            "achieve" => ACHIEVE,
            "ask" => QUERY,
            other => {
                let hints = self.step_hints(other);
                let result = self.unexpected("a step (do, achieve, ask, add, remove, divide or either) or '}'", &hints);
                self.advance();
                return result;
            }
        };
        self.advance();
        let act = Act::On(kind, self.literal("what the step is about")?);
        self.step_rest(token.place, act)
    }

    fn divide(&mut self) -> Answer<StepTree> {
        let place = self.advance().place;
        let length = self.term()?;
        self.expect("by")?;
        let panel = self.term()?;
        self.expect("into")?;
        let whole = self.capital("the variable for the whole panels")?;
        self.expect(",")?;
        let rest = self.capital("the variable for the remainder")?;
        self.step_rest(place, Act::Divide { length, panel, whole, rest })
    }

    /// `up to N times` and `-> N` behind a step.
    fn step_rest(&mut self, place: Place, act: Act) -> Answer<StepTree> {
        let mut times = 1;
        if self.takes("up") {
            self.expect("to")?;
            let (count, at) = self.number("how many times")?;
            if count == 0 || count > MOST_ITEMS as u64 {
                let hint = "each try is an alternative of its state; a goal of its own gives more";
                self.faults.error(
                    at,
                    format!("up to {count} times: a step is tried 1 to {MOST_ITEMS} times at its place"),
                    &[hint.into()],
                );
            }
            times = count.clamp(1, MOST_ITEMS as u64) as usize;
            self.expect("times")?;
        }
        let next = if self.takes("->") { Some(self.number("the number of the state that it leads to")?) } else { None };
        Ok(StepTree::One { place, act, times, next })
    }

    fn either(&mut self) -> Answer<StepTree> {
        let place = self.advance().place;
        if self.depth == MOST_STATES {
            self.faults.error(
                place,
                format!("either stands within {MOST_STATES} others, and a body has at most {MOST_STATES} states"),
                &[],
            );
            return Err(Told);
        }
        self.depth += 1;
        let alternatives = self.alternatives();
        self.depth -= 1;
        Ok(StepTree::Either { place, alternatives: alternatives? })
    }

    fn alternatives(&mut self) -> Answer<Vec<Vec<StepTree>>> {
        let mut alternatives = vec![self.block()];
        if !self.sees("or") {
            return self.unexpected("'or' and another { .. }", &["either has at least two alternatives".into()]);
        }
        while self.takes("or") {
            alternatives.push(self.block());
        }
        alternatives.into_iter().collect()
    }

    fn ending(&mut self, plan: &mut PlanTree) -> Answer<()> {
        let failed = self.sees("failed");
        if !self.takes("done") && !self.takes("failed") {
            let word = self.token().text.clone();
            let is_part = ["if", "with", "while", "on", "to"].contains(&word.as_str());
            let hints = if is_part { vec![ORDER_OF_PARTS.into()] } else { nearest(&word, ["done", "failed", "plan"]) };
            return self.unexpected("done, failed or the next plan", &hints);
        }
        loop {
            let verb = match self.token().text.as_str() {
                "add" => Verb::Add,
                "remove" => Verb::Remove,
                "note" => Verb::Note,
                _ => {
                    return self
                        .unexpected("add, remove or note", &["each action of a list has its own: done remove a, add b".into()])
                }
            };
            self.advance();
            let action = (verb, self.literal("a fact")?);
            if failed {
                plan.failed.push(action)
            } else {
                plan.done.push(action)
            }
            if !self.takes(",") {
                return Ok(());
            }
        }
    }
}
