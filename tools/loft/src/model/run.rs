//! The first stack whose top is active runs, then goes last (document 01, "Cycle").

use super::environment::Environment;
use super::situation::first;
use super::step::{Because, Came, Deed, End, Origin, Place, Skipped, Step, Trial, Why};
use super::table::Change;
use super::{branch_at, plan_bit, Agent, Event, Instance, Stack, Status, STACK_HEIGHT};
use crate::library::{Action, Branch, Library, Literal, ADD, DIVIDE, EXTERNAL, QUERY, REMOVE};

impl<'a> Agent<'a> {
    pub(super) fn run(&mut self, place: usize) -> Step {
        let mut stack = self.stacks.remove(place);
        let external = Some(stack.external);
        let (deed, changes, why) = match stack.instances.pop() {
            Some(top) => self.turn(&mut stack, top),
            None => return self.idle(),
        };
        if !stack.instances.is_empty() {
            self.stacks.push(stack);
        }
        Step { deed, changes, external, why }
    }

    /// The turn of a top instance, which stands off its stack meanwhile.
    fn turn(&mut self, stack: &mut Stack, mut top: Instance) -> (Deed, Vec<Change>, Why) {
        let library: &'a Library = self.library;
        let plan = &library.plans[top.plan];
        if let Err(dead_ends) = first(&plan.maintenance, self.table.beliefs(), &top.environment) {
            return self.fail(stack, top, Because::Broken(dead_ends));
        }
        let Some(branches) = plan.states.get(top.state).filter(|branches| !branches.is_empty()) else {
            return self.succeed(stack, top);
        };
        let Some(branch) = branches.get(top.tried) else {
            return self.fail(stack, top, Because::NothingLeft);
        };
        top.tried += 1;
        let (at, before, who) = (top.place(), top.environment, top.who());
        let (came, changes) = self.attempt(branch, &mut top, stack.instances.len() + 1);
        let deed = self.settle(branch, &mut top, at, came);
        let why = Why::Trial(Trial { who, at, before, after: top.environment, came });
        stack.instances.push(top);
        (deed, changes, why)
    }

    /// What comes of a branch, with the belief changes that it makes; binds what it binds.
    fn attempt(&mut self, branch: &Branch, top: &mut Instance, height: usize) -> (Came, Vec<Change>) {
        let literal = top.environment.apply(&branch.literal);
        let ground = literal.is_ground();
        let came = match branch.kind {
            DIVIDE => divide(branch, top),
            QUERY => self.query(&literal, top, height),
            _ if !ground => Came::Unbound,
            ADD if self.table.is_full_for(&literal) => Came::TableFull,
            ADD | REMOVE => return (Came::Applied, self.table.change(branch.kind == REMOVE, &literal)),
            EXTERNAL => Came::Acts,
            _ if self.table.holds(&literal) => Came::HeldAlready,
            _ if height == STACK_HEIGHT => Came::StackFull,
            _ => Came::Posted,
        };
        (came, vec![])
    }

    fn query(&self, literal: &Literal, top: &mut Instance, height: usize) -> Came {
        let find = |belief: &Literal| Some((*belief, top.environment.matching(literal, belief)?));
        if let Some((belief, environment)) = self.beliefs().iter().find_map(find) {
            top.environment = environment;
            return Came::Found(belief);
        }
        if !literal.is_ground() {
            return Came::Unbound;
        }
        if self.table.holds(&literal.opposite()) {
            return Came::OppositeHeld;
        }
        if height == STACK_HEIGHT {
            Came::StackFull
        } else {
            Came::Posted
        }
    }

    /// The instance and the queue after a branch was tried.
    fn settle(&mut self, branch: &Branch, top: &mut Instance, at: Place, came: Came) -> Deed {
        let literal = top.environment.apply(&branch.literal);
        match came {
            Came::Acts => {
                top.status = Status::Waiting;
                Deed::Done { at, literal }
            }
            Came::Posted => {
                top.status = Status::Suspended;
                self.queue.push(Event::new(Origin::Goal(at), branch.kind, literal));
                Deed::Posted(at)
            }
            Came::Applied | Came::HeldAlready | Came::Found(_) | Came::Divided | Came::Worked => {
                let next = usize::from(branch.next);
                top.step_to(next);
                Deed::Stepped { at, next }
            }
            _ => Deed::Missed(at),
        }
    }

    fn succeed(&mut self, stack: &mut Stack, top: Instance) -> (Deed, Vec<Change>, Why) {
        let library: &'a Library = self.library;
        let (changes, skipped) = self.run_list(&library.plans[top.plan].success, &top.environment);
        self.queue.retain(|event| event.matter.origin != top.serves.origin);
        if let Some(poster) = stack.instances.last_mut() {
            if let Some(branch) = branch_at(library, poster.plan, poster.place()) {
                poster.step_to(usize::from(branch.next));
            }
        }
        (Deed::Succeeded(top.id), changes, Why::End(ended(stack, &top, Because::AtItsEnd, skipped)))
    }

    fn fail(&mut self, stack: &mut Stack, top: Instance, because: Because) -> (Deed, Vec<Change>, Why) {
        let library: &'a Library = self.library;
        let (changes, skipped) = self.run_list(&library.plans[top.plan].failure, &top.environment);
        for event in self.queue.iter_mut().filter(|event| event.matter.origin == top.serves.origin) {
            event.failed |= plan_bit(top.plan);
            event.served = false;
        }
        (Deed::Failed(top.id), changes, Why::End(ended(stack, &top, because, skipped)))
    }

    fn run_list(&mut self, actions: &[Action], environment: &Environment) -> (Vec<Change>, Vec<Skipped>) {
        let (mut changes, mut skipped) = (vec![], vec![]);
        for action in actions {
            let literal = environment.apply(&action.literal);
            let table_full = !action.removes && self.table.is_full_for(&literal);
            if !literal.is_ground() || table_full {
                skipped.push(Skipped { removes: action.removes, literal, table_full: literal.is_ground() });
            } else {
                changes.extend(self.table.change(action.removes, &literal));
            }
        }
        (changes, skipped)
    }
}

/// Whole panels and the exact remainder, into two unbound variables.
fn divide(branch: &Branch, top: &mut Instance) -> Came {
    let [length, panel, _] = branch.literal.terms.map(|term| top.environment.value(term));
    let (Some(length), Some(panel)) = (length, panel) else {
        return Came::Unbound;
    };
    let (panels, rest) = branch.divide_results();
    if let Some(bound) = [panels, rest].into_iter().find(|variable| top.environment.get(*variable).is_some()) {
        return Came::ResultBound(bound);
    }
    match (length.checked_div(panel), length.checked_rem(panel)) {
        (Some(quotient), Some(remainder)) => {
            top.environment = top.environment.with(panels, quotient).with(rest, remainder);
            Came::Divided
        }
        _ => Came::PanelZero,
    }
}

fn ended(stack: &Stack, top: &Instance, because: Because, skipped: Vec<Skipped>) -> End {
    let (who, environment, event) = (top.who(), top.environment, top.serves);
    End { who, environment, because, skipped, event, poster: stack.instances.last().map(Instance::who) }
}
