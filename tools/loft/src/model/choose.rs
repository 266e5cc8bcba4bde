//! A pending event is taken up: a plan is made for it, or it is closed (document 01, "Cycle").

use super::situation::{first, least, Solution};
use super::step::{Choice, Deed, Origin, Passed, Refused, Step, Why};
use super::{plan_bit, refused, Agent, Environment, Event, Instance, Stack, Status, LAST_NUMBER};

impl Agent<'_> {
    pub(super) fn take_up(&mut self, place: usize) -> Step {
        let mut passed = vec![];
        for plan in 0..self.library.plans.len() {
            match self.applicable(plan, &self.queue[place]) {
                Ok(_) if self.made == LAST_NUMBER => return refused(9, Refused::InstancesSpent { plan }),
                Ok(solution) => return self.make(place, plan, solution, passed),
                Err(reason) => passed.push((plan, reason)),
            }
        }
        self.close_unanswered(place, passed)
    }

    /// The solution that a plan would be made with, or why it does not apply.
    fn applicable(&self, number: usize, event: &Event) -> Result<Solution, Passed> {
        let plan = &self.library.plans[number];
        if plan.kind != event.matter.kind {
            return Err(Passed::Kind);
        }
        let Some(start) = Environment::default().matching(&plan.trigger, &event.matter.literal) else {
            return Err(Passed::Trigger);
        };
        if event.failed & plan_bit(number) != 0 {
            return Err(Passed::FailedBefore);
        }
        let found = match plan.least {
            Some(variable) => least(&plan.context, self.beliefs(), &start, variable),
            None => first(&plan.context, self.beliefs(), &start),
        };
        found.map_err(|dead_ends| Passed::Context(start, dead_ends))
    }

    fn make(&mut self, place: usize, plan: usize, solution: Solution, passed: Vec<(usize, Passed)>) -> Step {
        self.made += 1;
        let event = &mut self.queue[place];
        event.served = true;
        let (id, environment, serves) = (self.made, solution.environment, event.matter);
        let instance = Instance { id, plan, environment, state: 0, tried: 0, status: Status::Active, serves };
        let (external, poster) = match serves.origin {
            Origin::External(number) => {
                self.stacks.push(Stack { external: number, instances: vec![instance] });
                (Some(number), None)
            }
            Origin::Goal(at) => {
                let stack = self.stack_of(at);
                let poster = stack.as_ref().and_then(|stack| stack.instances.last()).map(Instance::who);
                let external = stack.map(|stack| {
                    stack.instances.push(instance);
                    stack.external
                });
                (external, poster)
            }
        };
        let deed = Deed::Made { id, plan, origin: serves.origin };
        let why = Why::Choice(Choice { event: serves, poster, passed, chosen: Some(solution) });
        Step { deed, changes: vec![], external, why }
    }

    fn close_unanswered(&mut self, place: usize, passed: Vec<(usize, Passed)>) -> Step {
        let event = self.queue.remove(place);
        let failed = event.failed.count_ones();
        let (deed, external, poster) = match event.matter.origin {
            Origin::External(number) => (Deed::Dropped { event: number, failed }, Some(number), None),
            Origin::Goal(at) => {
                let stack = self.stack_of(at);
                let external = stack.as_ref().map(|stack| stack.external);
                let poster = stack.and_then(|stack| stack.instances.last_mut()).map(|top| {
                    top.status = Status::Active;
                    top.who()
                });
                (Deed::Unmet { at, failed }, external, poster)
            }
        };
        let why = Why::Choice(Choice { event: event.matter, poster, passed, chosen: None });
        Step { deed, changes: vec![], external, why }
    }
}
