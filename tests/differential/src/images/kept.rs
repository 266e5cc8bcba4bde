//! Images that keep the rules for states, in states that hardly any journal reaches.

use super::parts::{active, at_branch, become_tower, fresh_event, over, plans, served};
use super::{Image, OnImage, WAITING};
use crate::draft::V0;
use reference::library::BranchKind;
use reference::state::Number;

/// Images that are accepted.
pub const KEPT: &[(&str, OnImage)] = &[
    ("nothing changed", |_, _| Some(())),
    ("counts raised", |random, image| {
        image.taken = over(random, image.taken, image)?;
        image.made = over(random, image.made, image)?;
        Some(())
    }),
    ("ids turned round", |_, image| {
        let turned = |id: Number| image.made - (id - 1);
        image.events.iter_mut().filter(|event| event.is_goal()).for_each(|event| event.number = turned(event.number));
        image.stacks.iter_mut().flat_map(|stack| &mut stack.instances).for_each(|instance| instance.id = turned(instance.id));
        Some(())
    }),
    ("no beliefs", |_, image| {
        image.beliefs.clear();
        Some(())
    }),
    ("queue turned round", |_, image| {
        image.events.reverse();
        Some(())
    }),
    ("stacks turned round", |_, image| {
        image.stacks.reverse();
        Some(())
    }),
    ("another environment", |random, image| {
        let top = active(random, image)?;
        for (variable, value) in (0..).zip(&mut top.environment) {
            *value = *random.pick(&[V0 + variable, *value, 0, 1, 2, V0 - 1]);
        }
        Some(())
    }),
    ("another state", |random, image| {
        let plans = plans(image);
        let top = active(random, image)?;
        let states = &plans[usize::from(top.plan)].states;
        let state = random.below(states.len());
        (top.state, top.tried) = (state as u16, random.between(0, states[state].len()) as u16);
        Some(())
    }),
    ("waiting at any external action", |random, image| {
        at_branch(random, image, |kind| kind == BranchKind::External)?.status = WAITING;
        Some(())
    }),
    ("an event more, with failed plans", |random, image| {
        let most = plans(image).len();
        let failed = (0..most).map(|plan| u32::from(random.percent(40)) << plan).sum();
        fresh_event(random, image)?.failed = failed;
        Some(())
    }),
    ("other plans failed", |random, image| {
        let most = plans(image).len();
        let failed: u32 = (0..most).map(|plan| u32::from(random.percent(40)) << plan).sum();
        let (event, plan) = served(random, image)?;
        event.failed = failed & !(1 << plan);
        Some(())
    }),
    ("an event of another literal", |random, image| {
        let (event, _) = served(random, image)?;
        event.literal = [random.below(65_536) as u16, random.below(9) as u16, 0, V0 - 1];
        Some(())
    }),
    ("a stack taken off", |random, image| {
        let place = if image.stacks.is_empty() { return None } else { random.below(image.stacks.len()) };
        let ids: Vec<Number> = image.stacks.remove(place).instances.iter().map(|instance| instance.id).collect();
        image.events.retain(|event| !event.is_goal() || !ids.contains(&event.number));
        Some(())
    }),
    ("a tower with its goal pending", |random, image| {
        become_tower(image, random.between(1, 7));
        Some(())
    }),
    ("a tower of eight", |_, image| {
        *image = Image { form: image.form, ..Image::tower(8).with_active_tops() };
        Some(())
    }),
];
