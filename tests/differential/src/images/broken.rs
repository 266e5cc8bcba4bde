//! Images that break one of the rules for states (document 01, "State").

use super::parts::{
    active, any_instance, at_branch, become_tower, belief, external, fresh_event, from, goal, insert_belief, next, over, plans,
    push_event, rename, renumber, served, some,
};
use super::{ACTIVE, Event, GOAL, Image, Instance, OnImage, SUSPENDED, WAITING};
use crate::draft::{ACHIEVE, NEGATIVE, QUERY, V0, opposite};
use reference::agent::MOST_EXTERNAL;
use reference::library::{BranchKind, LARGEST_LIBRARY, MOST_PLANS};
use reference::state::Number;

/// Images that are refused with 10.
pub const BROKEN: &[(&str, OnImage)] = &[
    ("library that load refuses", |random, image| {
        match random.below(3) {
            0 => image.library.clear(),
            1 => image.library[0] = 33,
            _ => drop(image.library.pop()),
        }
        Some(())
    }),
    ("library of 19,332 bytes that load refuses", |_, image| {
        let refused = image.library.len() < LARGEST_LIBRARY;
        image.library.resize(LARGEST_LIBRARY, 0);
        refused.then_some(())
    }),
    ("held belief with a variable", |random, image| {
        let variable = V0 + random.below(8) as u16;
        belief(random, image)[random.between(1, 3)] = variable;
        Some(())
    }),
    ("held belief twice", |random, image| insert_belief(random, image, |held| held)),
    ("held belief and its opposite", |random, image| insert_belief(random, image, opposite)),
    ("id 0", |random, image| rename(random, image, 0)),
    ("id over the instances made", |random, image| {
        let over = over(random, image.made, image)?;
        rename(random, image, over)
    }),
    ("one id for two", |random, image| {
        let others: Vec<Number> = image.stacks.iter().flat_map(|stack| &stack.instances).map(|instance| instance.id).collect();
        let instance = any_instance(random, image)?;
        let other: Vec<&Number> = others.iter().filter(|id| **id != instance.id).collect();
        instance.id = if other.is_empty() { return None } else { **random.pick(&other) };
        Some(())
    }),
    ("external number 0", |random, image| renumber(random, image, 0)),
    ("external number over those taken", |random, image| {
        fresh_event(random, image)?;
        let over = over(random, image.taken, image)?;
        renumber(random, image, over)
    }),
    ("one external number for two", |random, image| {
        let numbers: Vec<Number> = image.events.iter().filter(|event| !event.is_goal()).map(|event| event.number).collect();
        let number = if numbers.is_empty() { return None } else { *random.pick(&numbers) };
        fresh_event(random, image)?.number = number;
        Some(())
    }),
    ("33 external events", |random, image| {
        while external(image) <= MOST_EXTERNAL {
            push_event(random, image)?;
        }
        Some(())
    }),
    ("external event of a goal's kind", |random, image| {
        fresh_event(random, image)?.kind = *random.pick(&[ACHIEVE, QUERY]);
        Some(())
    }),
    ("event of a literal with a variable", |random, image| {
        fresh_event(random, image)?.literal[random.between(1, 3)] = V0 + random.below(8) as u16;
        Some(())
    }),
    ("failed plan past the last", |random, image| {
        let plans = plans(image).len();
        let bit = if plans < MOST_PLANS { random.between(plans, MOST_PLANS - 1) } else { return None };
        some(random, &mut image.events)?.failed |= 1 << bit;
        Some(())
    }),
    ("plan past the last", |random, image| {
        let plans = plans(image).len();
        any_instance(random, image)?.plan = from(random, plans);
        Some(())
    }),
    ("state past the last", |random, image| {
        let plans = plans(image);
        let top = active(random, image)?;
        let states = plans[usize::from(top.plan)].states.len();
        (top.state, top.tried) = (from(random, states), 0);
        Some(())
    }),
    ("more tried than branches", |random, image| {
        let plans = plans(image);
        let top = active(random, image)?;
        let branches = plans[usize::from(top.plan)].states[usize::from(top.state)].len();
        top.tried = from(random, branches + 1);
        Some(())
    }),
    ("waiting with none tried", |random, image| {
        let top = active(random, image)?;
        (top.tried, top.status) = (0, WAITING);
        Some(())
    }),
    ("waiting for no external action", |random, image| {
        let top = at_branch(random, image, |kind| kind != BranchKind::External)?;
        top.status = WAITING;
        Some(())
    }),
    ("suspended on no goal", |random, image| {
        let top = at_branch(random, image, |kind| kind.goal().is_none())?;
        top.status = SUSPENDED;
        let origin = [GOAL, top.state, top.tried - 1];
        let goal = Event { origin, kind: *random.pick(&[ACHIEVE, QUERY]), literal: [1, 1, 0, 0], failed: 0, number: top.id };
        image.events.push(goal);
        Some(())
    }),
    ("below the top, not suspended", |random, image| {
        let mut below: Vec<&mut Instance> =
            image.stacks.iter_mut().flat_map(|stack| stack.instances.iter_mut().rev().skip(1)).collect();
        some(random, &mut below)?.status = *random.pick(&[ACTIVE, WAITING]);
        Some(())
    }),
    ("stack for no queued event", |random, image| {
        image.taken = next(image.taken, image)?;
        some(random, &mut image.stacks)?.event = image.taken;
        Some(())
    }),
    ("two stacks for one event", |random, image| {
        let other = some(random, &mut image.stacks)?.event;
        let stack = some(random, &mut image.stacks)?;
        if stack.event == other {
            return None;
        }
        stack.event = other;
        Some(())
    }),
    ("goal missing", |random, image| {
        let goals: Vec<usize> = (0..image.events.len()).filter(|place| image.events[*place].is_goal()).collect();
        let place = if goals.is_empty() { return None } else { *random.pick(&goals) };
        image.events.remove(place);
        Some(())
    }),
    ("goal twice", |random, image| {
        let copy = goal(random, image)?.clone();
        image.events.push(copy);
        Some(())
    }),
    ("goal twice, in another's place", |_, image| {
        *image = Image { form: image.form, ..Image::small_towers(2, 1) };
        *image.events.last_mut()? = image.events.iter().find(|event| event.is_goal())?.clone();
        Some(())
    }),
    ("goal of another state", |random, image| {
        goal(random, image)?.origin[1] ^= 1 << random.below(16);
        Some(())
    }),
    ("goal of another branch", |random, image| {
        goal(random, image)?.origin[2] ^= 1 << random.below(16);
        Some(())
    }),
    ("goal of nobody", |random, image| {
        image.made = next(image.made, image)?;
        let nobody = image.made;
        goal(random, image)?.number = nobody;
        Some(())
    }),
    ("goal of one that can run", |random, image| {
        become_tower(image, random.between(1, 8));
        image.stacks[0].instances.last_mut()?.status = ACTIVE;
        Some(())
    }),
    ("goal of one that can run, in another's place", |_, image| {
        *image = Image { form: image.form, ..Image::small_towers(2, 1) };
        image.stacks[1].instances[0].status = ACTIVE;
        image.events.retain(|event| !event.is_goal() || event.number != 1);
        Some(())
    }),
    ("goal of another kind", |random, image| {
        let goal = goal(random, image)?;
        goal.kind = if goal.kind == ACHIEVE { QUERY } else { ACHIEVE };
        Some(())
    }),
    ("goal of another literal", |random, image| {
        let place = random.below(4);
        let by = if place == 0 { NEGATIVE } else { 1 };
        goal(random, image)?.literal[place] ^= by;
        Some(())
    }),
    ("event of another kind than its plan", |random, image| {
        let event = served(random, image)?.0;
        event.kind = (event.kind + random.between(1, 2) as u16) % 3;
        Some(())
    }),
    ("failed plan that serves", |random, image| {
        let (event, plan) = served(random, image)?;
        event.failed |= 1 << plan;
        Some(())
    }),
    ("failed plan that serves a goal", |random, image| {
        let height = random.between(2, 7);
        become_tower(image, height);
        // the goals stand behind the external event; the last one is pending
        image.events[random.between(1, height - 1)].failed = 1 << 1;
        Some(())
    }),
    ("eighth instance suspended", |_, image| {
        become_tower(image, 8);
        Some(())
    }),
];
