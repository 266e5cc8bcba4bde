//! Parts of an image that are to be changed.

use super::{ACTIVE, Event, Image, Instance, SUSPENDED};
use crate::random::Random;
use reference::agent::MOST_EXTERNAL;
use reference::belief::MOST_BELIEFS;
use reference::library::{BranchKind, Library, Plan};
use reference::state::Number;

/// Some item, if there is one.
pub(super) fn some<'a, T>(random: &mut Random, items: &'a mut [T]) -> Option<&'a mut T> {
    let place = random.below(items.len());
    items.get_mut(place)
}

/// A number from the least on: often the least itself.
pub(super) fn from(random: &mut Random, least: usize) -> u16 {
    let most = *random.pick(&[least, least + 300]);
    random.between(least, most) as u16
}

pub(super) fn plans(image: &Image) -> Vec<Plan> {
    Library::decode(&image.library).map(|library| library.plans).unwrap_or_default()
}

/// Some belief, which is added where there is none.
pub(super) fn belief<'a>(random: &mut Random, image: &'a mut Image) -> &'a mut [u16; 4] {
    if image.beliefs.is_empty() {
        image.beliefs.push([1, 1, 0, 0]);
    }
    let place = random.below(image.beliefs.len());
    &mut image.beliefs[place]
}

/// Adds a belief that some held one leads to.
pub(super) fn insert_belief(random: &mut Random, image: &mut Image, led_to: fn([u16; 4]) -> [u16; 4]) -> Option<()> {
    if image.beliefs.len() == MOST_BELIEFS {
        image.beliefs.pop();
    }
    let other = led_to(*belief(random, image));
    let place = random.between(0, image.beliefs.len());
    image.beliefs.insert(place, other);
    Some(())
}

pub(super) fn external(image: &Image) -> usize {
    image.events.iter().filter(|event| !event.is_goal()).count()
}

/// Adds a pending external event that nothing is wrong with, where a number and, to be fresh, room are left.
pub(super) fn fresh_event<'a>(random: &mut Random, image: &'a mut Image) -> Option<&'a mut Event> {
    if external(image) == MOST_EXTERNAL { None } else { push_event(random, image) }
}

pub(super) fn push_event<'a>(random: &mut Random, image: &'a mut Image) -> Option<&'a mut Event> {
    image.taken = next(image.taken, image)?;
    let (kind, number) = (random.below(3) as u16, image.taken);
    let literal = [random.between(1, 22) as u16, random.between(1, 5) as u16, 0, 0];
    let place = random.between(0, image.events.len());
    image.events.insert(place, Event { origin: [0; 3], kind, literal, failed: 0, number });
    image.events.get_mut(place)
}

pub(super) fn goal<'a>(random: &mut Random, image: &'a mut Image) -> Option<&'a mut Event> {
    let mut goals: Vec<&mut Event> = image.events.iter_mut().filter(|event| event.is_goal()).collect();
    if goals.is_empty() { None } else { Some(goals.swap_remove(random.below(goals.len()))) }
}

pub(super) fn any_instance<'a>(random: &mut Random, image: &'a mut Image) -> Option<&'a mut Instance> {
    let stack = some(random, &mut image.stacks)?;
    some(random, &mut stack.instances)
}

/// Some top that is not suspended, made active.
pub(super) fn active<'a>(random: &mut Random, image: &'a mut Image) -> Option<&'a mut Instance> {
    let top = some(random, &mut image.stacks)?.instances.last_mut()?;
    if top.status == SUSPENDED {
        return None;
    }
    top.status = ACTIVE;
    Some(top)
}

/// Some top that is not suspended, put right behind a branch of such a kind.
pub(super) fn at_branch<'a>(
    random: &mut Random,
    image: &'a mut Image,
    wanted: fn(BranchKind) -> bool,
) -> Option<&'a mut Instance> {
    let plans = plans(image);
    let top = active(random, image)?;
    let mut places = vec![];
    for (state, branches) in plans[usize::from(top.plan)].states.iter().enumerate() {
        let found = branches.iter().enumerate().filter(|(_, branch)| wanted(branch.kind));
        places.extend(found.map(|(branch, _)| (state as u16, branch as u16 + 1)));
    }
    (top.state, top.tried) = if places.is_empty() { return None } else { *random.pick(&places) };
    Some(top)
}

/// The event of some stack's lowest instance, and its plan.
pub(super) fn served<'a>(random: &mut Random, image: &'a mut Image) -> Option<(&'a mut Event, u16)> {
    let stack = some(random, &mut image.stacks)?;
    let (number, plan) = (stack.event, stack.instances[0].plan);
    let event = image.events.iter_mut().find(|event| !event.is_goal() && event.number == number)?;
    Some((event, plan))
}

/// The number behind the last one that a count has given, if the image's form has one.
pub(super) fn next(count: Number, image: &Image) -> Option<Number> {
    count.checked_add(1).filter(|number| *number <= image.form.last_number())
}

/// Some number over a count: often the next, or the last of the image's form.
pub(super) fn over(random: &mut Random, count: Number, image: &Image) -> Option<Number> {
    let (next, last) = (next(count, image)?, image.form.last_number());
    let any = random.between(next as usize, last as usize) as Number;
    Some(*random.pick(&[next, last, any, any]))
}

pub(super) fn become_tower(image: &mut Image, height: usize) {
    *image = Image { form: image.form, ..Image::tower(height as Number) };
}

/// Gives some instance another id, and its goal too.
pub(super) fn rename(random: &mut Random, image: &mut Image, id: Number) -> Option<()> {
    let instance = any_instance(random, image)?;
    let old = std::mem::replace(&mut instance.id, id);
    image.events.iter_mut().filter(|event| event.is_goal() && event.number == old).for_each(|event| event.number = id);
    Some(())
}

/// Gives some external event another number, and its stack too.
pub(super) fn renumber(random: &mut Random, image: &mut Image, number: Number) -> Option<()> {
    let mut external: Vec<&mut Event> = image.events.iter_mut().filter(|event| !event.is_goal()).collect();
    let old = std::mem::replace(&mut some(random, &mut external)?.number, number);
    image.stacks.iter_mut().filter(|stack| stack.event == old).for_each(|stack| stack.event = number);
    Some(())
}
