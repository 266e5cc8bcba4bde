//! An agent as bytes (document 02, requests 3 and 5): the layout of docs/IMAGE-FORMAT.md, written and read field by field.

use crate::agent::{Agent, MOST_EXTERNAL, MOST_INSTANCES, MOST_STACKS};
use crate::belief::MOST_BELIEFS;
use crate::formed;
use crate::library::{EventKind, LARGEST_LIBRARY, Reader};
use crate::literal::{Bindings, Literal};
use crate::refusal::Refusal;
use crate::state::{Event, Instance, Number, Origin, Place, Stack, Status};

/// The bytes of an entry of the contents: the offset and the length of a body.
const ENTRY: usize = 4;
/// The oldest form: library, beliefs, events, stacks and counts, with numbers of 16 bits.
const OLD_BODIES: usize = 5;
/// The newest form: a sixth body tells the width of the numbers.
const BODIES: usize = 6;
/// The width of the numbers, in bits.
const WIDTH: u16 = Number::BITS as u16;
/// The most events in a queue: the external ones, and a goal for each instance that has room above it.
const MOST_EVENTS: usize = MOST_EXTERNAL + MOST_STACKS * (MOST_INSTANCES - 1);

const EXTERNAL: u16 = 0;
const GOAL: u16 = 1;

/// Saves an agent at the front of a buffer; how many bytes it wrote. An agent of this type is always well formed.
pub fn save(agent: &Agent, buffer: &mut [u8]) -> Result<usize, Refusal> {
    let image = image(agent);
    let place = buffer.get_mut(..image.len()).ok_or(Refusal::ImageRoom)?;
    place.copy_from_slice(&image);
    Ok(image.len())
}

/// The agent that an image holds.
pub fn restore(bytes: &[u8]) -> Result<Agent, Refusal> {
    let image = Image::read(bytes).ok_or(Refusal::Image)?;
    formed::agent(image).ok_or(Refusal::NotWellFormed)
}

/// The image of an agent.
pub fn image(agent: &Agent) -> Vec<u8> {
    let bodies: [Vec<u8>; BODIES] =
        [agent.library().to_vec(), beliefs(agent), events(agent), stacks(agent), counts(agent), WIDTH.to_le_bytes().to_vec()];
    let mut contents = Vec::new();
    let mut offset = ENTRY * BODIES;
    for body in &bodies {
        put(&mut contents, [offset as u16, body.len() as u16]);
        offset += body.len();
    }
    [contents, bodies.concat()].concat()
}

fn put(bytes: &mut Vec<u8>, numbers: impl IntoIterator<Item = u16>) {
    bytes.extend(numbers.into_iter().flat_map(u16::to_le_bytes));
}

fn beliefs(agent: &Agent) -> Vec<u8> {
    let facts = agent.beliefs().facts();
    let mut body = Vec::new();
    put(&mut body, [facts.len() as u16]);
    facts.iter().for_each(|fact| put(&mut body, fact.stored()));
    body
}

fn events(agent: &Agent) -> Vec<u8> {
    let mut body = Vec::new();
    put(&mut body, [agent.queue().len() as u16]);
    agent.queue().iter().for_each(|event| put_event(&mut body, event));
    body
}

fn put_event(body: &mut Vec<u8>, event: &Event) {
    let (origin, number) = match event.origin {
        Origin::External(number) => ([EXTERNAL, 0, 0], number),
        Origin::Goal(place) => ([GOAL, place.state as u16, place.branch as u16], place.id),
    };
    let failed = event.failed.iter().fold(0_u32, |bits, plan| bits | 1 << plan);
    put(body, origin);
    put(body, [event.kind as u16]);
    put(body, event.fact.stored());
    body.extend(failed.to_le_bytes());
    body.extend(number.to_le_bytes());
}

fn stacks(agent: &Agent) -> Vec<u8> {
    let mut body = Vec::new();
    put(&mut body, [agent.stacks().len() as u16]);
    for stack in agent.stacks() {
        let served = stack.first().map(|bottom| bottom.serves);
        let Some(Origin::External(number)) = served else { continue };
        put(&mut body, [stack.len() as u16]);
        body.extend(number.to_le_bytes());
        stack.iter().for_each(|instance| put_instance(&mut body, instance));
    }
    body
}

fn put_instance(body: &mut Vec<u8>, instance: &Instance) {
    put(body, [instance.plan, instance.state, instance.tried].map(|number| number as u16));
    put(body, [instance.status as u16]);
    put(body, instance.bindings.stored());
    body.extend(instance.id.to_le_bytes());
}

fn counts(agent: &Agent) -> Vec<u8> {
    [agent.taken(), agent.made()].map(Number::to_le_bytes).concat()
}

/// What the bytes of an image say; the rules for states are not tested yet.
pub(crate) struct Image<'a> {
    pub(crate) library: &'a [u8],
    pub(crate) beliefs: Vec<Literal>,
    pub(crate) events: Vec<StoredEvent>,
    pub(crate) stacks: Vec<Stack>,
    /// How many external events were taken, and how many instances were made.
    pub(crate) counts: [Number; 2],
}

/// An event of an image, whose literal need not be ground.
pub(crate) struct StoredEvent {
    pub(crate) origin: Origin,
    pub(crate) kind: EventKind,
    pub(crate) literal: Literal,
    /// Bit p is plan p.
    pub(crate) failed: u32,
}

impl<'a> Image<'a> {
    /// Reads an image; none where a byte is not as docs/IMAGE-FORMAT.md has it. Where the first body starts tells the form.
    fn read(bytes: &'a [u8]) -> Option<Self> {
        let start = usize::from(Reader(bytes).number()?);
        if start == ENTRY * OLD_BODIES {
            return Image::of(bodies(bytes)?, narrow);
        }
        let [library, beliefs, events, stacks, counts, width] = bodies(bytes)?;
        whole(width, |body| body.number()).filter(|width| *width == WIDTH)?;
        Image::of([library, beliefs, events, stacks, counts], wide)
    }

    /// Reads the bodies that all forms have, with numbers of either width.
    fn of([library, beliefs, events, stacks, counts]: [&'a [u8]; OLD_BODIES], number: ReadNumber) -> Option<Self> {
        if library.len() > LARGEST_LIBRARY {
            return None;
        }
        Some(Image {
            library,
            beliefs: whole(beliefs, |body| body.at_most(MOST_BELIEFS, Reader::literal))?,
            events: whole(events, |body| body.at_most(MOST_EVENTS, |body| body.event(number)))?,
            stacks: whole(stacks, |body| body.at_most(MOST_STACKS, |body| body.stack(number)))?,
            counts: whole(counts, |body| Some([number(body)?, number(body)?]))?,
        })
    }
}

/// Reads an event's number, an id or a count.
type ReadNumber = fn(&mut Reader) -> Option<Number>;

/// A number of 16 bits.
fn narrow(reader: &mut Reader) -> Option<Number> {
    reader.number().map(Number::from)
}

/// A number of 32 bits, the low byte first.
fn wide(reader: &mut Reader) -> Option<Number> {
    Some(Number::from(reader.number()?) | Number::from(reader.number()?) << u16::BITS)
}

/// The bodies, if they are packed behind the contents up to the last byte.
fn bodies<const COUNT: usize>(bytes: &[u8]) -> Option<[&[u8]; COUNT]> {
    let mut contents = Reader(bytes);
    let mut bodies = [&bytes[..0]; COUNT];
    let mut end = ENTRY * COUNT;
    for body in &mut bodies {
        let (offset, length) = (usize::from(contents.number()?), usize::from(contents.number()?));
        if offset != end {
            return None;
        }
        end += length;
        *body = bytes.get(offset..end)?;
    }
    (end == bytes.len()).then_some(bodies)
}

/// What is read off a body, if that takes up all of it.
fn whole<T>(body: &[u8], read: impl FnOnce(&mut Reader) -> Option<T>) -> Option<T> {
    let mut reader = Reader(body);
    let value = read(&mut reader)?;
    reader.0.is_empty().then_some(value)
}

impl Reader<'_> {
    fn at_most<T>(&mut self, most: usize, item: impl FnMut(&mut Self) -> Option<T>) -> Option<Vec<T>> {
        let count = self.count(most)?;
        self.items(count, item)
    }

    fn event(&mut self, number: ReadNumber) -> Option<StoredEvent> {
        let origin = [self.number()?, self.number()?, self.number()?];
        let kind = EventKind::from_stored(self.number()?)?;
        let literal = self.literal()?;
        let failed = wide(self)?;
        let number = number(self)?;
        let origin = match origin {
            [EXTERNAL, 0, 0] => Origin::External(number),
            [GOAL, state, branch] => Origin::Goal(Place { id: number, state: state.into(), branch: branch.into() }),
            _ => return None,
        };
        Some(StoredEvent { origin, kind, literal, failed })
    }

    /// A stack: the lowest instance serves its external event, each other one the goal of the one below it.
    fn stack(&mut self, number: ReadNumber) -> Option<Stack> {
        let height = self.count(MOST_INSTANCES).filter(|height| *height > 0)?;
        let mut serves = Origin::External(number(self)?);
        self.items(height, |reader| {
            let instance = reader.instance(serves, number)?;
            serves = Origin::Goal(instance.last_tried());
            Some(instance)
        })
    }

    fn instance(&mut self, serves: Origin, number: ReadNumber) -> Option<Instance> {
        let [plan, state, tried] = [self.number()?, self.number()?, self.number()?].map(usize::from);
        let status = match self.number()? {
            0 => Status::Active,
            1 => Status::Waiting,
            2 => Status::Suspended,
            _ => return None,
        };
        let numbers = self.items(8, Reader::number)?;
        let bindings = Bindings::from_stored(numbers.first_chunk()?)?;
        Some(Instance { id: number(self)?, plan, serves, bindings, state, tried, status })
    }
}
