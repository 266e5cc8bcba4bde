//! Images taken apart, whole or not, and their bytes as docs/IMAGE-FORMAT.md has them.

use crate::draft::{ACHIEVE, Library, Literal, Plan, TOLD, V0, stored};
use crate::random::Random;
use reference::agent::Agent;
use reference::state::{Number, Origin};

mod broken;
mod damage;
mod kept;
pub mod kinds;
mod parts;

/// A change of an image; none where the image has nothing of the kind.
pub type OnImage = fn(&mut Random, &mut Image) -> Option<()>;

pub const GOAL: u16 = 1;
pub const ACTIVE: u16 = 0;
pub const WAITING: u16 = 1;
pub const SUSPENDED: u16 = 2;

/// The newest form's width of numbers, in bits.
const WIDTH: u16 = 32;

/// The forms of an image.
#[derive(Clone, Copy, Debug, PartialEq, Eq)]
pub enum Form {
    /// Five bodies, numbers of 16 bits.
    Narrow,
    /// Six bodies, numbers of 32 bits.
    Wide,
}

impl Form {
    /// The last number that an event or an instance can have.
    pub fn last_number(self) -> Number {
        match self {
            Form::Narrow => u16::MAX.into(),
            Form::Wide => Number::MAX,
        }
    }

    fn number(self, number: Number) -> Vec<u8> {
        match self {
            Form::Narrow => stored(&[number as u16]),
            Form::Wide => number.to_le_bytes().to_vec(),
        }
    }
}

#[derive(Clone)]
pub struct Event {
    /// External or goal, then the goal's state and branch.
    pub origin: [u16; 3],
    pub kind: u16,
    pub literal: Literal,
    /// Bit p is plan p.
    pub failed: u32,
    /// The external number, or the poster's id.
    pub number: Number,
}

#[derive(Clone)]
pub struct Instance {
    pub plan: u16,
    pub state: u16,
    pub tried: u16,
    pub status: u16,
    pub environment: [u16; 8],
    pub id: Number,
}

#[derive(Clone)]
pub struct Stack {
    /// The external event that the lowest instance serves.
    pub event: Number,
    pub instances: Vec<Instance>,
}

#[derive(Clone)]
pub struct Image {
    pub library: Vec<u8>,
    pub beliefs: Vec<Literal>,
    pub events: Vec<Event>,
    pub stacks: Vec<Stack>,
    pub taken: Number,
    pub made: Number,
    /// The sixth body of the newest form.
    pub width: u16,
    pub form: Form,
}

impl Event {
    pub fn is_goal(&self) -> bool {
        self.origin[0] == GOAL
    }

    fn of(event: &reference::state::Event) -> Self {
        let (origin, number) = match event.origin {
            Origin::External(number) => ([0, 0, 0], number),
            Origin::Goal(place) => ([GOAL, place.state as u16, place.branch as u16], place.id),
        };
        let failed = event.failed.iter().map(|plan| 1 << plan).sum();
        Event { origin, kind: event.kind as u16, literal: event.fact.stored(), failed, number }
    }

    fn encode(&self, form: Form) -> Vec<u8> {
        let front = stored(&[&self.origin[..], &[self.kind], &self.literal].concat());
        [front, self.failed.to_le_bytes().to_vec(), form.number(self.number)].concat()
    }
}

impl Instance {
    fn of(instance: &reference::state::Instance) -> Self {
        let value = |variable: u8| instance.bindings.get(variable).unwrap_or(V0 + u16::from(variable));
        Instance {
            plan: instance.plan as u16,
            state: instance.state as u16,
            tried: instance.tried as u16,
            status: instance.status as u16,
            environment: [0, 1, 2, 3, 4, 5, 6, 7].map(value),
            id: instance.id,
        }
    }

    fn encode(&self, form: Form) -> Vec<u8> {
        let front = stored(&[&[self.plan, self.state, self.tried, self.status][..], &self.environment].concat());
        [front, form.number(self.id)].concat()
    }
}

impl Stack {
    fn of(stack: &reference::state::Stack) -> Self {
        let event = match stack[0].serves {
            Origin::External(number) => number,
            Origin::Goal(goal) => panic!("the lowest instance serves a goal of {}", goal.id),
        };
        Stack { event, instances: stack.iter().map(Instance::of).collect() }
    }

    fn encode(&self, form: Form) -> Vec<u8> {
        let front = [stored(&[self.instances.len() as u16]), form.number(self.event)].concat();
        [front, self.instances.iter().flat_map(|instance| instance.encode(form)).collect()].concat()
    }
}

impl Image {
    pub fn of(agent: &Agent) -> Self {
        Image {
            library: agent.library().to_vec(),
            beliefs: agent.beliefs().facts().iter().map(|fact| fact.stored()).collect(),
            events: agent.queue().iter().map(Event::of).collect(),
            stacks: agent.stacks().iter().map(Stack::of).collect(),
            taken: agent.taken(),
            made: agent.made(),
            width: WIDTH,
            form: Form::Wide,
        }
    }

    /// The image in the oldest form, if its numbers are small enough.
    pub fn narrowed(self) -> Option<Self> {
        let most = self.taken.max(self.made);
        (most <= Form::Narrow.last_number()).then_some(Image { form: Form::Narrow, ..self })
    }

    pub fn encode(&self) -> Vec<u8> {
        let form = self.form;
        let mut bodies = vec![
            self.library.clone(),
            list(&self.beliefs, |literal| stored(literal)),
            list(&self.events, |event| event.encode(form)),
            list(&self.stacks, |stack| stack.encode(form)),
            [form.number(self.taken), form.number(self.made)].concat(),
        ];
        if form == Form::Wide {
            bodies.push(stored(&[self.width]));
        }
        let mut offset = 4 * bodies.len();
        let mut contents = vec![];
        for body in &bodies {
            contents.extend([offset as u16, body.len() as u16]);
            offset += body.len();
        }
        [stored(&contents), bodies.concat()].concat()
    }

    /// An agent with one stack, where each instance is suspended on a goal that the next one serves, the top one too.
    pub fn tower(height: Number) -> Self {
        Image::small_towers(1, height)
    }

    /// So many such stacks, of the smallest library.
    pub fn small_towers(stacks: Number, height: Number) -> Self {
        Image::towers(&Library { beliefs: vec![], plans: tower_plans().to_vec() }, stacks, height)
    }

    /// An agent of a library that begins with the plans of a tower, with so many stacks of that height.
    pub fn towers(library: &Library, stacks: Number, height: Number) -> Self {
        let mut environment = [0, 1, 2, 3, 4, 5, 6, 7].map(|variable| V0 + variable);
        environment[0] = 5;
        let told = |number| Event { origin: [0; 3], kind: TOLD, literal: [1, 5, 0, 0], failed: 0, number };
        let goal = |id| Event { origin: [GOAL, 0, 0], kind: ACHIEVE, literal: [2, 5, 0, 0], failed: 0, number: id };
        let instance = |id| {
            let plan = u16::from(id % height != 1 % height);
            Instance { plan, state: 0, tried: 1, status: SUSPENDED, environment, id }
        };
        let stack =
            |place| Stack { event: place + 1, instances: (height * place + 1..=height * (place + 1)).map(instance).collect() };
        Image {
            library: library.encode(),
            beliefs: library.beliefs.clone(),
            events: (1..=stacks).map(told).chain((1..=stacks * height).map(goal)).collect(),
            stacks: (0..stacks).map(stack).collect(),
            taken: stacks,
            made: stacks * height,
            width: WIDTH,
            form: Form::Wide,
        }
    }

    /// Makes the tops active at the start of their plans, without goals.
    pub fn with_active_tops(mut self) -> Self {
        for top in self.stacks.iter_mut().filter_map(|stack| stack.instances.last_mut()) {
            (top.status, top.tried) = (ACTIVE, 0);
            self.events.retain(|event| !event.is_goal() || event.number != top.id);
        }
        self
    }
}

/// A plan for a told event that posts a goal, and one for the goal that posts it again.
pub fn tower_plans() -> [Plan; 2] {
    let step = [(ACHIEVE, [2, V0, 0, 0])];
    [Plan::simple(TOLD, [1, V0, 0, 0]).path(&step), Plan::simple(ACHIEVE, [2, V0, 0, 0]).path(&step)]
}

fn list<T>(items: &[T], item: impl FnMut(&T) -> Vec<u8>) -> Vec<u8> {
    [stored(&[items.len() as u16]), items.iter().flat_map(item).collect()].concat()
}
