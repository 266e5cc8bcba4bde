//! The map of a library: which events and goals lead to which plans, and which goals these plans ask for.
//!
//! Each event or goal has a row, and below it a row for each plan for it, as they are tried. Each goal that is asked for has a
//! lane at the right: a dot on the row of a plan that asks for it, an arrow to its own row.

use super::svg::{width_of, Page, A4_HEIGHT, A4_WIDTH, INK, LARGE, NORMAL, SMALL};
use crate::library::*;
use crate::names::Names;

const MARGIN: f64 = 5.0;
const PLAN_INDENT: f64 = 6.0;
const TALLEST_ROW: f64 = 5.6;
const LEAST_ROW: f64 = 3.9;
const WIDEST_LANE: f64 = 9.0;
const LEAST_LANE: f64 = 2.4;
/// The most letters of a name that are shown.
const LONGEST_NAME: usize = 40;
/// The most goals without a plan that are shown.
const MOST_UNANSWERED: usize = 8;
const COLOURS: [&str; 8] = ["#2563eb", "#b45309", "#15803d", "#7e22ce", "#be123c", "#0e7490", "#4d7c0f", "#a21caf"];
const BOLD: &str = "font-weight=\"bold\" fill=\"#1f2937\"";
const PLAIN: &str = "fill=\"#1f2937\"";
const PALE: &str = "fill=\"#5b6472\"";

/// A kind of event or goal: kind, sign and predicate.
#[derive(Clone, Copy, PartialEq, Eq)]
struct Key {
    kind: u16,
    negative: bool,
    predicate: u16,
}

impl Key {
    fn of(kind: u16, literal: &Literal) -> Self {
        Key { kind, negative: literal.negative, predicate: literal.predicate }
    }

    fn is_goal(&self) -> bool {
        self.kind == ACHIEVE || self.kind == QUERY
    }

    fn name(&self, names: &Names) -> String {
        let word = match self.kind {
            ADDED => "gained",
            REMOVED => "lost",
            TOLD => "told",
            ACHIEVE => "achieve",
            _ => "answer",
        };
        let sign = if self.negative { "~" } else { "" };
        cut(&format!("{word} {sign}{}", names.symbol(self.predicate)))
    }
}

fn cut(name: &str) -> String {
    if name.chars().count() <= LONGEST_NAME {
        return name.to_string();
    }
    name.chars().take(LONGEST_NAME - 2).chain("..".chars()).collect()
}

/// The goals that a plan asks for, each once.
fn asked(plan: &Plan) -> Vec<Key> {
    let mut found = vec![];
    for branch in plan.states.iter().flatten().filter(|branch| branch.kind == ACHIEVE || branch.kind == QUERY) {
        let key = Key::of(branch.kind, &branch.literal);
        if !found.contains(&key) {
            found.push(key);
        }
    }
    found
}

/// Events first, then goals in the order in which the plans above ask for them, then goals that nobody asks for.
fn groups(library: &Library) -> Vec<Key> {
    let keys = || library.plans.iter().map(|plan| Key::of(plan.kind, &plan.trigger));
    let mut found: Vec<Key> = vec![];
    for key in keys().filter(|key| !key.is_goal()) {
        if !found.contains(&key) {
            found.push(key);
        }
    }
    let mut next = 0;
    while let Some(group) = found.get(next).copied() {
        let of_group = |plan: &&Plan| Key::of(plan.kind, &plan.trigger) == group;
        for key in library.plans.iter().filter(of_group).flat_map(asked) {
            if !found.contains(&key) && keys().any(|answered| answered == key) {
                found.push(key);
            }
        }
        next += 1;
    }
    let rest: Vec<Key> = keys().filter(|key| !found.contains(key)).collect();
    for key in rest {
        if !found.contains(&key) {
            found.push(key);
        }
    }
    found
}

/// A row: an event or goal, or a plan.
enum Row {
    Group(Key),
    Plan(usize),
}

pub fn draw(library: &Library, names: &Names) -> String {
    let mut rows = vec![];
    for key in groups(library) {
        rows.push(Row::Group(key));
        let of_key = |(_, plan): &(usize, &Plan)| Key::of(plan.kind, &plan.trigger) == key;
        rows.extend(library.plans.iter().enumerate().filter(of_key).map(|(number, _)| Row::Plan(number)));
    }
    let mut map = Map::new(library, names, rows);
    map.head();
    map.lanes();
    map.rows();
    map.foot()
}

struct Map<'a> {
    page: Page,
    library: &'a Library,
    names: &'a Names,
    rows: Vec<Row>,
    /// The goals that some plan asks for and some plan answers.
    lanes: Vec<Key>,
    row_height: f64,
    top: f64,
    lanes_at: f64,
    lane_width: f64,
}

impl<'a> Map<'a> {
    fn new(library: &'a Library, names: &'a Names, rows: Vec<Row>) -> Self {
        let asked_for: Vec<Key> = library.plans.iter().flat_map(asked).collect();
        let lanes: Vec<Key> = rows
            .iter()
            .filter_map(|row| match row {
                Row::Group(key) if asked_for.contains(key) => Some(*key),
                _ => None,
            })
            .collect();
        let top = MARGIN + LARGE + 12.0;
        let room = A4_HEIGHT - top - 24.0;
        let row_height = (room / rows.len().max(1) as f64).clamp(LEAST_ROW, TALLEST_ROW);
        let mut map = Map {
            page: Page::new(A4_WIDTH, "events, goals and plans"),
            library,
            names,
            rows,
            lanes,
            row_height,
            top,
            lanes_at: 0.0,
            lane_width: 0.0,
        };
        let widest = map.rows.iter().map(|row| map.text_end(row)).fold(0.0, f64::max);
        map.lanes_at = widest + 8.0;
        map.lane_width = ((A4_WIDTH - MARGIN - map.lanes_at) / map.lanes.len().max(1) as f64).clamp(LEAST_LANE, WIDEST_LANE);
        let needed = map.lanes_at + map.lane_width * map.lanes.len() as f64 + MARGIN;
        map.page.width = needed.max(A4_WIDTH);
        map
    }

    fn text(&self, row: &Row) -> String {
        match row {
            Row::Group(key) => key.name(self.names),
            Row::Plan(number) => format!("{number:>2}  {}", cut(&self.names.plan(*number))),
        }
    }

    fn text_end(&self, row: &Row) -> f64 {
        let indent = if matches!(row, Row::Plan(_)) { PLAN_INDENT } else { 0.0 };
        MARGIN + indent + width_of(&self.text(row), SMALL)
    }

    fn y_of(&self, row: usize) -> f64 {
        self.top + row as f64 * self.row_height
    }

    fn x_of(&self, lane: usize) -> f64 {
        self.lanes_at + (lane as f64 + 0.5) * self.lane_width
    }

    fn head(&mut self) {
        let y = MARGIN + LARGE;
        let title = if self.names.cell.is_empty() { "plans".to_string() } else { self.names.cell.clone() };
        self.page.text(MARGIN, y, LARGE, BOLD, &cut(&title));
        let legend = "below each event or goal its plans, as they are tried; a dot: this plan asks for the goal of that lane";
        self.page.text(MARGIN, y + 5.0, SMALL - 0.3, PALE, legend);
    }

    /// The lane of each goal: from the rows that ask for it to its own.
    fn lanes(&mut self) {
        for (lane, key) in self.lanes.clone().into_iter().enumerate() {
            let colour = COLOURS[lane % COLOURS.len()];
            let x = self.x_of(lane);
            let own = self.rows.iter().position(|row| matches!(row, Row::Group(group) if *group == key)).unwrap_or(0);
            let asking: Vec<usize> = (0..self.rows.len()).filter(|row| self.asks(*row, key)).collect();
            let first = asking.iter().copied().chain([own]).min().unwrap_or(own);
            let last = asking.iter().copied().chain([own]).max().unwrap_or(own);
            self.page.line(&[(x, self.middle(first)), (x, self.middle(last))], colour, false);
            let text_end = self.text_end(&self.rows[own]) + 1.5;
            self.page.line(&[(x, self.middle(own)), (text_end + 1.0, self.middle(own))], colour, false);
            self.page.arrow_head(text_end, self.middle(own), (-1.0, 0.0), colour);
        }
    }

    fn asks(&self, row: usize, key: Key) -> bool {
        matches!(&self.rows[row], Row::Plan(number) if asked(&self.library.plans[*number]).contains(&key))
    }

    fn middle(&self, row: usize) -> f64 {
        self.y_of(row) - SMALL * 0.35
    }

    fn rows(&mut self) {
        for place in 0..self.rows.len() {
            let (y, text) = (self.y_of(place), self.text(&self.rows[place]));
            match &self.rows[place] {
                Row::Group(key) => {
                    let lonely = key.is_goal() && !self.lanes.contains(key);
                    self.page.text(MARGIN, y, SMALL, BOLD, &text);
                    if lonely {
                        let x = MARGIN + width_of(&text, SMALL) + 2.0;
                        self.page.text(x, y, SMALL - 0.3, PALE, "no plan asks for it");
                    }
                }
                Row::Plan(_) => {
                    self.page.text(MARGIN + PLAN_INDENT, y, SMALL, PLAIN, &text);
                    self.dots(place);
                }
            }
        }
    }

    /// The goals that a plan asks for, as dots on its row.
    fn dots(&mut self, place: usize) {
        let asked: Vec<usize> = (0..self.lanes.len()).filter(|lane| self.asks(place, self.lanes[*lane])).collect();
        let Some(last) = asked.last() else { return };
        let (from, middle) = (self.text_end(&self.rows[place]) + 1.5, self.middle(place));
        self.page.line(&[(from, middle), (self.x_of(*last), middle)], INK, false);
        for lane in asked {
            let hollow = self.lanes[lane].kind == QUERY;
            self.page.dot(self.x_of(lane), middle, COLOURS[lane % COLOURS.len()], hollow);
        }
    }

    /// Goals without a plan, below the rows; the whole page.
    fn foot(mut self) -> String {
        let mut y = self.y_of(self.rows.len()) + 2.0;
        for text in self.unanswered() {
            self.page.text(MARGIN, y, SMALL, "fill=\"#be123c\"", &text);
            y += NORMAL + 1.4;
        }
        self.page.text(MARGIN, y, SMALL - 0.3, PALE, "full dot: achieve    hollow dot: ask    arrow: to the plans for it");
        self.page.finish(y + MARGIN)
    }

    /// A row for each goal that plans ask for and none answers, and how many more there are.
    fn unanswered(&self) -> Vec<String> {
        let answered = |key: &Key| self.library.plans.iter().any(|plan| Key::of(plan.kind, &plan.trigger) == *key);
        let mut found: Vec<(Key, Vec<String>)> = vec![];
        for (number, plan) in self.library.plans.iter().enumerate() {
            for key in asked(plan).into_iter().filter(|key| !answered(key)) {
                match found.iter_mut().find(|(other, _)| *other == key) {
                    Some((_, plans)) => plans.push(number.to_string()),
                    None => found.push((key, vec![number.to_string()])),
                }
            }
        }
        let told = |(key, plans): &(Key, Vec<String>)| {
            format!("no plan to {}, asked for by {}", key.name(self.names), cut(&plans.join(", ")))
        };
        let mut rows: Vec<String> = found.iter().take(MOST_UNANSWERED).map(told).collect();
        if let Some(more) = found.len().checked_sub(MOST_UNANSWERED).filter(|more| *more > 0) {
            rows.push(format!("and {more} goals more without a plan"));
        }
        rows
    }
}
