//! No text stands on other text and no line runs through text, in the drawings of the examples and of a library at every limit.

use super::drawings;
use crate::language::compile;
use crate::library::*;
use crate::names::{Names, PlanNames, PredicateNames};

const CELLS: [&str; 2] =
    [include_str!("../../../../examples/cutting-cell/cell.plan"), include_str!("../../../../examples/eight-racks/cell.plan")];

/// A rectangle: left, top, right, bottom.
type Bounds = [f64; 4];

fn overlap(one: &Bounds, other: &Bounds) -> bool {
    one[0] < other[2] && other[0] < one[2] && one[1] < other[3] && other[1] < one[3]
}

fn attribute(element: &str, name: &str) -> f64 {
    let start = element.find(&format!(" {name}=\"")).map(|place| place + name.len() + 3).expect(name);
    let value = element[start..].split('"').next().expect(name);
    value.trim_end_matches("mm").parse().expect(name)
}

/// The area of each text, with what it says.
fn texts(svg: &str) -> Vec<(Bounds, String)> {
    svg.lines()
        .filter(|line| line.starts_with("<text"))
        .map(|line| {
            let (x, y, size) = (attribute(line, "x"), attribute(line, "y"), attribute(line, "font-size"));
            let said = line.split('>').nth(1).unwrap_or("").trim_end_matches("</text").to_string();
            ([x, y - 0.75 * size, x + attribute(line, "textLength"), y + 0.2 * size], said)
        })
        .collect()
}

/// The area of each straight part of a line.
fn lines(svg: &str) -> Vec<Bounds> {
    let mut found = vec![];
    for line in svg.lines().filter(|line| line.starts_with("<polyline")) {
        let points = line.split('"').nth(1).unwrap_or("");
        let points: Vec<Vec<f64>> =
            points.split(' ').map(|point| point.split(',').map(|number| number.parse().expect("a number")).collect()).collect();
        for pair in points.windows(2) {
            let (from, to) = (&pair[0], &pair[1]);
            found.push([from[0].min(to[0]) - 0.1, from[1].min(to[1]) - 0.1, from[0].max(to[0]) + 0.1, from[1].max(to[1]) + 0.1]);
        }
    }
    found
}

fn is_legible(name: &str, svg: &str) {
    let texts = texts(svg);
    let start = svg.lines().next().expect("a first line");
    let size: Vec<f64> = start
        .split("viewBox=\"")
        .nth(1)
        .expect("a size")
        .split('"')
        .next()
        .expect("a size")
        .split(' ')
        .skip(2)
        .map(|side| side.parse().expect("a side"))
        .collect();
    for (place, (bounds, said)) in texts.iter().enumerate() {
        assert!(bounds[0] >= 0.0 && bounds[2] <= size[0] && bounds[3] <= size[1], "{name}: '{said}' leaves the page");
        for (other, other_said) in &texts[place + 1..] {
            assert!(!overlap(bounds, other), "{name}: '{said}' stands on '{other_said}'");
        }
        for line in lines(svg) {
            assert!(!overlap(bounds, &line), "{name}: a line runs through '{said}'");
        }
    }
    assert!(attribute(start, "width") <= 190.0 && attribute(start, "height") <= 277.0, "{name}: larger than A4");
}

#[test]
fn drawings_of_the_examples_are_legible() {
    for cell in CELLS {
        let compiled = compile("cell.plan", cell);
        let drawings = drawings(&compiled.library, &compiled.names);
        assert_eq!(drawings.len(), compiled.library.plans.len() + 1);
        drawings.iter().for_each(|(name, svg)| is_legible(name, svg));
    }
}

// ---- A library at every limit, with long names

/// Trees of 16 states: a row, a bush, pairs, a comb.
fn tree(shape: usize) -> Vec<Vec<usize>> {
    let mut states: Vec<Vec<usize>> = vec![vec![]; MOST_STATES];
    for state in 1..MOST_STATES {
        let above = match shape % 4 {
            0 => state - 1,
            1 => (state - 1) / 4,
            2 => (state - 1) / 2,
            _ => (state - 1) / 2 * 2,
        };
        states[above.min(state - 1)].push(state);
    }
    states
}

fn literal(number: usize) -> Literal {
    let variable = |place: usize| FIRST_VARIABLE + ((number + place) % MOST_VARIABLES) as u16;
    Literal { negative: number % 3 == 0, predicate: (number % 20) as u16, terms: [variable(0), variable(2), variable(5)] }
}

fn plan(number: usize) -> Plan {
    let situation: Situation =
        (0..MOST_ITEMS).map(|row| (0..MOST_ITEMS).map(|place| literal(number + row + place)).collect()).collect();
    let list: Vec<Action> =
        (0..MOST_ITEMS).map(|place| Action { removes: place % 2 == 0, literal: literal(number + place) }).collect();
    let branch = |state: usize, next: usize| {
        let kind = ((number + next) % 6) as u16;
        let literal =
            if kind == DIVIDE { Literal { negative: false, predicate: 11, ..literal(state) } } else { literal(number + next) };
        Branch { kind, literal: Literal { negative: literal.negative && kind != EXTERNAL, ..literal }, next: next as u16 }
    };
    let states = tree(number).into_iter().enumerate();
    Plan {
        kind: (number % 5) as u16,
        least: Some(3),
        trigger: literal(number),
        context: situation.clone(),
        maintenance: situation,
        success: list.clone(),
        failure: list,
        states: states.map(|(state, next)| next.into_iter().map(|next| branch(state, next)).collect()).collect(),
    }
}

#[test]
fn drawings_at_every_limit_are_legible() {
    let library = Library { beliefs: vec![], plans: (0..MOST_PLANS).map(plan).collect() };
    let names = Names {
        predicates: (0..20)
            .map(|number| PredicateNames { number, name: format!("a_long_predicate_name_{number}"), ..PredicateNames::default() })
            .collect(),
        plans: (0..MOST_PLANS)
            .map(|number| PlanNames {
                name: format!("a_plan_with_a_name_that_does_not_end_so_soon_{number}"),
                ..PlanNames::default()
            })
            .collect(),
        ..Names::none()
    };
    drawings(&library, &names).iter().for_each(|(name, svg)| is_legible(name, svg));
    drawings(&library, &Names::none()).iter().for_each(|(name, svg)| is_legible(name, svg));
    drawings(&Library::default(), &Names::none()).iter().for_each(|(name, svg)| is_legible(name, svg));
}
