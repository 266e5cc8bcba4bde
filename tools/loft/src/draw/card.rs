//! The card of a plan: its trigger, its situations, the tree of its body, and its lists.

use super::svg::{letters_in, rows, width_of, Area, Page, A4_WIDTH, INK, LARGE, NORMAL, PALE_INK, SMALL};
use crate::body::branch_text;
use crate::library::*;
use crate::names::Names;
use crate::plan_source::{endings, head};

const WIDTH: f64 = A4_WIDTH;
const MARGIN: f64 = 5.0;
const LINE: f64 = 4.6;
/// Where the words behind `if`, `while`, `done` and `failed` begin.
const WORDS_AT: f64 = 22.0;
const BOX_HEIGHT: f64 = 5.6;
const BETWEEN_BOXES: f64 = 3.4;
const INDENT: f64 = 9.0;
/// Where the lines down from a box leave it.
const MISSED_AT: f64 = 3.0;
const WORKED_AT: f64 = 5.0;
const END_ARROW: f64 = 7.0;
const BETWEEN_PARTS: f64 = 3.0;
const FAINT: &str = "#9ca3af";
const BOLD: &str = "font-weight=\"bold\" fill=\"#1f2937\"";
const PLAIN: &str = "fill=\"#1f2937\"";
const PALE: &str = "fill=\"#5b6472\"";
const DONE: &str = "done";

/// The colours of a kind: inside and edge.
fn colours(kind: u16) -> (&'static str, &'static str) {
    match kind {
        EXTERNAL => ("#dbeafe", "#2563eb"),
        ACHIEVE => ("#fef3c7", "#b45309"),
        QUERY => ("#dcfce7", "#15803d"),
        DIVIDE => ("#f3e8ff", "#7e22ce"),
        _ => ("#f3f4f6", "#4b5563"),
    }
}

/// The drawing of a plan.
pub fn draw(library: &Library, names: &Names, number: usize) -> String {
    let plan = &library.plans[number];
    let page = Page::new(WIDTH, &format!("plan {number}, {}", names.plan(number)));
    let mut card = Card { page, y: MARGIN, library, plan, names, number };
    card.head();
    card.rule();
    card.body();
    card.rule();
    card.lists();
    card.foot()
}

struct Card<'a> {
    page: Page,
    y: f64,
    library: &'a Library,
    plan: &'a Plan,
    names: &'a Names,
    number: usize,
}

impl Card<'_> {
    fn head(&mut self) {
        self.y += LARGE;
        let title = format!("{}  {}", self.number, self.names.plan(self.number));
        for row in rows(&title, letters_in(WIDTH - 2.0 * MARGIN, LARGE)) {
            self.page.text(MARGIN, self.y, LARGE, BOLD, &row);
            self.y += LARGE + 1.4;
        }
        self.lines(&head(self.plan, self.number, self.names));
        self.y += BETWEEN_PARTS - NORMAL;
    }

    /// Lines of the plan language, the first word of each in bold.
    fn lines(&mut self, lines: &[String]) {
        for line in lines {
            let (word, rest) = line.split_once(' ').unwrap_or((line, ""));
            self.part(word, rest);
        }
    }

    /// A bold word, and text behind it in as many rows as it takes.
    fn part(&mut self, word: &str, text: &str) {
        self.page.text(MARGIN, self.y, NORMAL, BOLD, word);
        for row in rows(text, letters_in(WIDTH - MARGIN - WORDS_AT, NORMAL)) {
            self.page.text(WORDS_AT, self.y, NORMAL, PLAIN, &row);
            self.y += LINE;
        }
    }

    /// A line across, below what was drawn last.
    fn rule(&mut self) {
        self.page.line(&[(MARGIN, self.y), (WIDTH - MARGIN, self.y)], FAINT, false);
        self.y += BETWEEN_PARTS;
    }

    fn lists(&mut self) {
        let lines = endings(self.plan, self.number, self.names);
        self.y += NORMAL - BETWEEN_PARTS / 2.0;
        self.lines(&lines);
        if !lines.is_empty() {
            self.y += BETWEEN_PARTS / 2.0;
        }
    }

    /// What the lines mean, and the card's edge; the whole drawing.
    fn foot(mut self) -> String {
        let text =
            "arrow: it worked, go on    dashed: it missed, try this    nothing left to try: failed    0.1: state 0, branch 1";
        self.page.text(MARGIN, self.y, SMALL - 0.4, PALE, text);
        let height = self.y + MARGIN - 1.0;
        let inside = Area { x: 0.3, y: 0.3, width: WIDTH - 0.6, height: height - 0.6, fill: "none", edge: FAINT };
        self.page.rounded(&inside);
        self.page.finish(height)
    }
}

// ---- The body's tree

impl Card<'_> {
    fn body(&mut self) {
        if self.plan.states.first().is_none_or(Vec::is_empty) {
            self.end_mark(MARGIN, self.y);
            self.y += BOX_HEIGHT + BETWEEN_PARTS;
            return;
        }
        self.state(0, MARGIN);
        self.y += BETWEEN_PARTS - BETWEEN_BOXES;
    }

    /// A state's branches from the top down: what follows one that worked stands below it, to the right if there are others.
    fn state(&mut self, state: usize, x: f64) {
        let branches = &self.plan.states[state];
        let alone = branches.len() == 1;
        let below = if alone { x } else { x + INDENT };
        for (place, branch) in branches.iter().enumerate() {
            let is_last = place + 1 == branches.len();
            let next = usize::from(branch.next);
            let is_end = self.plan.states[next].is_empty();
            let foot = self.branch(state, place, x, is_end);
            if !is_end {
                let down = if alone { x + WORKED_AT } else { below + WORKED_AT };
                self.page.line(&[(down, foot), (down, self.y)], INK, false);
                self.page.arrow_head(down, self.y, (0.0, 1.0), INK);
                self.state(next, below);
            }
            if !is_last {
                self.page.line(&[(x + MISSED_AT, foot), (x + MISSED_AT, self.y)], PALE_INK, true);
                self.page.arrow_head(x + MISSED_AT, self.y, (0.0, 1.0), PALE_INK);
            }
        }
    }

    /// The box of a branch, with an end beside it where there is one; its foot.
    fn branch(&mut self, state: usize, place: usize, x: f64, is_end: bool) -> f64 {
        let branch = &self.plan.states[state][place];
        let label = format!("{state}.{place}");
        let text_at = x + 2.0 + width_of("00.0 ", SMALL);
        let end_width = END_ARROW + width_of(DONE, NORMAL) + 5.0;
        let room = WIDTH - MARGIN - text_at - 2.0 - end_width;
        let words = branch_text(branch, self.number, self.names) + &self.answered_by(branch);
        let shown = rows(&words, letters_in(room, NORMAL));
        let widest = shown.iter().map(|row| width_of(row, NORMAL)).fold(0.0, f64::max);
        let height = BOX_HEIGHT + LINE * (shown.len() - 1) as f64;
        let width = text_at + widest + 2.0 - x;
        let (fill, edge) = colours(branch.kind);
        self.page.rounded(&Area { x, y: self.y, width, height, fill, edge });
        self.page.text(x + 2.0, self.y + 3.9, SMALL - 0.2, PALE, &label);
        for (row, text) in shown.iter().enumerate() {
            self.page.text(text_at, self.y + 3.9 + LINE * row as f64, NORMAL, PLAIN, text);
        }
        if is_end {
            let middle = self.y + BOX_HEIGHT / 2.0;
            self.page.line(&[(x + width, middle), (x + width + END_ARROW - 1.0, middle)], INK, false);
            self.page.arrow_head(x + width + END_ARROW - 0.5, middle, (1.0, 0.0), INK);
            self.end_mark(x + width + END_ARROW, self.y);
        }
        let foot = self.y + height;
        self.y = foot + BETWEEN_BOXES;
        foot
    }

    /// The numbers of the plans for a goal.
    fn answered_by(&self, branch: &Branch) -> String {
        if branch.kind != ACHIEVE && branch.kind != QUERY {
            return String::new();
        }
        let (sign, predicate) = (branch.literal.negative, branch.literal.predicate);
        let is_for =
            |plan: &Plan| plan.kind == branch.kind && plan.trigger.negative == sign && plan.trigger.predicate == predicate;
        let plans = self.library.plans.iter().enumerate().filter(|(_, plan)| is_for(plan));
        let numbers: Vec<String> = plans.map(|(number, _)| number.to_string()).collect();
        match numbers.len() {
            0 => "  [no plan]".into(),
            1 => format!("  [plan {}]", numbers[0]),
            _ => format!("  [plans {}]", numbers.join(", ")),
        }
    }

    fn end_mark(&mut self, x: f64, y: f64) {
        let width = width_of(DONE, NORMAL) + 4.0;
        self.page.rounded(&Area { x, y, width, height: BOX_HEIGHT, fill: "#1f2937", edge: "#1f2937" });
        self.page.text(x + 2.0, y + 3.9, NORMAL, "fill=\"white\"", DONE);
    }
}
