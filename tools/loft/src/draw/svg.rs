//! A page of SVG, measured in millimetres.

use std::fmt::Write as _;

/// A4 without margins of 10 mm.
pub const A4_WIDTH: f64 = 190.0;
pub const A4_HEIGHT: f64 = 277.0;

/// The width of a letter, as a part of the letters' height: the letters are of one width.
const LETTER: f64 = 0.6;
const FONT: &str = "'DejaVu Sans Mono', 'Liberation Mono', Menlo, Consolas, monospace";

/// Letters of 8, 9 and 12 points.
pub const SMALL: f64 = 2.8;
pub const NORMAL: f64 = 3.2;
pub const LARGE: f64 = 4.2;

pub const INK: &str = "#1f2937";
pub const PALE_INK: &str = "#5b6472";

pub struct Page {
    pub width: f64,
    title: String,
    body: String,
}

/// A box: its place, its size, and the colours of its inside and its edge.
pub struct Area<'a> {
    pub x: f64,
    pub y: f64,
    pub width: f64,
    pub height: f64,
    pub fill: &'a str,
    pub edge: &'a str,
}

/// How wide some text is.
pub fn width_of(text: &str, size: f64) -> f64 {
    text.chars().count() as f64 * size * LETTER
}

/// How many letters fit into a width.
pub fn letters_in(width: f64, size: f64) -> usize {
    (width / (size * LETTER)).max(1.0) as usize
}

impl Page {
    /// An empty page; its title is what a reader hears or sees before the drawing.
    pub fn new(width: f64, title: &str) -> Self {
        Page { width, title: escaped(title), body: String::new() }
    }

    /// The whole file, for a drawing of this height; one that is larger than A4 is made smaller.
    pub fn finish(&self, height: f64) -> String {
        let width = self.width;
        let scale = (A4_WIDTH / width).min(A4_HEIGHT / height).min(1.0);
        let (on_paper, tall) = (width * scale, height * scale);
        format!(
            "<svg xmlns=\"http://www.w3.org/2000/svg\" width=\"{on_paper:.1}mm\" height=\"{tall:.1}mm\" \
             viewBox=\"0 0 {width:.1} {height:.1}\" font-family=\"{FONT}\">\n\
             <title>{}</title>\n\
             <rect width=\"{width:.1}\" height=\"{height:.1}\" fill=\"white\"/>\n{}</svg>\n",
            self.title, self.body
        )
    }

    /// Text from x on, its foot at y; as wide as `width_of` says, whatever letters the reader's machine has.
    pub fn text(&mut self, x: f64, y: f64, size: f64, style: &str, text: &str) {
        if text.is_empty() {
            return;
        }
        let width = width_of(text, size);
        // writing to a string does not fail
        let _ = writeln!(
            self.body,
            "<text x=\"{x:.2}\" y=\"{y:.2}\" font-size=\"{size}\" textLength=\"{width:.2}\" \
             lengthAdjust=\"spacingAndGlyphs\" xml:space=\"preserve\" {style}>{}</text>",
            escaped(text)
        );
    }

    pub fn rounded(&mut self, area: &Area) {
        let Area { x, y, width, height, fill, edge } = area;
        let _ = writeln!(
            self.body,
            "<rect x=\"{x:.2}\" y=\"{y:.2}\" width=\"{width:.2}\" height=\"{height:.2}\" rx=\"1.2\" \
             fill=\"{fill}\" stroke=\"{edge}\" stroke-width=\"0.3\"/>"
        );
    }

    /// A line through some points.
    pub fn line(&mut self, points: &[(f64, f64)], colour: &str, dashed: bool) {
        let path: String = points.iter().map(|(x, y)| format!("{x:.2},{y:.2} ")).collect();
        let dashes = if dashed { " stroke-dasharray=\"1.2 0.9\"" } else { "" };
        let _ = writeln!(
            self.body,
            "<polyline points=\"{}\" fill=\"none\" stroke=\"{colour}\" stroke-width=\"0.35\"{dashes}/>",
            path.trim_end()
        );
    }

    /// A triangle with its point at (x, y); `toward` is the direction in which it points.
    pub fn arrow_head(&mut self, x: f64, y: f64, toward: (f64, f64), colour: &str) {
        const LENGTH: f64 = 1.8;
        const HALF: f64 = 0.8;
        let (dx, dy) = toward;
        let (back_x, back_y) = (x - LENGTH * dx, y - LENGTH * dy);
        let (side_x, side_y) = (HALF * dy, HALF * dx);
        let _ = writeln!(
            self.body,
            "<polygon points=\"{x:.2},{y:.2} {:.2},{:.2} {:.2},{:.2}\" fill=\"{colour}\"/>",
            back_x + side_x,
            back_y + side_y,
            back_x - side_x,
            back_y - side_y
        );
    }

    pub fn dot(&mut self, x: f64, y: f64, colour: &str, hollow: bool) {
        let fill = if hollow { "white" } else { colour };
        let _ = writeln!(
            self.body,
            "<circle cx=\"{x:.2}\" cy=\"{y:.2}\" r=\"0.95\" fill=\"{fill}\" stroke=\"{colour}\" stroke-width=\"0.4\"/>"
        );
    }
}

fn escaped(text: &str) -> String {
    let mut safe = String::new();
    for letter in text.chars() {
        match letter {
            '&' => safe.push_str("&amp;"),
            '<' => safe.push_str("&lt;"),
            '>' => safe.push_str("&gt;"),
            letter if letter.is_control() => safe.push(' '),
            letter => safe.push(letter),
        }
    }
    safe
}

/// Text in rows of at most so many letters, parted behind spaces where there are any.
pub fn rows(text: &str, most: usize) -> Vec<String> {
    let mut rows = vec![];
    let mut left: Vec<char> = text.chars().collect();
    while left.len() > most {
        let space = left[..most].iter().rposition(|letter| *letter == ' ').filter(|place| *place > 0);
        let rest = left.split_off(space.map_or(most, |place| place + 1));
        rows.push(left.iter().collect::<String>().trim_end().to_string());
        left = rest;
    }
    rows.push(left.into_iter().collect());
    rows
}
