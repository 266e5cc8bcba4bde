//! `loft draw`: a card for each plan with the tree of its body, and a map of which goals lead to which plans.

mod card;
mod map;
mod svg;
#[cfg(test)]
mod tests;

use crate::arguments::{bad_file, bad_usage, Arguments};
use crate::build;
use crate::library::Library;
use crate::names::Names;
use crate::stored::{is_source, Stored};
use crate::FINE;
use std::path::Path;

const HELP: &str = "\
loft draw CELL.plan -o DIR
loft draw LIBRARY -o DIR [--names FILE]

Writes drawings (SVG) into DIR: map.svg, which events and goals lead to which plans, and a card for each plan with the
tree of its body. Each fits A4 as it is.
";

pub fn run(words: &[String]) -> i32 {
    draw(words).unwrap_or_else(|status| status)
}

fn draw(words: &[String]) -> Result<i32, i32> {
    let arguments = Arguments::read(words, HELP, &["-o", "--names"], &[])?;
    let [path] = &arguments.plain[..] else { return Err(bad_usage("draw takes one file of plans", HELP)) };
    let Some(folder) = arguments.option("-o") else { return Err(bad_usage("-o DIR says where the drawings go", HELP)) };
    let (library, names) = if is_source(path) {
        let (source, _) = build::read(path)?;
        (source.library, source.names)
    } else {
        let stored = Stored::read(Path::new(path), arguments.option("--names"))?;
        (stored.library, stored.names)
    };
    let drawings = drawings(&library, &names);
    std::fs::create_dir_all(folder).map_err(|error| bad_file(folder, &error))?;
    for (name, text) in &drawings {
        let path = Path::new(folder).join(name);
        std::fs::write(&path, text).map_err(|error| bad_file(&path.display().to_string(), &error))?;
    }
    println!("{folder}: {} drawings", drawings.len());
    Ok(FINE)
}

/// Each drawing with its file's name.
fn drawings(library: &Library, names: &Names) -> Vec<(String, String)> {
    let mut drawings = vec![("map.svg".to_string(), map::draw(library, names))];
    for number in 0..library.plans.len() {
        let name: String = names.plan(number).chars().filter(|letter| letter.is_ascii_alphanumeric() || *letter == '_').collect();
        drawings.push((format!("{number:02}-{name}.svg"), card::draw(library, names, number)));
    }
    drawings
}
