//! A command's words: plain ones, and options with or without a value.

use crate::{BAD_USAGE, FINE};

pub struct Arguments {
    pub plain: Vec<String>,
    options: Vec<(String, String)>,
}

impl Arguments {
    /// Reads a command's words. `--help` prints the help; a wrong word says so. Both answer the exit status then.
    pub fn read(words: &[String], help: &str, with_value: &[&str], without: &[&str]) -> Result<Arguments, i32> {
        let mut arguments = Arguments { plain: vec![], options: vec![] };
        let mut words = words.iter();
        while let Some(word) = words.next() {
            if word == "--help" || word == "-h" {
                print!("{help}");
                return Err(FINE);
            } else if with_value.contains(&word.as_str()) {
                let Some(value) = words.next() else {
                    return Err(bad_usage(&format!("{word} wants a value behind it"), help));
                };
                arguments.options.push((word.clone(), value.clone()));
            } else if without.contains(&word.as_str()) {
                arguments.options.push((word.clone(), String::new()));
            } else if word.starts_with('-') && word.len() > 1 {
                return Err(bad_usage(&format!("there is no option {word}"), help));
            } else {
                arguments.plain.push(word.clone());
            }
        }
        Ok(arguments)
    }

    /// The value of an option; empty for one that takes none.
    pub fn option(&self, name: &str) -> Option<&str> {
        self.options.iter().find(|(option, _)| option == name).map(|(_, value)| value.as_str())
    }
}

/// Says what is wrong with a command's words, and its help; answers the exit status.
pub fn bad_usage(text: &str, help: &str) -> i32 {
    eprint!("loft: {text}\n\n{help}");
    BAD_USAGE
}

/// Says that a file cannot be read or written; answers the exit status.
pub fn bad_file(path: &str, error: &std::io::Error) -> i32 {
    eprintln!("loft: {path}: {error}");
    BAD_USAGE
}
