//! print and its like, in place of the standard ones, which panic where a reader such as `head` has closed the pipe.

use std::fmt::Arguments;
use std::io::Write;

/// Writes a text; what nobody reads is no fault.
pub fn write(mut to: impl Write, text: Arguments) {
    let _ = to.write_fmt(text);
}

macro_rules! print {
    ($($text:tt)*) => { $crate::printing::write(std::io::stdout(), format_args!($($text)*)) };
}

macro_rules! println {
    ($($text:tt)*) => { $crate::printing::write(std::io::stdout(), format_args!("{}\n", format_args!($($text)*))) };
}

macro_rules! eprint {
    ($($text:tt)*) => { $crate::printing::write(std::io::stderr(), format_args!($($text)*)) };
}

macro_rules! eprintln {
    ($($text:tt)*) => { $crate::printing::write(std::io::stderr(), format_args!("{}\n", format_args!($($text)*))) };
}
