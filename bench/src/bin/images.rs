//! Writes the largest agent's image into a file, for the proved calls, and times the reference's calls on it: `images FILE [RUNS]`.

use bench::cases::largest_image;
use reference::image::{restore, save};
use std::hint::black_box;
use std::process::ExitCode;
use std::time::Instant;

/// Calls in each run.
const CALLS: u32 = 1_000;

fn main() -> ExitCode {
    let words: Vec<String> = std::env::args().skip(1).collect();
    let runs = words.get(1).map_or(Some(5), |runs| runs.parse().ok());
    let (Some(file), Some(runs)) = (words.first(), runs) else {
        eprintln!("usage: images FILE [RUNS]");
        return ExitCode::from(2);
    };
    let image = largest_image();
    if let Err(error) = std::fs::write(file, &image) {
        eprintln!("{file}: {error}");
        return ExitCode::FAILURE;
    }
    let Ok(agent) = restore(&image) else {
        eprintln!("the largest image is refused");
        return ExitCode::FAILURE;
    };
    let mut buffer = vec![0; image.len()];
    println!("reference, restore: {:.2} us", least(runs, || black_box(restore(black_box(&image))).is_ok()));
    println!("reference, save: {:.2} us", least(runs, || save(black_box(&agent), black_box(&mut buffer)).is_ok()));
    ExitCode::SUCCESS
}

/// Microseconds for a call, the least of some runs.
fn least(runs: u32, mut call: impl FnMut() -> bool) -> f64 {
    let run = |_| {
        let start = Instant::now();
        assert!((0..CALLS).all(|_| call()));
        start.elapsed().as_secs_f64() * 1e6 / f64::from(CALLS)
    };
    (0..runs).map(run).fold(f64::INFINITY, f64::min)
}
