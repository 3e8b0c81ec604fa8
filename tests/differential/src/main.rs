//! The proved archive held to the model: random histories, each call compared in numbers, reply, records, tables and untouched bytes.
#![deny(warnings)]

mod alter;
mod before;
mod counts;
mod craft;
mod history;
mod make;
mod payloads;
mod random;
mod sides;
mod text;

use counts::Counts;
use history::{replay, shrink, Play};
use std::time::{Duration, Instant};

const HELP: &str = "differential [--calls N] [--minutes N] [--seed N]
  --calls N     stop after about N calls (default 200000)
  --minutes N   go on for N minutes instead, with a line every ten seconds
  --seed N      the first history's seed (default 1); with --calls 1 that history alone is played
Histories have the seeds N, N + 1, ... A history in which the two sides part is shrunk and printed.";

struct Options {
    calls: u64,
    minutes: Option<f64>,
    seed: u64,
}

fn options() -> Option<Options> {
    let mut options = Options { calls: 200_000, minutes: None, seed: 1 };
    let mut words = std::env::args().skip(1);
    while let Some(word) = words.next() {
        let value = words.next()?;
        match word.as_str() {
            "--calls" => options.calls = value.parse().ok()?,
            "--minutes" => options.minutes = Some(value.parse().ok().filter(|m| *m >= 0.0)?),
            "--seed" => options.seed = value.parse().ok()?,
            _ => return None,
        }
    }
    Some(options)
}

/// Plays the history of one seed; where the sides part, the steps so far.
fn play(seed: u64, counts: &mut Counts) -> Result<(), Vec<history::Step>> {
    let mut maker = make::Maker::new(seed);
    let mut steps = Vec::new();
    let mut play = Play::new(counts).map_err(|_| vec![])?;
    while let Some(step) = maker.step(&mut play.model) {
        steps.push(step);
        if play.step(&steps[steps.len() - 1], counts).is_err() {
            return Err(steps);
        }
    }
    counts.histories += 1;
    Ok(())
}

fn report(seed: u64, steps: Vec<history::Step>) {
    let whole = steps.len();
    let short = shrink(steps);
    println!("differential: the sides part in the history of seed {seed}, shrunk from {whole} steps to {}:", short.len());
    for (index, step) in short.iter().enumerate() {
        println!("{}", text::step(index + 1, step));
    }
    match replay(&short) {
        Some((index, how)) => println!("at step {}:\n{how}", index + 1),
        None => println!("but not when it is played again: a call depends on more than its inputs"),
    }
    println!("again: differential --calls 1 --seed {seed}");
}

fn main() -> std::process::ExitCode {
    let Some(options) = options() else {
        eprintln!("{HELP}");
        return 2.into();
    };
    let start = Instant::now();
    let mut counts = Counts::default();
    let mut line = Duration::from_secs(10);
    let mut seed = options.seed;
    loop {
        if let Err(steps) = play(seed, &mut counts) {
            report(seed, steps);
            return 1.into();
        }
        seed += 1;
        let passed = start.elapsed();
        let done = match options.minutes {
            Some(minutes) => passed.as_secs_f64() >= 60.0 * minutes,
            None => counts.calls >= options.calls,
        };
        if options.minutes.is_some() && passed >= line {
            println!("soak: {} s, {} histories, {} calls, no difference", passed.as_secs(), counts.histories, counts.calls);
            line += Duration::from_secs(10);
        }
        if done {
            break;
        }
    }
    println!("{}\n", counts.table());
    println!(
        "differential: seeds {} to {}, {} calls and {} event messages in {:.1} s, no difference",
        options.seed,
        seed - 1,
        counts.calls,
        counts.messages,
        start.elapsed().as_secs_f64()
    );
    let gaps = counts.gaps();
    if counts.calls >= 100_000 && !gaps.is_empty() {
        println!("differential: never reached: {}", gaps.join("; "));
        return 1.into();
    }
    0.into()
}
