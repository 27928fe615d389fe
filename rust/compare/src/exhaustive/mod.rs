//! Comparison on request: every word at every level, eleven numbers
//! systematically and at random, and as many random states as asked for, on
//! all cores.

pub mod arguments;
pub mod blocks;
pub mod codec;
pub mod executions;
pub mod fields;
pub mod progress;
mod trip;
pub mod words;

use arguments::{Arguments, Part};
use codec::Programs;
use second::execute::Mistake;
use sme_move::Settings;
use std::time::Instant;

/// Compares all that is asked for and prints what was found. True if there
/// is no difference and nothing is missing.
pub fn run(arguments: &Arguments) -> bool {
    let Arguments { draws, workers, .. } = arguments;
    println!("seed 0x{:X}, threads {}", draws.seed, workers.threads);
    let start = Instant::now();
    match compare_parts(arguments) {
        Ok(compared) => {
            println!("all: {}", verdict(&compared.join(", "), start));
            true
        }
        Err(message) => {
            println!("{message}");
            false
        }
    }
}

/// What was compared, for each part. The first difference ends all.
fn compare_parts(arguments: &Arguments) -> Result<Vec<String>, String> {
    let compare = |&part: &Part| {
        let start = Instant::now();
        let compared = match part {
            Part::Words => compare_words(arguments),
            Part::Fields => compare_fields(arguments),
            Part::Executions => compare_executions(arguments),
        }?;
        println!("{part}: {}", verdict(&compared, start));
        Ok(compared)
    };
    arguments.parts.iter().map(compare).collect()
}

fn verdict(compared: &str, start: Instant) -> String {
    let seconds = start.elapsed().as_secs_f64();
    format!("{compared}, no difference, {seconds:.1} s")
}

fn compare_words(arguments: &Arguments) -> Result<String, String> {
    let range = arguments.from..=arguments.to;
    let found = words::compare(&Programs::REAL, range, &arguments.workers)?;
    for (level, count) in found.decoding.iter().enumerate() {
        println!("level {level}: {count} words decode");
    }
    println!("levels above: {} decodings", found.at_other_levels);
    found.check()?;
    let highest = Settings::MAX_LEVEL;
    Ok(format!("{} words at levels 0 to {highest}", found.words))
}

fn compare_fields(arguments: &Arguments) -> Result<String, String> {
    let Arguments { draws, workers, .. } = arguments;
    let found = fields::compare(&Programs::REAL, &fields::bases(), *draws, workers)?;
    println!("{} combinations are encodable", found.encodable);
    Ok(format!("{} combinations", found.combinations))
}

fn compare_executions(arguments: &Arguments) -> Result<String, String> {
    let Arguments { draws, workers, .. } = arguments;
    let counts = executions::compare(*draws, Mistake::None, workers)?;
    print!("{counts}");
    counts.check()?;
    Ok(format!("{} cases", counts.cases()))
}
