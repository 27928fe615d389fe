//! The two kinds of run: all cases must agree, or a mistake must be noticed.

use crate::arguments::Arguments;
use crate::case::{Case, Outcome};
use crate::counts::Counts;
use crate::difference::Difference;
use crate::generate::generate;
use crate::outcomes::Outcomes;
use crate::worked;
use second::execute::Mistake;
use second::inputs::random::Random;
use sme_move::numbers;

/// Runs what the command line asks for. True if it passes.
pub fn run(arguments: &Arguments) -> bool {
    let Arguments {
        seed, count, drawn, ..
    } = arguments;
    println!("seed 0x{seed:X}, count {count}, {drawn}");
    match arguments.mistake {
        Mistake::None if drawn.has_access() => compare_worked() && compare(arguments),
        Mistake::None => compare(arguments),
        _ => notice(arguments),
    }
}

/// Holds both programs to the worked examples. True if they pass.
fn compare_worked() -> bool {
    let examples = worked::list();
    let wrong: Vec<String> = examples
        .iter()
        .filter_map(|own| own.check().err())
        .collect();
    if wrong.is_empty() {
        let count = examples.len();
        println!("{count} worked examples, both as written out");
    } else {
        println!("{}", wrong.join("\n"));
    }
    wrong.is_empty()
}

/// Compares all cases and prints the counts. True if all agree and nothing
/// that can occur is missing.
fn compare(arguments: &Arguments) -> bool {
    let mut counts = Counts::new(arguments.drawn);
    let found = first_difference(arguments, |case, outcome| counts.add(case, outcome));
    if let Some(difference) = found {
        print!("{difference}");
        return false;
    }
    print!("{counts}");
    println!(
        "{} cases in buffers for longer vectors, each the same again with every byte beyond inverted",
        counts.long_cases()
    );
    println!("{} cases, no difference", counts.cases());
    match counts.check() {
        Ok(()) => true,
        Err(complaints) => {
            println!("{complaints}");
            false
        }
    }
}

/// Runs the second program with its mistake. True if a difference is found.
fn notice(arguments: &Arguments) -> bool {
    let mistake = arguments.mistake;
    match first_difference(arguments, |_, _| ()) {
        Some(difference) => {
            println!("{mistake:?}: noticed after {} cases", difference.number);
            true
        }
        None => {
            println!("{mistake:?}: NOT noticed");
            false
        }
    }
}

/// Runs cases until two outcomes differ; `agreed` sees those that do not.
pub fn first_difference(
    arguments: &Arguments,
    mut agreed: impl FnMut(&Case, &Outcome),
) -> Option<Difference> {
    let mut random = Random::new(arguments.seed);
    let mut case = Case::empty();
    let mut outcomes = Outcomes::new(numbers::execute);
    for number in 1..=arguments.count {
        generate(&mut random, &mut case, arguments.drawn);
        if let Some((sides, wanted, found)) = outcomes.compare(&case, arguments.mistake) {
            return Some(Difference {
                number,
                sides,
                case,
                wanted,
                found,
            });
        }
        agreed(&case, outcomes.agreed());
    }
    None
}
