//! The two kinds of run: all must agree but for known faults, or a mistake
//! must be noticed.

use crate::arguments::{AnyMistake, Arguments};
use crate::states::{Plan, Unit};
use crate::words::{self, every_block, WordMistake};
use compare::exhaustive::blocks::Draws;
use second::execute::Mistake;
use std::process::exit;
use std::time::Instant;

/// States in which a mistake must be noticed.
const TO_NOTICE: u64 = 20_000;

/// Runs what the command line asks for. True if it passes.
pub fn run(arguments: &Arguments) -> bool {
    let done = match arguments.mistake {
        None => compare(arguments),
        Some(mistake) => notice(arguments, mistake).map(|line| println!("{line}")),
    };
    if let Err(message) = &done {
        println!("{message}");
    }
    done.is_ok()
}

/// Compares the parts that are asked for, and prints what was found.
fn compare(arguments: &Arguments) -> Result<(), String> {
    if arguments.words {
        compare_words(arguments)?;
    }
    if arguments.states {
        compare_states(arguments)?;
    }
    println!("peers: no difference but known faults");
    Ok(())
}

fn compare_words(arguments: &Arguments) -> Result<(), String> {
    let start = Instant::now();
    let peer = &arguments.disassembler;
    let version = peer.version().unwrap_or_else(|told| unusable(&told));
    println!("words: LLVM {version}");
    notice_all(arguments, WordMistake::all().map(AnyMistake::OfWords))?;
    let blocks = every_block();
    let found = words::compare(peer, words::archive, &blocks, &arguments.workers)?;
    print!("{found}");
    found.check()?;
    let (decodings, seconds) = (found.decodings(), start.elapsed().as_secs());
    println!("words: {decodings} decodings, no known faults, no difference, {seconds} s");
    Ok(())
}

fn compare_states(arguments: &Arguments) -> Result<(), String> {
    let start = Instant::now();
    let plan = plan(arguments, Unit::Archive);
    let abilities = plan.abilities().unwrap_or_else(|told| unusable(&told));
    println!("states: {}", arguments.emulator.version()?);
    println!("{}", told_level(abilities.level));
    if !abilities.low_memory {
        println!("memory cannot be at address 0 there, so no access goes past 2^64");
    }
    if arguments.only.is_none() {
        let shown = mistakes(abilities.level);
        notice_all(arguments, shown.map(AnyMistake::OfStates))?;
    }
    let tally = plan.compare(&arguments.workers)?;
    print!("{tally}");
    tally.check(abilities.level)?;
    let (cases, known, seed) = (tally.cases, tally.known, arguments.draws.seed);
    let seconds = start.elapsed().as_secs();
    println!(
        "states: {cases} from seed 0x{seed:X}, {known} with known faults, no other difference, {seconds} s"
    );
    Ok(())
}

/// Ends the command: without a peer there is no result, good or bad.
fn unusable(told: &str) -> ! {
    eprintln!("peers: {told}");
    exit(2)
}

/// What the emulator's level means for the comparison.
fn told_level(level: u64) -> &'static str {
    match level {
        1 => "it has SME and not SME2: words of level 1 are executed, the others must be illegal",
        2 => "it has SME2 and not SME2.1: words of levels 1 and 2 are executed, the others must be illegal",
        _ => "it has SME2.1: words of all levels are executed",
    }
}

fn plan(arguments: &Arguments, unit: Unit) -> Plan<'_> {
    Plan {
        emulator: &arguments.emulator,
        unit,
        draws: arguments.draws,
        only: arguments.only,
    }
}

/// The mistakes that can show in an emulator of this level: moves of four
/// registers are of level 2, and the machine has too little memory for two
/// about its length.
fn mistakes(level: u64) -> impl Iterator<Item = Mistake> {
    let shows = move |mistake: &Mistake| match mistake {
        Mistake::FourByStrideOfTwo => level >= 2,
        Mistake::MemoryLengthIn16Bits | Mistake::MemoryOffsetIn16Bits => false,
        _ => true,
    };
    let all = Mistake::NAMED.iter().map(|&(_, mistake)| mistake);
    all.filter(shows)
}

/// Shows that each of these mistakes is noticed.
fn notice_all(
    arguments: &Arguments,
    mistakes: impl Iterator<Item = AnyMistake>,
) -> Result<(), String> {
    let noticed: Result<Vec<_>, _> = mistakes.map(|own| notice(arguments, own)).collect();
    println!("{} deliberate mistakes, each noticed", noticed?.len());
    Ok(())
}

/// Runs one part with a wrong unit: the line that says that it was noticed.
fn notice(arguments: &Arguments, mistake: AnyMistake) -> Result<String, String> {
    let (name, found) = match mistake {
        AnyMistake::OfWords(own) => {
            let peer = &arguments.disassembler;
            let found = words::compare(peer, own.decode, &own.blocks(), &arguments.workers);
            (own.name.to_string(), found.err())
        }
        AnyMistake::OfStates(own) => {
            let draws = Draws {
                seed: arguments.draws.seed,
                count: TO_NOTICE,
            };
            let plan = Plan {
                draws,
                ..plan(arguments, Unit::Wrong(own))
            };
            (format!("{own:?}"), plan.compare(&arguments.workers).err())
        }
    };
    match found {
        Some(told) if told.starts_with("DIFFERENCE") => {
            let line = told.lines().next().unwrap_or("");
            Ok(format!("{name}: noticed, {line}"))
        }
        Some(told) => Err(told),
        None => Err(format!("{name}: NOT noticed")),
    }
}
