//! Compares the proved board's host library with the plain reference after every call.
//!
//!     differential [--calls N] [--merges N] [--seed S] [--fault KIND]
//!
//! Random schedules, with excursions to sound boards that no schedule reaches, to damaged lists and tables, and to
//! lists of another length, and to openings with backoff tables that pass or do not. From 100,000 calls on, every word,
//! the refusals 8 to 11, 13, 19, 20 and 26, every sort of damage and every ground of 21, looks that days, units and
//! words of sixty-four messages decide, and what closed days, senders' shares and backoff tables decide must occur.
//! After every call of a schedule no add of a day that was closed before is accepted, each sender has what its accepted
//! adds come to, its own messages whatever the others do, and it rests as the backoff table of the opening says.
//!
//! Then merges of random tables, whole and damaged, and for every hundred of them two schedules that are played under a
//! table and under a merged one: one inside request 1's law, which is answered alike, and one that leaves it. From
//! 100,000 merges on, every ground of a refusal must occur, and answers that differ outside the law.
//!
//! With `--fault`, or built without the feature `host`, the reference stands on both sides. The last line is
//! `differential: N passed, M failed`, N being the calls and merges that went the same way.

mod backoffs;
mod calls;
mod changes;
mod closes;
mod days;
mod difference;
mod edited;
mod faulty;
mod grounds;
mod habits;
mod invariant;
mod law;
mod ledger;
mod looks;
mod merges;
mod misclosed;
mod mislooked;
mod misrested;
mod misshared;
mod openings;
mod pair;
mod plain_rust;
#[cfg(feature = "host")]
mod proved;
mod random;
mod recounts;
mod schedule;
mod seen;
mod shares;
mod stays;
mod strays;
mod waits;
mod words;

use calls::Calls;
use grounds::Met;
use pair::{Pair, Tally};
use plain_rust::Reference;
use random::Random;
use reference::answer::WORDS;
use std::process::ExitCode;

const HELP: &str = "\
usage: differential [--calls N] [--merges N] [--seed S] [--fault KIND]
From 100,000 calls on, every word, the refusals 8 to 11, 13, 19, 20 and 26, every sort of damage, every ground of 21,
looks that days, units and words of sixty-four messages decide, and what closed days, senders' shares and backoff tables
decide must occur; from 100,000 merges on, every ground of a refusal and answers that differ outside the law.";

/// So many calls are enough for every word to occur, so many merges for every ground.
const COVERING: u64 = 100_000;

struct Options {
    calls: u64,
    merges: u64,
    seed: u64,
    fault: Option<String>,
}

fn options() -> Result<Options, String> {
    let mut options = Options { calls: 1_000_000, merges: 200_000, seed: 1, fault: None };
    let mut arguments = std::env::args().skip(1);
    while let Some(name) = arguments.next() {
        let value = arguments.next().ok_or(format!("{name} wants a value"))?;
        let number = || value.parse().map_err(|_| format!("{name} wants a number, not {value}"));
        match name.as_str() {
            "--calls" => options.calls = number()?,
            "--merges" => options.merges = number()?,
            "--seed" => options.seed = number()?,
            "--fault" if faulty::faults().any(|fault| fault == value) => options.fault = Some(value),
            "--fault" => return Err(format!("faults are {}", faulty::faults().collect::<Vec<_>>().join(", "))),
            _ => return Err(format!("no option {name}")),
        }
    }
    Ok(options)
}

fn other_side(fault: &Option<String>) -> Box<dyn Calls> {
    match fault {
        Some(fault) => Box::new(faulty::Faulty::new(fault)),
        #[cfg(feature = "host")]
        None => Box::new(proved::Host),
        #[cfg(not(feature = "host"))]
        None => Box::new(Reference::default()),
    }
}

/// The random numbers of a schedule, a merge or a law's schedules, by their number.
fn seeded(options: &Options, number: u64) -> Random {
    Random::new(options.seed.wrapping_mul(1_000_003).wrapping_add(number))
}

/// Schedule after schedule until there are enough calls.
fn compare(pair: &mut Pair, options: &Options) -> Result<(), String> {
    let mut number = 0;
    while pair.tally.calls < options.calls {
        let played = schedule::run(pair, &mut seeded(options, number), number, options.calls);
        played.map_err(|difference| {
            let (seed, calls) = (options.seed, pair.tally.calls);
            format!("seed {seed}, schedule {number}, call {calls}: {difference}\ntable {:?}", pair.table)
        })?;
        number += 1;
    }
    Ok(())
}

fn compare_merges(pair: &mut Pair, met: &mut Met, options: &Options) -> Result<(), String> {
    (0..options.merges).try_for_each(|number| {
        let merged = merges::run(pair, &mut seeded(options, number), met);
        merged.map_err(|difference| format!("seed {}, merge {number}: {difference}", options.seed))
    })
}

fn play_law(tally: &mut law::Tally, options: &Options) -> Result<(), String> {
    let mut side = other_side(&options.fault);
    (0..options.merges / 100).try_for_each(|number| {
        let played = law::run(&mut *side, &mut seeded(options, number), number, tally);
        played.map_err(|difference| format!("seed {}, law {number}: {difference}", options.seed))
    })
}

/// The words of answers that are no refusals.
fn accepting() -> impl Iterator<Item = usize> {
    (0..WORDS.len()).filter(|&word| WORDS[word] != "refused")
}

/// Every word and the refusals must have been answered, every list damaged, looks decided by days, by units and by
/// words, and calls by closed days, by shares and by backoff tables, if there were calls enough.
fn missing(tally: &Tally) -> Option<String> {
    if tally.calls < COVERING {
        return None;
    }
    let word = accepting().find(|&word| tally.words[word] == 0).map(|word| WORDS[word].to_string());
    let mut refusals = [8, 9, 10, 11, 13, 19, 20, 26].into_iter();
    let refusal = refusals.find(|&number| tally.refusals[number] == 0).map(|number| format!("refused {number}"));
    let mut damages = tally.seen.counts().into_iter().flat_map(|(_, counts)| counts);
    word.or(refusal).or_else(|| damages.find(|(_, times)| *times == 0).map(|(what, _)| what))
}

/// The same of merges: every ground of a refusal, and what the law's test is to see.
fn missing_merges(tally: &Tally, met: &Met, law: &law::Tally) -> Option<String> {
    if tally.merges < COVERING {
        return None;
    }
    let ground = met.counts().into_iter().find(|(_, times)| *times == 0);
    ground.map(|(words, _)| words).or(law.missing())
}

fn print_counts(tally: &Tally) {
    let words = accepting().map(|word| format!("{} {}", WORDS[word], tally.words[word]));
    let refusals = (0..256).filter(|&n| tally.refusals[n] > 0).map(|n| format!("refused {n}: {}", tally.refusals[n]));
    println!("answered in schedules: {}", words.collect::<Vec<_>>().join(", "));
    println!("refused in schedules: {}", refusals.collect::<Vec<_>>().join(", "));
    let Tally { unreached, damaged, reads, replays, .. } = tally;
    println!("unreached sound boards: {unreached} calls; damaged: {damaged} calls; {reads} reads, {replays} replays");
    for (sort, counts) in tally.seen.counts() {
        let counts: Vec<String> = counts.into_iter().map(|(what, times)| format!("{what} {times}")).collect();
        println!("{sort}: {}", counts.join(", "));
    }
}

fn print_merges(tally: &Tally, met: &Met) {
    let words = met.counts().into_iter().map(|(words, times)| format!("{words}: {times}"));
    println!("{} merges: {}", tally.merges, words.collect::<Vec<_>>().join(", "));
}

fn main() -> ExitCode {
    let options = match options() {
        Ok(options) => options,
        Err(fault) => {
            eprintln!("differential: {fault}\n{HELP}");
            return ExitCode::from(2);
        }
    };
    let mut pair = Pair::new(Box::new(Reference::default()), other_side(&options.fault));
    let (mut met, mut law) = (Met::default(), law::Tally::default());
    let compared = compare(&mut pair, &options)
        .and_then(|()| compare_merges(&mut pair, &mut met, &options))
        .and_then(|()| play_law(&mut law, &options));
    print_counts(&pair.tally);
    print_merges(&pair.tally, &met);
    law.print();
    let never = || missing(&pair.tally).or_else(|| missing_merges(&pair.tally, &met, &law));
    let failure = compared.err().or_else(|| never().map(|what| format!("never seen: {what}")));
    if let Some(failure) = &failure {
        println!("differential: failed: {failure}");
    }
    let passed = pair.tally.calls + pair.tally.merges + law.calls;
    println!("differential: {passed} passed, {} failed", u8::from(failure.is_some()));
    ExitCode::from(u8::from(failure.is_some()))
}
