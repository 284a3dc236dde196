//! Compares the position book with the unchanged Rust on seeded inputs.
//!
//!     differential [--seed N] [--inputs N] [--threads N]
//!
//! A difference is shrunk and printed as the run program's input, and the exit code is 1.

use differential::counts::Counts;
use differential::{alone, damaged, rules, seasons};
use inputs::{Rng, Season, Step, shrink};
use std::process::ExitCode;
use std::sync::Mutex;
use std::sync::atomic::{AtomicU64, Ordering};
use std::thread;

/// So many inputs are taken by a thread at a time.
const BLOCK: u64 = 250;
/// With so many inputs or more, a rule that none of them reaches is a failure.
const ENOUGH: u64 = 20_000;

struct Options {
    seed: u64,
    inputs: u64,
    threads: u64,
}

/// What the threads share: the next input, and what they found.
struct Work {
    next: AtomicU64,
    found: Mutex<Found>,
}

#[derive(Default)]
struct Found {
    counts: Counts,
    difference: Option<String>,
}

fn main() -> ExitCode {
    let options = match options() {
        Ok(options) => options,
        Err(why) => {
            eprintln!("differential: {why}");
            return ExitCode::from(2);
        }
    };
    let work = Work {
        next: AtomicU64::new(0),
        found: Mutex::default(),
    };
    thread::scope(|scope| {
        for _ in 0..options.threads {
            scope.spawn(|| take_blocks(&options, &work));
        }
    });
    let found = work.found.into_inner().expect("no thread panicked");
    report(&options, &found)
}

fn options() -> Result<Options, String> {
    let mut options = Options {
        seed: 1,
        inputs: ENOUGH,
        threads: 2,
    };
    let mut arguments = std::env::args().skip(1);
    while let Some(name) = arguments.next() {
        let value = arguments.next().and_then(|value| value.parse().ok());
        let value = value.ok_or(format!("{name}: a number is missing"))?;
        match name.as_str() {
            "--seed" => options.seed = value,
            "--inputs" => options.inputs = value,
            "--threads" => options.threads = value,
            _ => {
                return Err(format!(
                    "{name}: only --seed, --inputs and --threads are known"
                ));
            }
        }
    }
    Ok(options)
}

/// Takes blocks of inputs until there are no more, or a difference was found.
fn take_blocks(options: &Options, work: &Work) {
    loop {
        let start = work.next.fetch_add(BLOCK, Ordering::Relaxed);
        if start >= options.inputs {
            return;
        }
        let mut counts = Counts::default();
        let difference = (start..options.inputs.min(start + BLOCK))
            .find_map(|index| input(options.seed, index, &mut counts).err());
        let mut found = work.found.lock().expect("no thread panicked");
        found.counts.join(&counts);
        let step = (options.inputs / 10).max(BLOCK);
        if found.counts.get("inputs").is_multiple_of(step) {
            eprintln!("{}", found.counts);
        }
        if difference.is_some() {
            found.difference = difference;
            work.next.store(options.inputs, Ordering::Relaxed);
        }
    }
}

/// Compares the input of a seed and an index.
fn input(seed: u64, index: u64, counts: &mut Counts) -> Result<(), String> {
    let mut rng = Rng::new(Rng::new(seed).bits() ^ Rng::new(index).bits());
    let season = inputs::lots_season(&mut rng);
    counts.add("inputs", 1);
    let ours = seasons::compare(&season, counts).map_err(|_| smallest(season.clone()))?;
    damaged::give(&mut rng, &season, &ours, counts)
        .and_then(|()| alone::compare(&mut rng, counts))
        .map_err(|what| format!("input {index} of seed {seed}: {what}"))
}

/// The smallest season that was found to differ, and how.
fn smallest(season: Season) -> String {
    let difference = |season: &Season| seasons::compare(season, &mut Counts::default()).err();
    let small = shrink(season, &mut |season| difference(season).is_some());
    let steps: String = small.steps.iter().map(line).collect();
    let what = difference(&small).unwrap_or_default();
    format!("{}-\n{steps}\n{what}", small.sheet.text())
}

/// A step's lines. A save and a restore, which the run program has not, are named.
fn line(step: &Step) -> String {
    match step {
        Step::Feed(bar) => bar.lines(),
        Step::Save => "(save)\n".into(),
        Step::Restore => "(restore)\n".into(),
    }
}

fn report(options: &Options, found: &Found) -> ExitCode {
    let (seed, counts) = (options.seed, &found.counts);
    if let Some(difference) = &found.difference {
        println!("{difference}\nseed {seed}: {counts}, 1 difference");
        return ExitCode::FAILURE;
    }
    print!("{}", rules::lines(counts, true));
    println!("seed {seed}: {counts}, 0 differences");
    if options.inputs >= ENOUGH && rules::is_one_missed(counts, true) {
        println!("a rule was not reached");
        return ExitCode::FAILURE;
    }
    ExitCode::SUCCESS
}
