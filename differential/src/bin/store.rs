//! Writes the stored set: `store INPUT OUTPUT`. For each case INPUT gets a line with the input's length and the input itself, OUTPUT what the
//! run program prints for it. The Rust answers the valid seasons, whose sheets say no lots; a refused input has one fault of a known number.

use differential::cases::{self, Case};
use differential::counts::Counts;
use differential::{rules, seasons};
use inputs::{Rng, Season, Step};
use std::fs::File;
use std::io::{BufWriter, Write};
use std::process::ExitCode;

/// How many cases of each kind there are.
const VALID: usize = 1_500;
const REFUSED: [(u32, usize); 8] = [
    (1, 40),
    (2, 90),
    (3, 90),
    (4, 25),
    (5, 25),
    (6, 30),
    (7, 25),
    (18, 25),
];
const FAULTY_BARS: [(u32, usize); 4] = [(1, 30), (7, 10), (11, 60), (12, 30)];

/// The most bytes of a season among the valid cases (one in fifteen may have the second), and in a case with a fault.
const SHORT: [usize; 2] = [800, 4_096];
const WITH_FAULT: usize = 400;

fn main() -> ExitCode {
    let paths: Vec<String> = std::env::args().skip(1).collect();
    let [input, output] = &paths[..] else {
        eprintln!("store: the two files to write are missing");
        return ExitCode::from(2);
    };
    let mut rng = Rng::new(7);
    let mut counts = Counts::default();
    let mut cases = valid(&mut rng, &mut counts);
    cases.extend(faults(&mut rng));
    cases.push(cases::overfull(season(&mut rng, WITH_FAULT).sheet));
    print!("{}", rules::lines(&counts, false));
    println!("{} cases, of which {VALID} are valid", cases.len());
    if rules::is_one_missed(&counts, false) {
        eprintln!("store: a rule was not reached");
        return ExitCode::FAILURE;
    }
    match write(input, output, &cases) {
        Ok(()) => ExitCode::SUCCESS,
        Err(why) => {
            eprintln!("store: {why}");
            ExitCode::FAILURE
        }
    }
}

/// A season of at most so many bytes, with feeds alone: the run program has no saves.
fn season(rng: &mut Rng, most: usize) -> Season {
    loop {
        let mut season = inputs::season(rng);
        season.steps.retain(|step| matches!(step, Step::Feed(_)));
        if season.text().len() <= most {
            return season;
        }
    }
}

/// Seasons as the Rust answers them, and the rules that they reach. Those that trade are taken, and a few of the others.
fn valid(rng: &mut Rng, counts: &mut Counts) -> Vec<Case> {
    let mut cases = Vec::new();
    while cases.len() < VALID {
        let most = SHORT[usize::from(rng.once_in(15))];
        let season = season(rng, most);
        let case = cases::valid(&season);
        if case.output.contains("\nR|") || rng.once_in(20) {
            seasons::compare(&season, counts).expect("ours and the Rust agree on what is stored");
            cases.push(case);
        }
    }
    cases
}

fn faults(rng: &mut Rng) -> Vec<Case> {
    let mut of = |kinds: &[(u32, usize)], make: fn(&mut Rng, &Season, u32) -> Case| -> Vec<Case> {
        let numbers = kinds
            .iter()
            .flat_map(|(number, count)| std::iter::repeat_n(*number, *count));
        numbers
            .map(|number| {
                let season = season(rng, WITH_FAULT);
                make(rng, &season, number)
            })
            .collect()
    };
    let mut cases = of(&REFUSED, cases::refused);
    cases.extend(of(&FAULTY_BARS, cases::with_faulty_bar));
    cases
}

fn write(input: &str, output: &str, cases: &[Case]) -> std::io::Result<()> {
    let mut inputs = BufWriter::new(File::create(input)?);
    let mut outputs = BufWriter::new(File::create(output)?);
    for case in cases {
        writeln!(inputs, "{}", case.input.len())?;
        inputs.write_all(&case.input)?;
        outputs.write_all(case.output.as_bytes())?;
    }
    inputs.flush()?;
    outputs.flush()
}
