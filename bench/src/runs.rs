//! Whole runs of two programs of the same job, from the start of a process to its end.

use crate::bundles::Case;
use std::fs::File;
use std::io::{self, Read};
use std::path::{Path, PathBuf};
use std::process::{Command, Stdio};
use std::time::Instant;

/// About so many seconds are spent on a bundle and a kind of output, in this many rounds.
const SECONDS: f64 = 1.0;
const FEWEST_ROUNDS: f64 = 21.0;
const MOST_ROUNDS: f64 = 201.0;

#[derive(Clone, Copy)]
pub enum Output {
    /// To /dev/null.
    Null,
    /// To a pipe that this program reads to its end.
    Pipe,
}

/// The cases of these names.
pub fn named(cases: Vec<Case>, names: &[&str]) -> Vec<Case> {
    cases.into_iter().filter(|case| names.contains(&case.name)).collect()
}

/// What both programs write for the bundle in a file, or none where they differ.
pub fn equal_output(programs: [&PathBuf; 2], path: &Path) -> io::Result<Option<Vec<u8>>> {
    let (mut given, mut wanted) = (Vec::new(), Vec::new());
    run(programs[0], path, Output::Pipe, &mut given)?;
    run(programs[1], path, Output::Pipe, &mut wanted)?;
    Ok((given == wanted).then_some(given))
}

/// The median milliseconds of each program, and the median of the rounds' ratios. The two programs take turns, and the
/// ratio is that of neighbouring runs, so that a machine whose speed changes meanwhile slows none alone.
pub fn time_turns(programs: [&PathBuf; 2], path: &Path, output: Output) -> io::Result<[f64; 3]> {
    let mut room = Vec::new();
    let began = Instant::now();
    for program in programs {
        run(program, path, output, &mut room)?;
    }
    let rounds = (SECONDS / began.elapsed().as_secs_f64()).clamp(FEWEST_ROUNDS, MOST_ROUNDS) as usize;
    let mut columns = [vec![], vec![], vec![]];
    for _ in 0..rounds {
        let first = run(programs[0], path, output, &mut room)?;
        let second = run(programs[1], path, output, &mut room)?;
        for (column, value) in columns.iter_mut().zip([first * 1e3, second * 1e3, first / second]) {
            column.push(value);
        }
    }
    Ok(columns.map(median))
}

/// The seconds of a run. What it wrote into a pipe is in `room` afterwards.
fn run(program: &Path, input: &Path, output: Output, room: &mut Vec<u8>) -> io::Result<f64> {
    let input = File::open(input)?;
    let output = match output {
        Output::Null => Stdio::null(),
        Output::Pipe => Stdio::piped(),
    };
    room.clear();
    let began = Instant::now();
    let mut process = Command::new(program).stdin(input).stdout(output).spawn()?;
    if let Some(mut pipe) = process.stdout.take() {
        pipe.read_to_end(room)?;
    }
    let status = process.wait()?;
    let seconds = began.elapsed().as_secs_f64();
    assert!(status.success(), "{} ended with {status}", program.display());
    Ok(seconds)
}

fn median(mut values: Vec<f64>) -> f64 {
    values.sort_unstable_by(f64::total_cmp);
    values[values.len() / 2]
}
