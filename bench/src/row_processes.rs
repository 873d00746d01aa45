//! Whole runs of interval_rows, from the start of the process to its end: the proved program beside the plain Rust one.
//! usage: row_processes PROVED RUST FOLDER; the bundles are written below FOLDER.

// What other programs of bench/ use of these modules is not needed here.
#[allow(dead_code)]
mod bundles;
#[allow(dead_code)]
mod generate;
#[allow(dead_code)]
mod judge_cases;
#[allow(dead_code)]
mod ranges;
#[allow(dead_code)]
mod runs;
mod typical;

use bundles::{Case, Chunk};
use generate::Random;
use runs::{named, Output};
use std::fs::File;
use std::io;
use std::path::{Path, PathBuf};
use std::process::Command;

const SEED: u64 = 20_240_501; // as in main.rs
const DAMAGED_SEED: u64 = 8;
const DAMAGED: usize = 500;
const BARRIER: u8 = 0x11;

fn main() -> io::Result<()> {
    let words: Vec<PathBuf> = std::env::args_os().skip(1).map(PathBuf::from).collect();
    let [proved, rust, folder] = &words[..] else { panic!("usage: row_processes PROVED RUST FOLDER") };
    let (programs, path) = ([proved, rust], folder.join("interval_rows.bundle"));
    let cases = cases();
    let mut all_equal = compare_damaged(&cases, &path, programs)?;
    println!("interval_rows, milliseconds for a whole run to a pipe, process start included");
    println!(
        "{:<26}{:>7}{:>8}{:>10}{:>9}{:>9}{:>9}",
        "bundle", "bytes", "rows", "output", "proved", "rust", "ratio"
    );
    for case in &cases {
        std::fs::write(&path, &case.bytes)?;
        all_equal &= time_case(case, &path, programs)?;
    }
    println!();
    if !all_equal {
        println!("interval_rows: outputs differ");
        std::process::exit(1);
    }
    println!("interval_rows: all outputs are equal");
    Ok(())
}

fn cases() -> Vec<Case> {
    let mut random = Random::new(SEED);
    let limits = bundles::cases(&mut random);
    let judged = judge_cases::cases(&mut random);
    let mut cases = vec![
        Case { name: "E", bytes: judge_cases::example_e().concat() },
        Case { name: "100 accesses", bytes: typical::typical(&mut random) },
    ];
    cases.extend(named(limits, &["all limits reached"]));
    cases.push(Case { name: "511 barriers", bytes: barriers() });
    cases.push(Case { name: "255 teams, back to front", bytes: teams_back_to_front() });
    cases.push(Case { name: "64 members, four deep", bytes: bundles::shuffled(four_deep(), &mut random) });
    cases.extend(named(judged, &["24 members, a third cut"]));
    cases
}

/// A root that passes 511 barriers: 512 segments, each with a row.
fn barriers() -> Vec<u8> {
    let mut root = bundles::member(0, 0);
    root.extend([BARRIER; 511]);
    bundles::end(&mut root);
    root
}

/// The root forks teams 1 to 255 of one member each; the last team's chunk stands first, the root's last.
fn teams_back_to_front() -> Vec<u8> {
    let mut chunks: Vec<Chunk> = (0..=255).map(|team| bundles::member(team, 0)).collect();
    for team in 1..=255 {
        chunks[0].extend(bundles::region(team, 1));
    }
    chunks.iter_mut().for_each(bundles::end);
    chunks.into_iter().rev().flatten().collect()
}

/// Teams 1 to 4 of 64 members, each forked by the last member of the one before. The members of the first three pass a
/// barrier, which stands behind the REGION; 453 segments.
fn four_deep() -> Vec<Chunk> {
    let mut chunks = vec![bundles::member(0, 0)];
    for team in 1..=4 {
        chunks.last_mut().expect("the team before").extend(bundles::region(team, 64));
        chunks.extend((0..64).map(|member| bundles::member(team, member)));
    }
    for chunk in &mut chunks[1..=3 * 64] {
        chunk.push(BARRIER);
    }
    chunks.iter_mut().for_each(bundles::end);
    chunks
}

/// Prints a row.
fn time_case(case: &Case, path: &Path, programs: [&PathBuf; 2]) -> io::Result<bool> {
    let Some(given) = runs::equal_output(programs, path)? else {
        println!("{}: the outputs differ", case.name);
        return Ok(false);
    };
    // One line names the columns.
    let rows = given.iter().filter(|&&byte| byte == b'\n').count() - 1;
    let [proved, rust, ratio] = runs::time_turns(programs, path, Output::Pipe)?;
    let (bytes, output) = (case.bytes.len(), given.len());
    println!("{:<26}{bytes:>7}{rows:>8}{output:>10}{proved:>9.2}{rust:>9.2}{ratio:>9.2}", case.name);
    Ok(true)
}

/// Bundles with a change at random, most of them refused: what the programs write, to standard error too, and how they end.
fn compare_damaged(cases: &[Case], path: &Path, programs: [&PathBuf; 2]) -> io::Result<bool> {
    let mut random = Random::new(DAMAGED_SEED);
    for turn in 0..DAMAGED {
        let case = &cases[turn % cases.len()];
        std::fs::write(path, bundles::damaged(&case.bytes, &mut random))?;
        let ask = |program: &PathBuf| Command::new(program).stdin(File::open(path)?).output();
        if ask(programs[0])? != ask(programs[1])? {
            println!("{}, change {turn}: the outputs differ", case.name);
            return Ok(false);
        }
    }
    Ok(true)
}
