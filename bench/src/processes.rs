//! Whole runs of racelist, from the start of the process to its end: the proved program beside the plain Rust one.
//! usage: processes PROVED RUST FOLDER; the bundles are written below FOLDER.

// What other programs of bench/ use of these modules is not needed here.
#[allow(dead_code)]
mod bundles;
#[allow(dead_code)]
mod generate;
#[allow(dead_code)]
mod judge_cases;
#[allow(dead_code)]
mod ranges;
mod runs;
mod typical;

use bundles::Case;
use generate::Random;
use runs::{named, Output};
use std::io;
use std::path::{Path, PathBuf};

const SEED: u64 = 20_240_501; // as in main.rs

fn main() -> io::Result<()> {
    let words: Vec<PathBuf> = std::env::args_os().skip(1).map(PathBuf::from).collect();
    let [proved, rust, folder] = &words[..] else { panic!("usage: processes PROVED RUST FOLDER") };
    println!("racelist, milliseconds for a whole run, process start included");
    println!("{:>76}{:>27}", "to /dev/null", "to a pipe");
    println!(
        "{:<24}{:>7}{:>8}{:>10}{:>9}{:>9}{:>9}{:>9}{:>9}{:>9}",
        "bundle", "bytes", "races", "output", "proved", "rust", "ratio", "proved", "rust", "ratio"
    );
    let mut all_equal = true;
    for case in cases() {
        let path = folder.join("racelist.bundle");
        std::fs::write(&path, &case.bytes)?;
        all_equal &= time_case(&case, &path, [proved, rust])?;
    }
    println!();
    if !all_equal {
        println!("racelist: outputs differ");
        std::process::exit(1);
    }
    println!("racelist: all outputs are equal");
    Ok(())
}

fn cases() -> Vec<Case> {
    let mut random = Random::new(SEED);
    let limits = bundles::cases(&mut random);
    let judged = judge_cases::cases(&mut random);
    let typical = Case { name: "100 accesses", bytes: typical::typical(&mut random) };
    let mut cases = named(judged, &["E", "all clash", "coprime strides", "8 members, 62 barriers", "all clash, wide sites"]);
    cases.sort_by_key(|case| case.name != "E");
    cases.splice(1..1, std::iter::once(typical).chain(named(limits, &["all limits reached"])));
    cases
}

/// Prints a row.
fn time_case(case: &Case, path: &Path, programs: [&PathBuf; 2]) -> io::Result<bool> {
    let Some(given) = runs::equal_output(programs, path)? else {
        println!("{}: the outputs differ", case.name);
        return Ok(false);
    };
    let races = given.split(|&byte| byte == b'\n').filter(|line| line.starts_with(b"race ")).count();
    print!("{:<24}{:>7}{races:>8}{:>10}", case.name, case.bytes.len(), given.len());
    for output in [Output::Null, Output::Pipe] {
        let [proved, rust, ratio] = runs::time_turns(programs, path, output)?;
        print!("{proved:>9.2}{rust:>9.2}{ratio:>9.2}");
    }
    println!();
    Ok(true)
}
