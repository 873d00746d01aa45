//! Proved code beside plain Rust of the same meaning, on the same inputs in one run. The answers must be equal.

mod bundles;
mod exports;
mod generate;
#[allow(dead_code)] // what other programs of bench/ use of it
mod judge;
mod judge_cases;
mod judgements;
mod label;
mod labels;
mod ranges;
mod reader;

use bundles::Case;
use generate::{Pair, Random};
use ranges::{Overlap, SharedByte};
use reader::Refusal;
use std::hint::black_box;
use std::time::Instant;

const SEED: u64 = 20_240_501;
const PAIRS: usize = 500_000;
const ODD_PAIRS: usize = 2_000;
const BLOCK: usize = 5_000;
const ROUNDS: usize = 5;
const CHECK_ROUNDS: usize = 200;
const DAMAGED: usize = 3_000;
const WIDE_DAMAGED: usize = 500;

fn main() {
    let mut random = Random::new(SEED);
    let mut all_equal = true;
    println!("lowest shared byte, {PAIRS} pairs of ranges, nanoseconds for a pair");
    println!(
        "{:<18}{:>8}{:>9}{:>9}{:>9}{:>10}{:>10}",
        "pairs", "shared", "proved", "loop", "euclid", "to loop", "to euclid"
    );
    all_equal &= time_pairs("equal strides", &mut random, generate::equal_strides);
    all_equal &= time_pairs("word arrays", &mut random, generate::word_arrays);
    all_equal &= time_pairs("coprime strides", &mut random, generate::coprime_strides);
    let odd: Vec<Pair> = (0..ODD_PAIRS).map(|_| generate::any_ranges(&mut random)).collect();
    all_equal &= equal_answers("any numbers", &odd);
    println!();
    println!("check, microseconds for a bundle");
    println!("{:<32}{:>7}{:>12}{:>9}{:>9}{:>8}", "bundle", "bytes", "answer", "proved", "rust", "ratio");
    let cases = bundles::cases(&mut random);
    let wide = bundles::wide_cases(&cases);
    for case in cases.iter().chain(&wide) {
        all_equal &= time_check(case);
    }
    all_equal &= check_damaged(&cases, DAMAGED, &mut random);
    all_equal &= check_damaged(&wide, WIDE_DAMAGED, &mut Random::new(bundles::WIDE_SEED));
    println!();
    all_equal &= labels::compare(&cases, &mut Random::new(SEED));
    println!();
    all_equal &= judgements::compare(&mut random);
    println!();
    if !all_equal {
        println!("bench: answers differ");
        std::process::exit(1);
    }
    println!("bench: all answers are equal");
}

#[inline(always)]
fn ask(shared_byte: SharedByte, (first, second): &Pair) -> Result<Option<Overlap>, usize> {
    ranges::ask(shared_byte, first, second)
}

const SHARED_BYTES: [SharedByte; 3] =
    [exports::LOWEST_SHARED_BYTE, ranges::shared_by_elements, ranges::shared_by_euclid];

fn equal_answers(name: &str, pairs: &[Pair]) -> bool {
    for pair in pairs {
        let answers = SHARED_BYTES.map(|shared_byte| ask(shared_byte, pair));
        if answers[0] != answers[1] || answers[0] != answers[2] {
            println!("{name}: {pair:?}: proved {:?}, loop {:?}, euclid {:?}", answers[0], answers[1], answers[2]);
            return false;
        }
    }
    true
}

/// The quickest of some rounds for each task, in seconds. The tasks take turns, so that a busy machine slows none alone.
fn quickest<const TASKS: usize>(rounds: usize, mut tasks: [&mut dyn FnMut(); TASKS]) -> [f64; TASKS] {
    let mut best = [f64::INFINITY; TASKS];
    for _ in 0..rounds {
        for (best, task) in best.iter_mut().zip(&mut tasks) {
            let began = Instant::now();
            task();
            *best = best.min(began.elapsed().as_secs_f64());
        }
    }
    best
}

fn ask_all(shared_byte: SharedByte, pairs: &[Pair]) {
    let shared_byte = black_box(shared_byte);
    let sum = pairs.iter().fold(0u32, |sum, pair| {
        let overlap = ask(shared_byte, pair).unwrap_or(None);
        sum.wrapping_add(overlap.map_or(1, |o| o.byte ^ o.first_element ^ o.second_element))
    });
    black_box(sum);
}

/// Prints a row for half a million pairs, timed block by block.
fn time_pairs(name: &str, random: &mut Random, make: fn(&mut Random) -> Pair) -> bool {
    let pairs: Vec<Pair> = (0..PAIRS).map(|_| make(random)).collect();
    if !equal_answers(name, &pairs) {
        return false;
    }
    let mut nanoseconds = [0.0; 3];
    for block in pairs.chunks(BLOCK) {
        let [mut proved, mut elements, mut euclid] =
            SHARED_BYTES.map(|shared_byte| move || ask_all(shared_byte, block));
        for (sum, best) in nanoseconds.iter_mut().zip(quickest(ROUNDS, [&mut proved, &mut elements, &mut euclid])) {
            *sum += best * 1e9 / PAIRS as f64;
        }
    }
    let [proved, elements, euclid] = nanoseconds;
    let shared = pairs.iter().filter(|pair| ask(SHARED_BYTES[0], pair) != Ok(None)).count();
    println!(
        "{name:<18}{:>7.0}%{proved:>9.1}{elements:>9.1}{euclid:>9.1}{:>10.2}{:>10.2}",
        100.0 * shared as f64 / PAIRS as f64,
        proved / elements,
        proved / euclid
    );
    true
}

fn equal_checks(name: &str, bytes: &[u8]) -> bool {
    let (proved, rust) = (exports::check(bytes), reader::check(bytes));
    if proved != rust {
        println!("{name}: proved {}, rust {}", answer_text(proved), answer_text(rust));
    }
    proved == rust
}

fn answer_text(answer: Result<(), Refusal>) -> String {
    match answer {
        Ok(()) => "accepted".to_string(),
        Err(Refusal { number, place }) => format!("{number} at {place}"),
    }
}

/// Prints a row for a bundle.
fn time_check(case: &Case) -> bool {
    let bytes = &case.bytes;
    if !equal_checks(case.name, bytes) {
        return false;
    }
    let mut proved = || _ = black_box(exports::check(black_box(bytes)));
    let mut rust = || _ = black_box(reader::check(black_box(bytes)));
    let [proved, rust] = quickest(CHECK_ROUNDS, [&mut proved, &mut rust]).map(|best| best * 1e6);
    let answer = answer_text(exports::check(bytes));
    println!("{:<32}{:>7}{answer:>12}{proved:>9.1}{rust:>9.1}{:>8.2}", case.name, bytes.len(), proved / rust);
    true
}

/// Compares the answers to so many bundles with a random change.
fn check_damaged(cases: &[Case], count: usize, random: &mut Random) -> bool {
    (0..count).all(|turn| {
        let case = &cases[turn % cases.len()];
        equal_checks(case.name, &bundles::damaged(&case.bytes, random))
    })
}
