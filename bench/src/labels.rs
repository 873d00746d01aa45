//! The label of a segment: the proved code beside plain Rust, and beside the proved check of the same bundle.

use crate::bundles::{self, Case};
use crate::generate::Random;
use crate::label::{Triple, label};
use crate::reader::{self, Refusal};
use crate::{exports, judge_cases, quickest};
use std::hint::black_box;

const ROUNDS: usize = 400;
const DAMAGED: usize = 2_000;

/// Prints the table. Whether all answers are equal.
pub fn compare(cases: &[Case], random: &mut Random) -> bool {
    println!("label of the last segment of the last team, microseconds for a bundle");
    println!(
        "{:<32}{:>7}{:>9}{:>9}{:>9}{:>9}{:>10}{:>9}",
        "bundle", "bytes", "triples", "proved", "check", "rust", "to check", "to rust"
    );
    let mut all_equal = time_label(&Case { name: "E", bytes: judge_cases::example_e().concat() });
    all_equal &= time_label(&Case { name: "locks before a barrier", bytes: bundles::locks_before_barrier() });
    for case in cases {
        all_equal &= time_label(case);
    }
    all_equal && label_damaged(cases, random)
}

fn equal_labels(name: &str, bytes: &[u8], team: u16, member: u8, segment: u32) -> bool {
    let proved: Result<Vec<Triple>, Refusal> = exports::label(bytes, team, member, segment);
    let rust = label(bytes, team, member, segment);
    if proved != rust {
        println!("{name}, segment {team}.{member}.{segment}: proved {proved:?}, rust {rust:?}");
    }
    proved == rust
}

/// Prints a row for an accepted bundle. The labels of all its segments are compared, and one past each chunk's last.
fn time_label(case: &Case) -> bool {
    let bytes = &case.bytes;
    let Ok((chunks, _)) = reader::read(bytes, &mut ()) else {
        return equal_labels(case.name, bytes, 0, 0, 0);
    };
    for chunk in &chunks {
        let count = (chunk.segments.1 - chunk.segments.0) as u32;
        if !(0..=count).all(|segment| equal_labels(case.name, bytes, chunk.team, chunk.member, segment)) {
            return false;
        }
    }
    let chunk = chunks.last().expect("the root's chunk");
    let (team, member) = (chunk.team, chunk.member);
    let segment = (chunk.segments.1 - chunk.segments.0) as u32 - 1;
    let mut proved = || _ = black_box(exports::label(black_box(bytes), team, member, segment));
    let mut check = || _ = black_box(exports::check(black_box(bytes)));
    let mut rust = || _ = black_box(label(black_box(bytes), team, member, segment));
    let [proved, check, rust] = quickest(ROUNDS, [&mut proved, &mut check, &mut rust]).map(|best| best * 1e6);
    let triples = label(bytes, team, member, segment).map_or(0, |label| label.len());
    println!(
        "{:<32}{:>7}{triples:>9}{proved:>9.1}{check:>9.1}{rust:>9.1}{:>10.2}{:>9.2}",
        case.name,
        bytes.len(),
        proved / check,
        proved / rust
    );
    true
}

/// Compares the answers to bundles with a random change, at segments that are there or not.
fn label_damaged(cases: &[Case], random: &mut Random) -> bool {
    (0..DAMAGED).all(|turn| {
        let case = &cases[turn % cases.len()];
        let bytes = bundles::damaged(&case.bytes, random);
        let (team, member) = (random.from(0, 9) as u16, random.one_of(&[0, 0, 1, 54, 63, 255]) as u8);
        let segment = random.one_of(&[0, 0, 1, 2, 3, 8, 512, u32::MAX as u64]) as u32;
        equal_labels(case.name, &bytes, team, member, segment)
    })
}
