//! Judge and next race: the proved code beside plain Rust with the same closure of the graph, and with a quicker one.

use crate::bundles::{self, Case};
use crate::exports;
use crate::generate::Random;
use crate::judge::{self, Closure, Judgement, LEAST_WORDS, Name, Race};
use crate::reader::Refusal;
use crate::{judge_cases, quickest};
use std::fmt::Debug;
use std::hint::black_box;
use std::time::Instant;

const DAMAGED: usize = 1_000;
const WALKED: usize = 8;
const LISTINGS: usize = 10;
/// About so many seconds are spent on a row, in this many rounds.
const SECONDS: f64 = 0.5;
const FEWEST_ROUNDS: f64 = 5.0;
const MOST_ROUNDS: f64 = 5_000.0;

type Key = (u32, Name, Name);

type Judge = fn(&[u8], &mut [u32]) -> Result<Judgement, Refusal>;
type NextRace = fn(&[u8], Key, &mut [u32]) -> Result<Option<Race>, Refusal>;

const JUDGES: [Judge; 3] = [exports::judge, judge_by_warshall, judge_by_teams];
const NEXT_RACES: [NextRace; 3] = [exports::next_race, next_by_warshall, next_by_teams];

fn judge_by_warshall(bytes: &[u8], work: &mut [u32]) -> Result<Judgement, Refusal> {
    judge::judge(bytes, work, Closure::Warshall)
}

fn judge_by_teams(bytes: &[u8], work: &mut [u32]) -> Result<Judgement, Refusal> {
    judge::judge(bytes, work, Closure::Teams)
}

fn next_by_warshall(bytes: &[u8], key: Key, work: &mut [u32]) -> Result<Option<Race>, Refusal> {
    judge::next_race(bytes, key, work, Closure::Warshall)
}

fn next_by_teams(bytes: &[u8], key: Key, work: &mut [u32]) -> Result<Option<Race>, Refusal> {
    judge::next_race(bytes, key, work, Closure::Teams)
}

/// Prints the tables. Whether all answers are equal.
pub fn compare(random: &mut Random) -> bool {
    let cases = judge_cases::cases(random);
    let mut all_equal = true;
    println!("judge, microseconds for a bundle");
    head("bundle", ["segments", "accesses", "races"]);
    for case in &cases {
        all_equal &= time_judge(case);
    }
    all_equal &= judge_damaged(&cases, random);
    println!();
    println!("next race, microseconds for a race");
    head("bundle", ["", "", "walked"]);
    for case in named(&cases, &["all clash", "8 members, 62 barriers", "10 accesses", "E"]) {
        all_equal &= time_next(case, random);
    }
    println!();
    println!("listing, milliseconds for all races of a bundle");
    println!("{:<24}{:>10}{:>10}{:>10}{:>9}", "bundle", "races", "proved", "rust", "ratio");
    let listed = ["all clash", "coprime strides", "8 members, 62 barriers", "10 accesses", "E", "24 members, a third cut"];
    let wide = ["all clash, wide sites", "10 accesses, wide sites"];
    for case in named(&cases, &[&listed[..], &wide].concat()) {
        all_equal &= time_listing(case);
    }
    all_equal
}

fn named<'a>(cases: &'a [Case], names: &'a [&str]) -> impl Iterator<Item = &'a Case> {
    cases.iter().filter(|case| names.contains(&case.name))
}

fn head(name: &str, counts: [&str; 3]) {
    println!(
        "{name:<24}{:>9}{:>9}{:>8}{:>10}{:>10}{:>10}{:>12}{:>10}",
        counts[0], counts[1], counts[2], "proved", "warshall", "teams", "to warshall", "to teams"
    );
}

fn print_row(name: &str, counts: [String; 3], seconds: [f64; 3]) {
    let [proved, warshall, teams] = seconds.map(|best| best * 1e6);
    print!("{name:<24}{:>9}{:>9}{:>8}", counts[0], counts[1], counts[2]);
    println!("{proved:>10.1}{warshall:>10.1}{teams:>10.1}{:>12.2}{:>10.2}", proved / warshall, proved / teams);
}

/// The answers of the three over work areas of so many words, which hold something before: they must be equal, and the
/// areas left as docs/FORMAT.md says.
fn equal_answers<T: PartialEq + Debug>(name: &str, words: usize, ask: impl Fn(usize, &mut [u32]) -> T) -> bool {
    let before: Vec<u32> = (1..=words as u32).map(|word| word.wrapping_mul(0x9e37_79b9)).collect();
    let answers = [0, 1, 2].map(|which| {
        let mut work = before.clone();
        let answer = ask(which, &mut work);
        let kept = if words < LEAST_WORDS { work == before } else { work.iter().all(|&word| word == 0) };
        if !kept {
            println!("{name}: judge {which} leaves the work area wrong");
        }
        (answer, kept)
    });
    let equal = answers[0].0 == answers[1].0 && answers[0].0 == answers[2].0;
    if !equal {
        println!("{name}: proved {:?}, warshall {:?}, teams {:?}", answers[0].0, answers[1].0, answers[2].0);
    }
    equal && answers.iter().all(|answer| answer.1)
}

/// The quickest of some rounds of each of the three, each over its own work area.
fn time_three(ask: impl Fn(usize, &mut [u32])) -> [f64; 3] {
    let [mut one, mut other, mut third] = [0, 1, 2].map(|which| {
        let mut work = vec![0; LEAST_WORDS];
        let ask = &ask;
        move || ask(which, &mut work)
    });
    let began = Instant::now();
    let first = quickest(1, [&mut one, &mut other, &mut third]);
    let rounds = (SECONDS / began.elapsed().as_secs_f64()).clamp(FEWEST_ROUNDS, MOST_ROUNDS);
    let rest = quickest(rounds as usize, [&mut one, &mut other, &mut third]);
    std::array::from_fn(|which| first[which].min(rest[which]))
}

fn time_judge(case: &Case) -> bool {
    let bytes = &case.bytes[..];
    if !equal_answers(case.name, LEAST_WORDS, |which, work| JUDGES[which](bytes, work)) {
        return false;
    }
    let seconds = time_three(|which, work| _ = black_box(JUDGES[which](black_box(bytes), work)));
    let judged = judge_by_teams(bytes, &mut [0; LEAST_WORDS]).expect("a bundle");
    print_row(case.name, [judged.segments, judged.accesses, judged.races].map(|count| count.to_string()), seconds);
    true
}

/// Compares the answers to bundles with a random change, over work areas of different lengths.
fn judge_damaged(cases: &[Case], random: &mut Random) -> bool {
    (0..DAMAGED).all(|turn| {
        let case = &cases[turn % cases.len()];
        let bytes = bundles::damaged(&case.bytes, random);
        let words = [LEAST_WORDS, LEAST_WORDS + 1, LEAST_WORDS - 1, LEAST_WORDS][turn % 4];
        equal_answers(case.name, words, |which, work| JUDGES[which](&bytes, work))
    })
}

/// The keys of the first races, each the least above the one before, with the key that is below them all.
fn walk(bytes: &[u8]) -> Vec<Key> {
    let lowest = Name { team: 0, member: 0, number: 0 };
    let mut keys = vec![(0, lowest, lowest)];
    let mut work = [0; LEAST_WORDS];
    while keys.len() < WALKED {
        match next_by_teams(bytes, *keys.last().unwrap(), &mut work).expect("a bundle") {
            Some(race) => keys.push((race.witness, race.first, race.second)),
            None => break,
        }
    }
    keys
}

fn time_next(case: &Case, random: &mut Random) -> bool {
    let bytes = &case.bytes[..];
    let keys = walk(bytes);
    let mut any = || {
        let (team, member, number) = (random.from(0, 2), random.from(0, 64), random.from(0, 16));
        Name { team: team as u16, member: member as u8, number: number as u16 }
    };
    let odd = keys.iter().map(|key| (key.0, any(), any()));
    for key in keys.iter().copied().chain(odd) {
        if !equal_answers(case.name, LEAST_WORDS, |which, work| NEXT_RACES[which](bytes, key, work)) {
            return false;
        }
    }
    let seconds = time_three(|which, work| {
        for &key in &keys {
            black_box(NEXT_RACES[which](black_box(bytes), key, work)).ok();
        }
    });
    let walked = keys.len();
    print_row(case.name, [String::new(), String::new(), walked.to_string()], seconds.map(|best| best / walked as f64));
    true
}

fn time_listing(case: &Case) -> bool {
    let bytes = &case.bytes[..];
    let mut work = [vec![0; LEAST_WORDS], vec![0; LEAST_WORDS]];
    let [proved, rust] = &mut work;
    let given = exports::list(bytes, proved);
    if given != judge::list(bytes, rust, Closure::Teams) {
        println!("{}: the listings differ", case.name);
        return false;
    }
    let mut list = || _ = black_box(exports::list(black_box(bytes), proved));
    let mut plain = || _ = black_box(judge::list(black_box(bytes), rust, Closure::Teams));
    let [proved, rust] = quickest(LISTINGS, [&mut list, &mut plain]).map(|best| best * 1e3);
    let races = given.map_or(0, |races| races.len());
    println!("{:<24}{races:>10}{proved:>10.3}{rust:>10.3}{:>9.2}", case.name, proved / rust);
    true
}
