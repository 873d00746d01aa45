//! Answers of the plain Rust code, one for each line of standard input:
//! `check HEX` gives `accepted` or `refused N at P`; `label TEAM MEMBER SEGMENT HEX` gives the numbers of the triples;
//! `shared` and the two ranges' eight numbers give `byte N elements I J`, `none` or a refusal;
//! `judge WORDS HEX`, `next WORDS KEY HEX` and `list HEX` give a judgement, a race or `none`, and a listing whose lines
//! end in `;`. A race ends in `elements I J`, but for those of a listing, which has none. WORDS is the length of the work area,
//! which is not clean before and must be left as docs/FORMAT.md says; KEY is a witness and two names, seven numbers.
//! bench/compare_reader holds them to the second reader's.

#[allow(dead_code)] // what other programs of bench/ use of it
mod judge;
mod label;
mod ranges;
mod reader;

use judge::{Closure, Judgement, LEAST_WORDS, Name, Race};
use ranges::{Overlap, Range, SharedByte};
use reader::Refusal;
use std::io::{BufRead, Write};

fn main() {
    let mut out = std::io::BufWriter::new(std::io::stdout());
    for line in std::io::stdin().lock().lines() {
        let line = line.expect("a line of text");
        let (operation, rest) = line.split_once(' ').expect("an operation and its input");
        let words: Vec<&str> = rest.split(' ').collect();
        let answer = match operation {
            "check" => match reader::check(&bytes_of(rest)) {
                Ok(()) => "accepted".to_string(),
                Err(refusal) => refusal_text(refusal),
            },
            "label" => label(&numbers(&words[..3]), &bytes_of(words[3])),
            "shared" => shared(&numbers(&words)),
            "judge" => judge(numbers(&words[..1])[0], &bytes_of(words[1])),
            "next" => next(&numbers(&words[..8]), &bytes_of(words[8])),
            "list" => list(&bytes_of(rest)),
            _ => panic!("unknown operation {operation}"),
        };
        writeln!(out, "{answer}").expect("standard output");
    }
}

fn numbers(words: &[&str]) -> Vec<u32> {
    words.iter().map(|word| word.parse().expect("a number")).collect()
}

fn bytes_of(text: &str) -> Vec<u8> {
    let byte_at = |i| u8::from_str_radix(&text[i..i + 2], 16).expect("hexadecimal digits");
    (0..text.len()).step_by(2).map(byte_at).collect()
}

fn refusal_text(refusal: Refusal) -> String {
    format!("refused {} at {}", refusal.number, refusal.place)
}

fn label(n: &[u32], bytes: &[u8]) -> String {
    match label::label(bytes, n[0] as u16, n[1] as u8, n[2]) {
        Ok(label) => label.concat().iter().map(u32::to_string).collect::<Vec<_>>().join(" "),
        Err(refusal) => refusal_text(refusal),
    }
}

fn shared(n: &[u32]) -> String {
    let range = |n: &[u32]| Range { base: n[0], stride: n[1] as u16, count: n[2] as u16, size: n[3] as u8 };
    let (first, second) = (range(&n[..4]), range(&n[4..]));
    let answers = [ranges::shared_by_elements as SharedByte, ranges::shared_by_euclid]
        .map(|shared| ranges::ask(shared, &first, &second));
    assert_eq!(answers[0], answers[1], "the two answers to {n:?}");
    match answers[0] {
        Ok(overlap) => overlap.map_or("none".to_string(), overlap_text),
        Err(place) => refusal_text(Refusal { number: 5, place }),
    }
}

fn overlap_text(overlap: Overlap) -> String {
    let Overlap { byte, first_element, second_element } = overlap;
    format!("byte {byte} elements {first_element} {second_element}")
}

/// Asks over a work area of so many words, once for each closure.
fn over<T: PartialEq + std::fmt::Debug>(words: u32, ask: impl Fn(&mut [u32], Closure) -> T) -> T {
    let before: Vec<u32> = (0..words).map(|word| word.wrapping_mul(0x9e37_79b9) | 1).collect();
    let [one, other] = [Closure::Warshall, Closure::Teams].map(|closure| {
        let mut work = before.clone();
        let answer = ask(&mut work, closure);
        if work.len() < LEAST_WORDS {
            assert_eq!(work, before, "the work area");
        } else {
            assert!(work.iter().all(|&word| word == 0), "the work area");
        }
        answer
    });
    assert_eq!(one, other, "the two closures");
    one
}

fn judge(words: u32, bytes: &[u8]) -> String {
    match over(words, |work, closure| judge::judge(bytes, work, closure)) {
        Ok(judgement) => judgement_text(judgement),
        Err(refusal) => refusal_text(refusal),
    }
}

fn next(n: &[u32], bytes: &[u8]) -> String {
    let name = |n: &[u32]| Name { team: n[0] as u16, member: n[1] as u8, number: n[2] as u16 };
    let key = (n[1], name(&n[2..5]), name(&n[5..8]));
    match over(n[0], |work, closure| judge::next_race(bytes, key, work, closure)) {
        Ok(race) => race.map_or("none".to_string(), race_text),
        Err(refusal) => refusal_text(refusal),
    }
}

fn list(bytes: &[u8]) -> String {
    let text = over(LEAST_WORDS as u32, |work, closure| {
        let mut text = Vec::new();
        judge::racelist(bytes, work, closure, &mut text).expect("room for text");
        text
    });
    String::from_utf8(text).expect("text").replace('\n', ";")
}

fn judgement_text(judgement: Judgement) -> String {
    let Judgement { chunks, segments, accesses, races, least } = judgement;
    let verdict = least.map_or("race-free".to_string(), race_text);
    format!("chunks {chunks} segments {segments} accesses {accesses} races {races} {verdict}")
}

fn race_text(race: Race) -> String {
    let name = |name: Name| format!("{}.{}.{}", name.team, name.member, name.number);
    let Race { witness, first, first_site, first_element, second, second_site, second_element } = race;
    let (first, second) = (name(first), name(second));
    format!("race {witness} {first} {first_site} {second} {second_site} elements {first_element} {second_element}")
}
