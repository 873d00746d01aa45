//! The program judge_build in plain Rust: the names of a build's bundles as arguments, or on standard input each ended by a
//! 0 byte; a line for each bundle, and the word of the build.

// What other programs of bench/ use of these modules is not needed here.
#[allow(dead_code)]
mod judge;
#[allow(dead_code)]
mod ranges;
#[allow(dead_code)]
mod reader;

use judge::{Closure, Judgement, Name, Race, LEAST_WORDS};
use reader::Refusal;
use std::ffi::OsStr;
use std::fs::File;
use std::io::{self, Read, Write};
use std::os::unix::ffi::OsStrExt;

/// One more than a bundle may have, so that a longer file is refused as such.
const MOST_BYTES: u64 = 65_536 + 1;

fn main() -> io::Result<()> {
    let names = names()?;
    let (mut bytes, mut work) = (Vec::with_capacity(MOST_BYTES as usize), vec![0; LEAST_WORDS]);
    let (mut races, mut refused) = (false, false);
    let mut out = io::stdout().lock();
    for name in &names {
        match read_bundle(name, &mut bytes) {
            Err(_) => {
                refused = true;
                writeln!(out, "refused unreadable")?;
            }
            Ok(()) => match judge::judge(&bytes, &mut work, Closure::Teams) {
                Err(Refusal { number, place }) => {
                    refused = true;
                    writeln!(out, "refused {number} at {place}")?;
                }
                Ok(judgement) => {
                    races |= judgement.least.is_some();
                    writeln!(out, "{}", line(&judgement))?;
                }
            },
        }
    }
    let word = match (races, refused, names.is_empty()) {
        (true, _, _) => "race",
        (_, true, _) => "refused",
        (_, _, true) => "missing",
        _ => "race-free",
    };
    writeln!(out, "build {word}")
}

fn names() -> io::Result<Vec<Vec<u8>>> {
    let given: Vec<Vec<u8>> = std::env::args_os().skip(1).map(|name| name.as_bytes().to_vec()).collect();
    if !given.is_empty() {
        return Ok(given);
    }
    let mut text = Vec::new();
    io::stdin().lock().read_to_end(&mut text)?;
    if text.last() == Some(&0) {
        text.pop();
    } else if text.is_empty() {
        return Ok(Vec::new());
    }
    Ok(text.split(|&byte| byte == 0).map(<[u8]>::to_vec).collect())
}

/// The bytes of a regular file, up to one more than a bundle may have.
fn read_bundle(name: &[u8], bytes: &mut Vec<u8>) -> io::Result<()> {
    bytes.clear();
    let path = OsStr::from_bytes(name);
    if !std::fs::metadata(path)?.is_file() {
        return Err(io::ErrorKind::Unsupported.into());
    }
    File::open(path)?.take(MOST_BYTES).read_to_end(bytes)?;
    Ok(())
}

fn line(judgement: &Judgement) -> String {
    let Judgement { chunks, segments, accesses, races, least } = judgement;
    let counts = format!("chunks {chunks} segments {segments} accesses {accesses}");
    match least {
        None => format!("race-free {counts}"),
        Some(Race { witness, first, first_site, second, second_site, .. }) => {
            let (first, second) = (name(first), name(second));
            format!("race {counts} race {witness:08x} {first} {first_site} {second} {second_site} pairs {races}")
        }
    }
}

fn name(name: &Name) -> String {
    format!("{}.{}.{}", name.team, name.member, name.number)
}
