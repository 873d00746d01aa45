//! The program interval_rows in plain Rust: a bundle on standard input, its interval rows on standard output as CSV.

// What other programs of bench/ use of these modules is not needed here.
#[allow(dead_code)]
mod ranges;
#[allow(dead_code)]
mod reader;

use reader::{Chunk, Fork, Refusal};
use std::fs::File;
use std::io::{self, Read, Write};
use std::os::fd::FromRawFd;

/// One more than a bundle may have, so that a longer input is refused as such.
const MOST_BYTES: u64 = 65_536 + 1;
/// The size of the buffer for the text, which holds the longest one.
const BUFFER: usize = 65_536;

fn main() -> io::Result<()> {
    let mut bytes = Vec::with_capacity(MOST_BYTES as usize);
    file(0).take(MOST_BYTES).read_to_end(&mut bytes)?;
    match reader::read(&bytes, &mut ()) {
        Ok((chunks, forks)) => {
            let mut text = Vec::with_capacity(BUFFER);
            add_rows(&bytes, &chunks, &forks, &mut text);
            file(1).write_all(&text)
        }
        Err(Refusal { number, place }) => file(2).write_all(format!("refused {number} at {place}\n").as_bytes()),
    }
}

/// Standard input, output or error by its number, each asked for once; Rust's own handles have buffers of their own.
fn file(number: i32) -> File {
    unsafe { File::from_raw_fd(number) }
}

struct Team {
    number: u16,
    parent: u16,
    size: u32,
    level: u32,
}

/// The root, then the forked teams by number. A team's number is above that of the team that forks it.
fn table_of_teams(forks: &[Fork]) -> Vec<Team> {
    let mut table = Vec::with_capacity(1 + forks.len());
    table.push(Team { number: 0, parent: 0, size: 1, level: 0 });
    for fork in forks {
        let parent = table.binary_search_by_key(&fork.by_team, |team| team.number).expect("a team of lower number");
        let level = table[parent].level + 1;
        table.push(Team { number: fork.team, parent: fork.by_team, size: fork.size as u32, level });
    }
    table
}

/// The rows of an accepted bundle, by team, member and interval: its chunks are sorted, and each team has some.
fn add_rows(bytes: &[u8], chunks: &[Chunk], forks: &[Fork], text: &mut Vec<u8>) {
    text.extend_from_slice(b"pid,ppid,bid,offset,span,level,data begin,size\n");
    for (team, members) in table_of_teams(forks).iter().zip(reader::teams(chunks)) {
        for chunk in members {
            add_chunk(bytes, team, chunk, text);
        }
    }
}

/// The rows of a chunk. A row is added at the BARRIER, END or CUT that it ends with.
fn add_chunk(bytes: &[u8], team: &Team, chunk: &Chunk, text: &mut Vec<u8>) {
    let (number, parent, member) = (team.number as u32, team.parent as u32, chunk.member as u32);
    let mut at = chunk.place as usize + 4;
    let (mut begin, mut interval, mut regions, mut offset) = (at, 0, 0, member);
    loop {
        let code = bytes[at];
        at += command_length(code);
        match code {
            0x10 => regions += 1,
            0x02 | 0x03 | 0x11 => {
                let (data, size) = (begin as u32, (at - begin) as u32);
                add_row([number, parent, interval, offset, team.size, team.level, data, size], text);
                if code != 0x11 {
                    return;
                }
                (begin, interval, offset) = (at, interval + 1, member + team.size * regions);
            }
            _ => {}
        }
    }
}

fn add_row(columns: [u32; 8], text: &mut Vec<u8>) {
    for column in columns {
        add_number(column, text);
        text.push(b',');
    }
    *text.last_mut().expect("the last comma") = b'\n';
}

/// In decimal without leading zeros.
fn add_number(mut number: u32, text: &mut Vec<u8>) {
    let (mut digits, mut at) = ([0; 10], 10);
    loop {
        at -= 1;
        digits[at] = b'0' + (number % 10) as u8;
        number /= 10;
        if number == 0 {
            break;
        }
    }
    text.extend_from_slice(&digits[at..]);
}

fn command_length(code: u8) -> usize {
    match code {
        0x10 => 4,
        0x20 | 0x21 => 2,
        0x30..=0x33 => 12,
        0x38..=0x3b => 14,
        _ => 1,
    }
}
