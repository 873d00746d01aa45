//! The program racelist in plain Rust: a bundle on standard input, its listing on standard output.

// What other programs of bench/ use of these modules is not needed here.
#[allow(dead_code)]
mod judge;
#[allow(dead_code)]
mod ranges;
#[allow(dead_code)]
mod reader;

use judge::{Closure, LEAST_WORDS};
use std::fs::File;
use std::io::{self, BufWriter, Read, Write};
use std::os::fd::FromRawFd;

/// One more than a bundle may have, so that a longer input is refused as such.
const MOST_BYTES: u64 = 65_536 + 1;
/// The size of the buffer before standard output.
const BUFFER: usize = 65_536;

fn main() -> io::Result<()> {
    let mut bytes = Vec::with_capacity(MOST_BYTES as usize);
    file(0).take(MOST_BYTES).read_to_end(&mut bytes)?;
    let mut out = BufWriter::with_capacity(BUFFER, file(1));
    judge::racelist(&bytes, &mut vec![0; LEAST_WORDS], Closure::Teams, &mut out)?;
    out.flush()
}

/// Standard input or output by its number, each asked for once; Rust's own handles have buffers of their own.
fn file(number: i32) -> File {
    unsafe { File::from_raw_fd(number) }
}
