//! Bundles as large as the format allows, and damaged ones whose fault shows only near the end of the check.

use crate::generate::Random;

const CUT: u8 = 0x03;
/// Cutting has numbers of its own, and so have the changes to bundles with wide sites.
pub const CUT_SEED: u64 = 4;
pub const WIDE_SEED: u64 = 6;

pub struct Case {
    pub name: &'static str,
    pub bytes: Vec<u8>,
}

/// A chunk's bytes, MEMBER to END or CUT.
pub type Chunk = Vec<u8>;

pub fn cases(random: &mut Random) -> Vec<Case> {
    let mut cases = Vec::new();
    let mut add = |name, bytes| cases.push(Case { name, bytes });

    let locks = one_chunk(65_528);
    let wide = wide_teams(55);
    let small = small_teams(false);
    let accesses = with_accesses(wide_teams(55), random);
    let full = with_locks(accesses.clone(), 65_536);
    add("65,536 bytes of locks", locks.clone());
    add("504 chunks, 8 teams", wide.concat());
    add("the same, shuffled", shuffled(wide.clone(), random));
    add("256 chunks, 255 teams", small.concat());
    add("the same, shuffled", shuffled(small.clone(), random));
    add("the same, back to front", small.iter().rev().flatten().copied().collect());
    add("1,024 accesses, 504 chunks", shuffled(accesses.clone(), random));
    add("all limits reached", shuffled(full.clone(), random));

    let mut bytes = shuffled(full.clone(), random);
    *bytes.last_mut().unwrap() = 0xff;
    add("last byte unknown", bytes);
    let mut bytes = locks;
    bytes.drain(65_533..65_535);
    add("lock held at END", bytes);
    let mut chunks = small.clone();
    before_end(&mut chunks[0], &region(255, 1));
    add("last team forked twice", chunks.concat());
    let mut chunks = wide.clone();
    chunks[503] = member(8, 55);
    end(&mut chunks[503]);
    add("last member too high", chunks.concat());
    let mut chunks = wide;
    chunks.remove(503);
    add("last chunk lacking", chunks.concat());
    add("last team too deep", small_teams(true).concat());
    let mut chunks = wide_teams(54);
    before_end(&mut chunks[502], &[0x11]);
    add("last barrier count unlike", chunks.concat());
    *chunks[502].last_mut().unwrap() = CUT;
    add("last cut chunk ahead", chunks.concat());
    add("1,024 accesses, a third cut", third_cut(accesses, &mut Random::new(CUT_SEED)).concat());
    cases
}

/// A bundle of these cases with wide sites, and the same with one narrow access more than there may be, in the last chunk.
pub fn wide_cases(cases: &[Case]) -> [Case; 2] {
    let wide = with_wide_sites(bytes_of(cases, "1,024 accesses, 504 chunks"));
    let mut mixed = wide.clone();
    before_end(&mut mixed, &access(&mut Random::new(WIDE_SEED)));
    [
        Case { name: "1,024 accesses, wide sites", bytes: wide },
        Case { name: "last access of the other group", bytes: mixed },
    ]
}

/// The bytes of the case of this name.
pub fn bytes_of<'a>(cases: &'a [Case], name: &str) -> &'a [u8] {
    &cases.iter().find(|case| case.name == name).expect("a case of this name").bytes
}

pub fn member(team: u16, member: u8) -> Chunk {
    let [low, high] = team.to_le_bytes();
    vec![0x01, low, high, member]
}

pub fn region(team: u16, size: u8) -> [u8; 4] {
    let [low, high] = team.to_le_bytes();
    [0x10, low, high, size]
}

/// So many bytes, a multiple of 4, of a lock acquired and released.
fn lock_pairs(bytes: usize) -> Vec<u8> {
    (0..bytes / 4).flat_map(|turn| [0x20, turn as u8 % 64, 0x21, turn as u8 % 64]).collect()
}

fn access(random: &mut Random) -> Vec<u8> {
    let count = random.from(1, 64) as u16;
    let stride = if count == 1 { 0 } else { random.from(1, 100) as u16 };
    let mut bytes = vec![random.from(0x30, 0x33) as u8];
    bytes.extend((random.from(0, 65_535) as u16).to_le_bytes());
    bytes.extend((random.from(4096, 8192) as u32).to_le_bytes());
    bytes.extend(stride.to_le_bytes());
    bytes.extend(count.to_le_bytes());
    bytes.push(random.one_of(&[1, 2, 4, 8]) as u8);
    bytes
}

pub fn end(chunk: &mut Chunk) {
    chunk.push(0x02);
}

fn before_end(chunk: &mut Chunk, bytes: &[u8]) {
    chunk.pop();
    chunk.extend(bytes);
    end(chunk);
}

/// A root with three barriers and so many bytes of locks.
fn one_chunk(lock_bytes: usize) -> Vec<u8> {
    let mut chunk = member(0, 0);
    chunk.extend([0x11; 3]);
    chunk.extend(lock_pairs(lock_bytes));
    end(&mut chunk);
    chunk
}

/// A root whose last segment is opened behind as many locks as there is room for.
pub fn locks_before_barrier() -> Vec<u8> {
    let mut chunk = member(0, 0);
    chunk.extend(lock_pairs(65_528));
    chunk.push(0x11);
    end(&mut chunk);
    chunk
}

/// The root forks teams 1 to 7 of 64 members, and team 8 of so many; with 55, 512 segments.
fn wide_teams(last: u8) -> Vec<Chunk> {
    let size_of = |team| if team == 8 { last } else { 64 };
    let mut root = member(0, 0);
    let mut chunks = vec![];
    for team in 1..=8 {
        root.extend(region(team, size_of(team)));
        for number in 0..size_of(team) {
            chunks.push(member(team, number));
        }
    }
    chunks.insert(0, root);
    chunks.iter_mut().for_each(end);
    chunks
}

/// Teams 1 to 255 of one member each: the root forks every fourth of them, and each of these forks the next, down to
/// depth 4; 511 segments. Team 255 is forked by team 251, or one level too deep by team 252.
fn small_teams(too_deep: bool) -> Vec<Chunk> {
    let mut chunks: Vec<Chunk> = (0..=255).map(|team| member(team, 0)).collect();
    for team in 1..=255 {
        let by_team = match team {
            255 if too_deep => 252,
            255 => 251,
            _ if team % 4 == 1 => 0,
            _ => team - 1,
        };
        chunks[by_team].extend(region(team as u16, 1));
    }
    chunks.iter_mut().for_each(end);
    chunks
}

/// 1,024 accesses, two in each chunk and the rest in the root.
fn with_accesses(mut chunks: Vec<Chunk>, random: &mut Random) -> Vec<Chunk> {
    for turn in 0..1024 {
        let at = if turn < 2 * chunks.len() { turn / 2 } else { 0 };
        before_end(&mut chunks[at], &access(random));
    }
    chunks
}

/// Locks in the root, up to so many bytes.
fn with_locks(mut chunks: Vec<Chunk>, bytes: usize) -> Vec<Chunk> {
    let present: usize = chunks.iter().map(Vec::len).sum();
    before_end(&mut chunks[0], &lock_pairs((bytes - present) / 4 * 4));
    chunks
}

/// The chunks, a third of them cut at the end of a command chosen at random, with no REGION lost.
pub fn third_cut(mut chunks: Vec<Chunk>, random: &mut Random) -> Vec<Chunk> {
    for turn in 0..chunks.len() / 3 {
        let at = 3 * turn + random.from(0, 2) as usize;
        let ends = command_ends(&chunks[at]);
        chunks[at].truncate(random.one_of(&ends) as usize);
        chunks[at].push(CUT);
    }
    chunks
}

/// The ends of a chunk's commands from its last REGION on, or from its MEMBER, all but that of its END.
fn command_ends(chunk: &[u8]) -> Vec<u64> {
    let (mut ends, mut at) = (vec![], 0);
    while at + 1 < chunk.len() {
        if chunk[at] == 0x10 {
            ends.clear();
        }
        at += command_length(chunk[at]);
        ends.push(at as u64);
    }
    ends
}

fn command_length(code: u8) -> usize {
    match code {
        0x01 | 0x10 => 4,
        0x20 | 0x21 => 2,
        0x30..=0x33 => 12,
        0x38..=0x3b => 14,
        _ => 1,
    }
}

/// The bytes of each command of a good bundle.
pub fn commands(mut bytes: &[u8]) -> impl Iterator<Item = &[u8]> {
    std::iter::from_fn(move || {
        let (command, rest) = bytes.split_at(command_length(*bytes.first()?));
        bytes = rest;
        Some(command)
    })
}

/// A bundle of narrow accesses with wide ones in their place, the sites as high as they get.
pub fn with_wide_sites(bytes: &[u8]) -> Vec<u8> {
    let wide = |command: &[u8]| match *command {
        [code @ 0x30..=0x33, low, high, ref range @ ..] => [&[code + 8, low, high, 0xff, 0xff], range].concat(),
        _ => command.to_vec(),
    };
    commands(bytes).flat_map(wide).collect()
}

/// The chunks in a random order.
pub fn shuffled(mut chunks: Vec<Chunk>, random: &mut Random) -> Vec<u8> {
    for i in (1..chunks.len()).rev() {
        chunks.swap(i, random.from(0, i as u64) as usize);
    }
    chunks.concat()
}

/// One change at random: a byte set, some bytes dropped or doubled, or the end cut off.
pub fn damaged(bytes: &[u8], random: &mut Random) -> Vec<u8> {
    let mut bytes = bytes.to_vec();
    let at = random.from(0, bytes.len() as u64 - 1) as usize;
    let end = bytes.len().min(at + random.one_of(&[1, 2, 4, 12, 14]) as usize);
    match random.from(0, 3) {
        0 => bytes[at] = random.one_of(&[0x01, 0x02, 0x03, 0x10, 0x11, 0x20, 0x21, 0x30, 0x38, 0x40, 0x00]) as u8,
        1 => drop(bytes.drain(at..end)),
        2 => bytes = [&bytes[..end], &bytes[at..]].concat(),
        _ => bytes.truncate(at),
    }
    bytes
}
