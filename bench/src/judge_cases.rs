//! Bundles for judging: as many segments and accesses as the format allows, and small ones.

use crate::bundles::{self, Case, Chunk};
use crate::generate::Random;
use crate::ranges::Range;

const SEGMENTS: usize = 512;
const ACCESSES: usize = 1_024;
const BASE: u64 = 1 << 20;
const READ: u8 = 0x30;
const WRITE: u8 = 0x31;
const ACQUIRE: u8 = 0x20;
const RELEASE: u8 = 0x21;

/// One word of memory, the same for all.
const WORD: Range = Range { base: BASE as u32, stride: 0, count: 1, size: 4 };

pub fn cases(random: &mut Random) -> Vec<Case> {
    let mut cases = Vec::new();
    let mut add = |name, chunks: Vec<Chunk>| cases.push(Case { name, bytes: bundles::shuffled(chunks, random) });
    let mut numbers = Random::new(7);
    let random = &mut numbers;

    add("all clash", wide_team(|_, _| access(WRITE, WORD)));
    add("reads only", wide_team(|_, _| access(READ, WORD)));
    add(
        "disjoint words",
        wide_team(|_, number| access(WRITE, Range { base: BASE as u32 + 8 * number as u32, ..WORD })),
    );
    add("word arrays", wide_team(|_, _| access(any_kind(random), word_array(random))));
    add("equal strides", wide_team(|_, _| access(any_kind(random), column(random))));
    add("coprime strides", wide_team(|_, _| access(WRITE, coprime(random))));
    add("coprime, 8 teams", teams_in_turn(|| access(WRITE, coprime(random))));
    add("a lock in common", wide_team(|member, _| locked(&[member % 63, 63], access(WRITE, WORD))));
    add(
        "many locks",
        wide_team(|_, _| {
            let lock = random.from(0, 31) as u8;
            locked(&[lock, 32 + lock / 4], access(WRITE, WORD))
        }),
    );
    add("8 members, 62 barriers", intervals(8, 62, || access(WRITE, WORD)));
    add("nested four deep", nested(|| access(any_kind(random), near(random)), region));
    add("10 accesses", small(random));
    add("E", example_e());
    add("locks around regions", around_regions(random));
    let bytes = without_locks(&cases[cases.len() - 1].bytes);
    cases.push(Case { name: "the same without locks", bytes });
    cases.extend(cut_cases());
    let wide = [("all clash", "all clash, wide sites"), ("10 accesses", "10 accesses, wide sites")]
        .map(|(narrow, name)| Case { name, bytes: bundles::with_wide_sites(bundles::bytes_of(&cases, narrow)) });
    cases.extend(wide);
    cases
}

/// Bundles in which a third of the chunks are cut.
fn cut_cases() -> [Case; 2] {
    let mut random = Random::new(bundles::CUT_SEED);
    let barriers = intervals(24, 20, || access(WRITE, WORD));
    let locks = around_regions(&mut random);
    [("24 members, a third cut", barriers), ("regions, a third cut", locks)].map(|(name, chunks)| {
        let chunks = bundles::third_cut(chunks, &mut random);
        Case { name, bytes: bundles::shuffled(chunks, &mut random) }
    })
}

fn any_kind(random: &mut Random) -> u8 {
    random.from(0x30, 0x33) as u8
}

fn access(code: u8, range: Range) -> Vec<u8> {
    let mut bytes = vec![code];
    bytes.extend((range.base as u16).to_le_bytes()); // the site
    bytes.extend(range.base.to_le_bytes());
    bytes.extend(range.stride.to_le_bytes());
    bytes.extend(range.count.to_le_bytes());
    bytes.push(range.size);
    bytes
}

fn locked(locks: &[u8], commands: Vec<u8>) -> Vec<u8> {
    let all = |code| locks.iter().flat_map(move |&lock| [code, lock]);
    all(ACQUIRE).chain(commands).chain(all(RELEASE)).collect()
}

fn strided(base: u64, stride: u64, count: u64, size: u64) -> Range {
    let stride = if count == 1 { 0 } else { stride };
    Range { base: base as u32, stride: stride as u16, count: count as u16, size: size as u8 }
}

/// 1 to 64 words of 4 or 8 bytes without gaps, in an array of 64 KiB.
fn word_array(random: &mut Random) -> Range {
    let size = random.one_of(&[4, 8]);
    strided(BASE + size * random.from(0, 65_536 / size - 64), size, random.from(1, 64), size)
}

/// A member of 2 to 100 structs of 96 bytes, in an array of 64 KiB.
fn column(random: &mut Random) -> Range {
    strided(BASE + 4 * random.from(0, 13_900), 96, random.from(2, 100), random.one_of(&[4, 8]))
}

/// About 1,000 elements, the stride a prime.
fn coprime(random: &mut Random) -> Range {
    let stride = loop {
        let stride = random.from(500, 3_000);
        if (2..55).all(|divisor| stride % divisor != 0) {
            break stride;
        }
    };
    strided(BASE + random.from(0, 100_000), stride, random.from(900, 1_100), random.one_of(&[1, 2, 4, 8]))
}

/// One of 64 words, or a few of them.
fn near(random: &mut Random) -> Range {
    strided(BASE + 4 * random.from(0, 63), 4 * random.from(1, 4), random.from(1, 4), 4)
}

/// Ends all chunks, the root last given BARRIERs up to 512 segments.
fn ended(mut chunks: Vec<Chunk>, segments: usize) -> Vec<Chunk> {
    chunks[0].extend(vec![0x11; SEGMENTS - segments]);
    chunks.iter_mut().for_each(bundles::end);
    chunks
}

/// A team of 64 with 16 accesses each, then 6 barriers: all pairs of different members are concurrent.
fn wide_team(mut commands: impl FnMut(u8, usize) -> Vec<u8>) -> Vec<Chunk> {
    let mut root = bundles::member(0, 0);
    root.extend(bundles::region(1, 64));
    let mut chunks = vec![root];
    for member in 0..64 {
        let mut chunk = bundles::member(1, member);
        for number in 0..ACCESSES / 64 {
            chunk.extend(commands(member, member as usize * 16 + number));
        }
        chunk.extend([0x11; 6]);
        chunks.push(chunk);
    }
    ended(chunks, 2 + 64 * 7)
}

/// Seven teams of 64 and one of 55 in turn, two accesses in each member; 18 more in the root.
fn teams_in_turn(mut commands: impl FnMut() -> Vec<u8>) -> Vec<Chunk> {
    let mut chunks = vec![bundles::member(0, 0)];
    for team in 1..=8 {
        let size = if team == 8 { 55 } else { 64 };
        chunks[0].extend(bundles::region(team, size));
        for member in 0..size {
            let mut chunk = bundles::member(team, member);
            chunk.extend(commands());
            chunk.extend(commands());
            chunks.push(chunk);
        }
    }
    for _ in 0..ACCESSES - 2 * 503 {
        chunks[0].extend(commands());
    }
    ended(chunks, SEGMENTS)
}

/// A team that passes so many barriers, two accesses in each interval; the rest of them in the root.
fn intervals(members: u8, barriers: usize, mut commands: impl FnMut() -> Vec<u8>) -> Vec<Chunk> {
    let segments = members as usize * (1 + barriers);
    let mut root = bundles::member(0, 0);
    for _ in 0..ACCESSES - 2 * segments {
        root.extend(commands());
    }
    root.extend(bundles::region(1, members));
    let mut chunks = vec![root];
    for member in 0..members {
        let mut chunk = bundles::member(1, member);
        for interval in 0..=barriers {
            if interval > 0 {
                chunk.push(0x11);
            }
            chunk.extend(commands());
            chunk.extend(commands());
        }
        chunks.push(chunk);
    }
    ended(chunks, 2 + segments)
}

/// Teams of 4, each of whose members forks a team of 4, down to depth 4; 3 accesses in each member, and 4 in the root.
/// `fork` is the REGION of a team with what stands around it.
fn nested(mut commands: impl FnMut() -> Vec<u8>, fork: impl Fn(u16) -> Vec<u8>) -> Vec<Chunk> {
    let mut chunks = vec![bundles::member(0, 0)];
    chunks[0].extend(commands());
    let (mut outer, mut team) = (0..1, 0);
    for depth in 1..=5 {
        let start = chunks.len();
        for at in outer {
            if depth <= 4 {
                team += 1;
                for member in 0..4 {
                    chunks.push(bundles::member(team, member));
                }
            }
            for turn in 0..3 {
                chunks[at].extend(commands());
                if turn == 1 && depth <= 4 {
                    chunks[at].extend(fork(team));
                }
            }
        }
        outer = start..chunks.len();
    }
    ended(chunks, 2 + 8 + 32 + 128 + 256)
}

/// The REGION of a team of 4.
fn region(team: u16) -> Vec<u8> {
    bundles::region(team, 4).to_vec()
}

/// The same teams, all writing one word: each REGION stands in one lock of 12, and one access of four does.
fn around_regions(random: &mut Random) -> Vec<Chunk> {
    let own = || match random.from(0, 47) {
        lock @ 0..12 => locked(&[lock as u8], access(WRITE, WORD)),
        _ => access(WRITE, WORD),
    };
    nested(own, |team| locked(&[(team % 12) as u8], region(team)))
}

/// A bundle without its ACQUIREs and RELEASEs.
fn without_locks(bytes: &[u8]) -> Vec<u8> {
    bundles::commands(bytes).filter(|command| !matches!(command[0], ACQUIRE | RELEASE)).flatten().copied().collect()
}

/// A team of 3 with a barrier: 3 accesses in each member, and one in the root.
fn small(random: &mut Random) -> Vec<Chunk> {
    let mut chunks = vec![bundles::member(0, 0)];
    chunks[0].extend(access(WRITE, WORD));
    chunks[0].extend(bundles::region(1, 3));
    for member in 0..3 {
        let mut chunk = bundles::member(1, member);
        chunk.extend(access(any_kind(random), near(random)));
        chunk.push(0x11);
        chunk.extend(access(any_kind(random), near(random)));
        chunk.extend(access(WRITE, WORD));
        chunks.push(chunk);
    }
    chunks.iter_mut().for_each(bundles::end);
    chunks
}

/// The example of docs/FORMAT.md, whose chunks stay in their order.
pub fn example_e() -> Vec<Chunk> {
    let root = [0x01, 0, 0, 0, 0x10, 1, 0, 2, 0x02];
    let writer = [0x01, 1, 0, 0, 0x31, 0x0a, 0, 0, 0x10, 0, 0, 8, 0, 2, 0, 4, 0x11, 0x02];
    let reader = [0x01, 1, 0, 1, 0x30, 0x14, 0, 0x0a, 0x10, 0, 0, 0, 0, 1, 0, 4, 0x11, 0x02];
    vec![root.into_iter().chain(writer).chain(reader).collect()]
}
