//! A plain reader of bundles, written from the scope paper: check, with refusals 1 to 12, 19 and 20.

use crate::ranges::Range;

const MOST_BYTES: usize = 65_536;
const MOST_SEGMENTS: u32 = 512;
const MOST_ACCESSES: u32 = 1_024;
const MOST_DEPTH: u32 = 4;

#[derive(Clone, Copy, Debug, PartialEq, Eq)]
pub struct Refusal {
    pub number: u32,
    pub place: usize,
}

pub fn refuse<T>(number: u32, place: usize) -> Result<T, Refusal> {
    Err(Refusal { number, place })
}

/// Refuses the bundle, or accepts it.
pub fn check(bytes: &[u8]) -> Result<(), Refusal> {
    read(bytes, &mut ()).map(|_| ())
}

/// Takes the segments and accesses of a bundle in the order of the bytes, while its commands are checked.
pub trait Log {
    /// A segment is opened by MEMBER or BARRIER.
    fn segment(&mut self);
    /// A segment is opened by the REGION of a team, with the locks held there.
    fn region(&mut self, team: u16, locks: u64);
    /// An access to a good range, with the locks held there.
    fn access(&mut self, access: Access, locks: u64);
}

/// For check, nothing is kept.
impl Log for () {
    fn segment(&mut self) {}
    fn region(&mut self, _: u16, _: u64) {}
    fn access(&mut self, _: Access, _: u64) {}
}

/// Checks the bundle. Its chunks come sorted by name, its REGIONs by team.
pub fn read(bytes: &[u8], log: &mut impl Log) -> Result<(Vec<Chunk>, Vec<Fork>), Refusal> {
    if bytes.len() > MOST_BYTES {
        return refuse(1, 0);
    }
    let (mut chunks, mut forks) = scan(bytes, log)?;
    check_shape(&mut chunks, &mut forks)?;
    Ok((chunks, forks))
}

/// The code is the byte of the narrow command, 0x30 to 0x33. A wide site has 4 bytes, a narrow one 2.
#[derive(Clone, Copy)]
pub struct Access {
    pub code: u8,
    pub wide: bool,
    pub site: u32,
    pub range: Range,
}

enum Command {
    Member { team: u16, member: u8 },
    /// END, or CUT.
    Close { cut: bool },
    Region { team: u16, size: u8 },
    Barrier,
    Acquire(u8),
    Release(u8),
    Access(Access),
}

/// The command at a position and the position after it, its operands not yet tested; or 2 or 3.
#[inline(always)]
fn decode(bytes: &[u8], at: usize) -> Result<(Command, usize), Refusal> {
    Ok(match bytes[at..] {
        [0x01, low, high, member, ..] => (Command::Member { team: u16::from_le_bytes([low, high]), member }, at + 4),
        [code @ 0x02..=0x03, ..] => (Command::Close { cut: code == 0x03 }, at + 1),
        [0x10, low, high, size, ..] => (Command::Region { team: u16::from_le_bytes([low, high]), size }, at + 4),
        [0x11, ..] => (Command::Barrier, at + 1),
        [0x20, lock, ..] => (Command::Acquire(lock), at + 2),
        [0x21, lock, ..] => (Command::Release(lock), at + 2),
        [code @ 0x30..=0x33, low, high, b0, b1, b2, b3, s0, s1, c0, c1, size, ..] => {
            let site = u16::from_le_bytes([low, high]) as u32;
            let range = range_of([b0, b1, b2, b3], [s0, s1], [c0, c1], size);
            (Command::Access(Access { code, wide: false, site, range }), at + 12)
        }
        [code @ 0x38..=0x3b, t0, t1, t2, t3, b0, b1, b2, b3, s0, s1, c0, c1, size, ..] => {
            let site = u32::from_le_bytes([t0, t1, t2, t3]);
            let range = range_of([b0, b1, b2, b3], [s0, s1], [c0, c1], size);
            (Command::Access(Access { code: code - 8, wide: true, site, range }), at + 14)
        }
        [0x01 | 0x10 | 0x20 | 0x21 | 0x30..=0x33 | 0x38..=0x3b, ..] => return refuse(3, at),
        _ => return refuse(2, at),
    })
}

fn range_of(base: [u8; 4], stride: [u8; 2], count: [u8; 2], size: u8) -> Range {
    let (stride, count) = (u16::from_le_bytes(stride), u16::from_le_bytes(count));
    Range { base: u32::from_le_bytes(base), stride, count, size }
}

/// A chunk: the offset of its MEMBER, its name, whether it is closed by CUT, the barriers that it passes, and its segments
/// and accesses among those of the bundle, from a number up to a number, in the order of the bytes. An offset is at most
/// 65,535.
#[derive(Clone, Copy)]
pub struct Chunk {
    pub place: u16,
    pub team: u16,
    pub member: u8,
    pub cut: bool,
    pub barriers: u16,
    pub segments: (u16, u16),
    pub accesses: (u16, u16),
}

/// A REGION: its offset, the team that it forks with its size, the team that it stands in, and the segment that it
/// opens.
pub struct Fork {
    pub place: u16,
    pub team: u16,
    pub size: u8,
    pub by_team: u16,
    pub segment: u16,
}

/// The chunks and REGIONs in the order of the bytes, or the first command that is refused, with 2 to 7 or 20.
fn scan(bytes: &[u8], log: &mut impl Log) -> Result<(Vec<Chunk>, Vec<Fork>), Refusal> {
    let mut chunks = Vec::new();
    let mut forks = Vec::new();
    let mut open = false;
    let mut chunk = opened(0, 0, 0, (0, 0));
    let mut locks = 0u64;
    let mut segments = 0;
    let mut accesses = 0;
    let mut wide = false; // as the first access is
    let mut at = 0;
    while at < bytes.len() {
        let (command, next) = decode(bytes, at)?;
        match command {
            Command::Member { team, member } => {
                if open {
                    return refuse(4, at);
                }
                if member > 63 {
                    return refuse(5, at);
                }
                if segments == MOST_SEGMENTS {
                    return refuse(7, at);
                }
                open = true;
                chunk = opened(at, team, member, (segments, accesses));
                log.segment();
                segments += 1;
            }
            Command::Close { cut } => {
                if !open {
                    return refuse(4, at);
                }
                if locks != 0 && !cut {
                    return refuse(6, at);
                }
                open = false;
                locks = 0;
                chunk.cut = cut;
                chunk.segments.1 = segments as u16;
                chunk.accesses.1 = accesses as u16;
                chunks.push(chunk);
            }
            Command::Region { team, size } => {
                if !open {
                    return refuse(4, at);
                }
                if team <= chunk.team || size < 1 || size > 64 {
                    return refuse(5, at);
                }
                if segments == MOST_SEGMENTS {
                    return refuse(7, at);
                }
                forks.push(Fork { place: at as u16, team, size, by_team: chunk.team, segment: segments as u16 });
                log.region(team, locks);
                segments += 1;
            }
            Command::Barrier => {
                if !open {
                    return refuse(4, at);
                }
                if segments == MOST_SEGMENTS {
                    return refuse(7, at);
                }
                chunk.barriers += 1;
                log.segment();
                segments += 1;
            }
            Command::Acquire(lock) => {
                if !open {
                    return refuse(4, at);
                }
                if lock > 63 {
                    return refuse(5, at);
                }
                if locks >> lock & 1 == 1 {
                    return refuse(6, at);
                }
                locks |= 1 << lock;
            }
            Command::Release(lock) => {
                if !open {
                    return refuse(4, at);
                }
                if lock > 63 {
                    return refuse(5, at);
                }
                if locks >> lock & 1 == 0 {
                    return refuse(6, at);
                }
                locks &= !(1 << lock);
            }
            Command::Access(access) => {
                if !open {
                    return refuse(4, at);
                }
                if accesses == 0 {
                    wide = access.wide;
                } else if access.wide != wide {
                    return refuse(20, at);
                }
                if !access.range.is_good() {
                    return refuse(5, at);
                }
                if accesses == MOST_ACCESSES {
                    return refuse(7, at);
                }
                log.access(access, locks);
                accesses += 1;
            }
        }
        at = next;
    }
    if open {
        return refuse(4, at);
    }
    Ok((chunks, forks))
}

/// A chunk at its MEMBER, with the numbers of segments and accesses before it.
fn opened(at: usize, team: u16, member: u8, (segments, accesses): (u32, u32)) -> Chunk {
    let (segments, accesses) = ((segments as u16, 0), (accesses as u16, 0));
    Chunk { place: at as u16, team, member, cut: false, barriers: 0, segments, accesses }
}

/// The lowest number of 8 to 12 and 19, then the lowest offset.
fn check_shape(chunks: &mut [Chunk], forks: &mut [Fork]) -> Result<(), Refusal> {
    // Sorted by name, then place: of equal names the first stands lowest in the bundle.
    chunks.sort_unstable_by_key(|chunk| (chunk.team as u64) << 24 | (chunk.member as u64) << 16 | chunk.place as u64);
    forks.sort_unstable_by_key(|fork| (fork.team as u32) << 16 | fork.place as u32);
    refuse_lowest(8, places_forked_before(forks))?;
    refuse_lowest(9, places_of_stray_chunks(chunks, forks))?;
    if !chunks.first().is_some_and(|chunk| chunk.team == 0 && chunk.member == 0) {
        return refuse(10, 0);
    }
    refuse_lowest(10, places_lacking_chunks(chunks, forks))?;
    refuse_lowest(11, places_too_deep(forks))?;
    refuse_lowest(12, places_of_unlike_barriers(chunks))?;
    refuse_lowest(19, places_of_cut_chunks_ahead(chunks))
}

fn refuse_lowest(number: u32, places: impl Iterator<Item = u16>) -> Result<(), Refusal> {
    match places.min() {
        Some(place) => refuse(number, place as usize),
        None => Ok(()),
    }
}

/// 8: a team forked before, at the later REGION.
fn places_forked_before(forks: &[Fork]) -> impl Iterator<Item = u16> + '_ {
    forks.windows(2).filter(|pair| pair[0].team == pair[1].team).map(|pair| pair[1].place)
}

/// The chunks of each team, by member.
pub fn teams(chunks: &[Chunk]) -> impl Iterator<Item = &[Chunk]> {
    chunks.chunk_by(|one, other| one.team == other.team)
}

/// The chunks of one team, by member.
pub fn team(chunks: &[Chunk], team: u16) -> &[Chunk] {
    let start = chunks.partition_point(|chunk| chunk.team < team);
    let length = chunks[start..].partition_point(|chunk| chunk.team == team);
    &chunks[start..start + length]
}

/// 9: a chunk of a team that is never forked, a member number not below the size, or a second chunk of one member.
fn places_of_stray_chunks<'a>(chunks: &'a [Chunk], forks: &'a [Fork]) -> impl Iterator<Item = u16> + 'a {
    let stray = teams(chunks).flat_map(|team| {
        let size = match team[0].team {
            0 => 1,
            number => forks.binary_search_by_key(&number, |fork| fork.team).map_or(0, |i| forks[i].size),
        };
        team.iter().filter(move |chunk| chunk.member >= size).map(|chunk| chunk.place)
    });
    let second = chunks.windows(2).filter(|pair| (pair[0].team, pair[0].member) == (pair[1].team, pair[1].member));
    stray.chain(second.map(|pair| pair[1].place))
}

/// 10: a forked team lacking a chunk, at its REGION. Past 9, each chunk is of a member of its team, and the only one.
fn places_lacking_chunks<'a>(chunks: &'a [Chunk], forks: &'a [Fork]) -> impl Iterator<Item = u16> + 'a {
    forks.iter().filter(|fork| team(chunks, fork.team).len() < fork.size as usize).map(|fork| fork.place)
}

/// 11: a team more than 4 deep below the root, at its REGION. A team's number is above that of the team that forks it.
fn places_too_deep(forks: &[Fork]) -> impl Iterator<Item = u16> + '_ {
    let mut depths = Vec::with_capacity(forks.len());
    for fork in forks {
        let outer = forks[..depths.len()].binary_search_by_key(&fork.by_team, |fork| fork.team);
        depths.push(1 + outer.map_or(0, |i| depths[i]));
    }
    forks.iter().zip(depths).filter(|(_, depth)| *depth > MOST_DEPTH).map(|(fork, _)| fork.place)
}

/// The barriers of a team's lowest-numbered complete member, if there is one.
fn complete_barriers(team: &[Chunk]) -> Option<u16> {
    team.iter().find(|chunk| !chunk.cut).map(|chunk| chunk.barriers)
}

/// 12: a complete member whose barrier count is unlike that of the lowest-numbered complete one.
fn places_of_unlike_barriers(chunks: &[Chunk]) -> impl Iterator<Item = u16> + '_ {
    teams(chunks).flat_map(|team| {
        let wanted = complete_barriers(team);
        team.iter().filter(move |chunk| !chunk.cut && Some(chunk.barriers) != wanted).map(|chunk| chunk.place)
    })
}

/// 19: a cut chunk with more barriers than the complete members of its team. Past 12, these have equal counts.
fn places_of_cut_chunks_ahead(chunks: &[Chunk]) -> impl Iterator<Item = u16> + '_ {
    teams(chunks).flat_map(|team| {
        let most = complete_barriers(team).unwrap_or(u16::MAX);
        team.iter().filter(move |chunk| chunk.cut && chunk.barriers > most).map(|chunk| chunk.place)
    })
}
