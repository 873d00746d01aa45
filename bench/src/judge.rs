//! Judging in plain Rust, written from the scope paper: the counts and the least race, the next race above a key, and a
//! listing.
//! As in the proved code, the matrix and the table of accesses stand in a lent work area, whose words are 0 afterwards.

use crate::ranges::{self, Range};
use crate::reader::{self, Access, Chunk, Fork, Log, Refusal};
use std::io::{self, Write};

pub const LEAST_WORDS: usize = 16_384;

/// An access is named by team, member and its number in the chunk from 0.
#[derive(Clone, Copy, Debug, PartialEq, Eq, PartialOrd, Ord)]
pub struct Name {
    pub team: u16,
    pub member: u8,
    pub number: u16,
}

/// Two accesses that race, lower name first, with their sites, the lowest byte that both touch, and the lowest element of each
/// that covers it.
#[derive(Clone, Copy, Debug, PartialEq, Eq)]
pub struct Race {
    pub witness: u32,
    pub first: Name,
    pub first_site: u32,
    pub first_element: u16,
    pub second: Name,
    pub second_site: u32,
    pub second_element: u16,
}

/// The counts of the bundle's chunks, segments, accesses and races, and the least race.
#[derive(Clone, Copy, Debug, PartialEq, Eq)]
pub struct Judgement {
    pub chunks: u32,
    pub segments: u32,
    pub accesses: u32,
    pub races: u32,
    pub least: Option<Race>,
}

/// How the edges are closed to paths.
#[derive(Clone, Copy)]
pub enum Closure {
    /// The proved code's algorithm.
    Warshall,
    /// From the last segment to the first, in time linear in the edges of the forks and barriers.
    Teams,
}

/// The counts and the least race.
pub fn judge(bytes: &[u8], work: &mut [u32], closure: Closure) -> Result<Judgement, Refusal> {
    over(bytes, work, closure, |bundle, rows, table| match Lineages::of(bundle, table) {
        None => judgement(bundle, rows, table, |_, _| false),
        Some(lineages) => climbing(|| judgement(bundle, rows, table, |one, other| lineages.keep_apart(table, one, other))),
    })
}

#[inline(always)]
fn judgement(bundle: &Bundle, rows: &[MatrixRow], table: &[TableRow], apart: impl Fn(usize, usize) -> bool) -> Judgement {
    let (mut races, mut least) = (0, u64::MAX);
    each_race(bundle, rows, table, apart, |key| {
        races += 1;
        least = least.min(key);
    });
    Judgement {
        chunks: bundle.chunks.len() as u32,
        segments: rows.len() as u32,
        accesses: table.len() as u32,
        races,
        least: least_of(table, least),
    }
}

/// The least race above a witness and two names, real or not.
pub fn next_race(
    bytes: &[u8],
    (witness, first, second): (u32, Name, Name),
    work: &mut [u32],
    closure: Closure,
) -> Result<Option<Race>, Refusal> {
    over(bytes, work, closure, |bundle, rows, table| {
        let floor = floor_of(table, witness, first, second);
        let least = match Lineages::of(bundle, table) {
            None => least_from(floor, bundle, rows, table, |_, _| false),
            Some(lineages) => climbing(|| {
                least_from(floor, bundle, rows, table, |one, other| lineages.keep_apart(table, one, other))
            }),
        };
        least_of(table, least)
    })
}

#[inline(always)]
fn least_from(
    floor: u64,
    bundle: &Bundle,
    rows: &[MatrixRow],
    table: &[TableRow],
    apart: impl Fn(usize, usize) -> bool,
) -> u64 {
    let mut least = u64::MAX;
    each_race(bundle, rows, table, apart, |key| {
        if key >= floor {
            least = least.min(key);
        }
    });
    least
}

/// All races in order.
pub fn list(bytes: &[u8], work: &mut [u32], closure: Closure) -> Result<Vec<Race>, Refusal> {
    over(bytes, work, closure, |bundle, rows, table| {
        sorted_keys(bundle, rows, table).into_iter().map(|key| race_of(table, key)).collect()
    })
}

/// The text of racelist.
pub fn racelist(bytes: &[u8], work: &mut [u32], closure: Closure, out: &mut impl Write) -> io::Result<()> {
    let listed = over(bytes, work, closure, |bundle, rows, table| {
        let keys = sorted_keys(bundle, rows, table);
        let counts = (bundle.chunks.len(), rows.len(), table.len());
        writeln!(out, "chunks {} segments {} accesses {}", counts.0, counts.1, counts.2)?;
        // Name and site are written once for each access.
        let names: Vec<String> = table.iter().map(name_text).collect();
        for &key in &keys {
            let (witness, first, second) = parts(key);
            out.write_all(b"race ")?;
            out.write_all(&hexadecimal(witness))?;
            out.write_all(names[first].as_bytes())?;
            out.write_all(names[second].as_bytes())?;
            out.write_all(b"\n")?;
        }
        match keys.len() {
            0 => out.write_all(b"race-free\n"),
            races => writeln!(out, "pairs {races}"),
        }
    });
    match listed {
        Ok(written) => written,
        Err(refusal) => writeln!(out, "refused {} at {}", refusal.number, refusal.place),
    }
}

fn name_text(row: &TableRow) -> String {
    let (name, site) = name_of(row);
    format!(" {}.{}.{} {site}", name.team, name.member, name.number)
}

fn hexadecimal(number: u32) -> [u8; 8] {
    std::array::from_fn(|digit| b"0123456789abcdef"[(number >> (28 - 4 * digit)) as usize % 16])
}

/// What the scan keeps of a bundle besides its chunks and REGIONs.
#[derive(Default)]
struct Contents {
    /// The team of the REGION that opens a segment, or 0.
    openings: Vec<u16>,
    /// The team and the locks of each REGION that is met with a lock held.
    held: Vec<(u16, u64)>,
    /// Rows without names, in the order of the bytes.
    accesses: Vec<TableRow>,
}

impl Log for Contents {
    #[inline]
    fn segment(&mut self) {
        self.openings.push(0);
    }

    #[inline]
    fn region(&mut self, team: u16, locks: u64) {
        self.openings.push(team);
        if locks != 0 {
            self.held.push((team, locks));
        }
    }

    #[inline]
    fn access(&mut self, access: Access, locks: u64) {
        self.accesses.push(row_of(access, locks, self.openings.len() - 1));
    }
}

struct Bundle {
    chunks: Vec<Chunk>,
    forks: Vec<Fork>,
    openings: Vec<u16>,
    held: Vec<(u16, u64)>,
}

/// Reads the bundle, fills the work area, asks, and clears all of the area.
fn over<T>(
    bytes: &[u8],
    work: &mut [u32],
    closure: Closure,
    ask: impl FnOnce(&Bundle, &[MatrixRow], &[TableRow]) -> T,
) -> Result<T, Refusal> {
    if work.len() < LEAST_WORDS {
        return reader::refuse(13, 0);
    }
    let mut contents = Contents::default();
    let answer = reader::read(bytes, &mut contents).map(|(chunks, forks)| {
        let Contents { openings, held, accesses } = contents;
        let bundle = Bundle { chunks, forks, openings, held };
        let (matrix, table) = work[..LEAST_WORDS].split_at_mut(LEAST_WORDS / 2);
        let rows = &mut matrix.as_chunks_mut().0[..bundle.openings.len()];
        let table = &mut table.as_chunks_mut().0[..accesses.len()];
        match closure {
            Closure::Warshall => {
                fill_edges(&bundle, rows);
                close_by_warshall(rows);
            }
            Closure::Teams => _ = bundle.close_team(rows, 0, [0; 16]),
        }
        fill_table(&bundle.chunks, &accesses, table);
        ask(&bundle, rows, table)
    });
    work.fill(0);
    answer
}

// The matrix: bit b of row a says that segment a reaches segment b.

type MatrixRow = [u32; 16];

fn bit(row: &MatrixRow, segment: usize) -> bool {
    row[segment / 32 % 16] >> (segment % 32) & 1 == 1
}

fn set_bit(row: &mut MatrixRow, segment: usize) {
    row[segment / 32 % 16] |= 1 << (segment % 32);
}

fn join(row: &mut MatrixRow, other: &MatrixRow) {
    for (word, other) in row.iter_mut().zip(other) {
        *word |= other;
    }
}

fn with_bit(mut row: MatrixRow, segment: usize) -> MatrixRow {
    set_bit(&mut row, segment);
    row
}

fn range_of((from, to): (u16, u16)) -> std::ops::Range<usize> {
    from as usize..to as usize
}

/// The edges of the graph, and from each segment to itself.
fn fill_edges(bundle: &Bundle, rows: &mut [MatrixRow]) {
    for (segment, row) in rows.iter_mut().enumerate() {
        *row = with_bit([0; 16], segment);
    }
    for chunk in &bundle.chunks {
        for segment in range_of(chunk.segments).skip(1) {
            set_bit(&mut rows[segment - 1], segment);
        }
    }
    for fork in &bundle.forks {
        let opened = fork.segment as usize;
        for chunk in reader::team(&bundle.chunks, fork.team) {
            let segments = range_of(chunk.segments);
            set_bit(&mut rows[opened - 1], segments.start);
            set_bit(&mut rows[segments.end - 1], opened);
        }
    }
    for team in reader::teams(&bundle.chunks).filter(|team| team.len() > 1) {
        let mut opened = vec![[0; 16]; most_barriers(team) as usize];
        for chunk in team {
            for (number, segment) in bundle.opened_by_barriers(chunk).enumerate() {
                set_bit(&mut opened[number], segment);
            }
        }
        for chunk in team {
            for (number, segment) in bundle.opened_by_barriers(chunk).enumerate() {
                join(&mut rows[segment - 1], &opened[number]);
            }
            // The barriers that a cut chunk lacks come after its last segment.
            for missing in &opened[chunk.barriers as usize..] {
                join(&mut rows[chunk.segments.1 as usize - 1], missing);
            }
        }
    }
}

/// Those of the complete members, if there are any; a cut chunk has no more.
fn most_barriers(team: &[Chunk]) -> u16 {
    team.iter().map(|chunk| chunk.barriers).max().unwrap_or(0)
}

fn close_by_warshall(rows: &mut [MatrixRow]) {
    for k in 0..rows.len() {
        let through = rows[k];
        for row in rows.iter_mut() {
            if bit(row, k) {
                join(row, &through);
            }
        }
    }
}

impl Bundle {
    fn opened_by_barriers<'a>(&'a self, chunk: &Chunk) -> impl Iterator<Item = usize> + 'a {
        range_of(chunk.segments).skip(1).filter(|&segment| self.openings[segment] == 0)
    }

    /// Fills the rows of a team and of all teams below it, given what its last segments reach; answers what its
    /// segments 0 reach. Goes back from interval to interval; within one, a member's segments are parted by REGIONs. A cut
    /// chunk joins in where its last interval is reached: what the next barrier opens reaches all that later ones open.
    fn close_team(&self, rows: &mut [MatrixRow], team: u16, mut after: MatrixRow) -> MatrixRow {
        let team = reader::team(&self.chunks, team);
        let mut ends = [0; 64];
        for (end, chunk) in ends.iter_mut().zip(team) {
            *end = chunk.segments.1 as usize;
        }
        for interval in (0..=most_barriers(team)).rev() {
            let mut reached = [0; 16];
            for (end, _) in ends.iter_mut().zip(team).filter(|(_, chunk)| chunk.barriers >= interval) {
                let mut segment = *end - 1;
                rows[segment] = with_bit(after, segment);
                while self.openings[segment] != 0 {
                    let members = self.close_team(rows, self.openings[segment], rows[segment]);
                    segment -= 1;
                    rows[segment] = with_bit(members, segment);
                }
                join(&mut reached, &rows[segment]);
                *end = segment;
            }
            after = reached;
        }
        after
    }
}

// The table: the accesses in the order of their names.

/// Base, last byte, two words of locks; then segment (16 bits), kind (2), size (from bit 24); stride and count; site;
/// number (10 bits), member (6) and team.
type TableRow = [u32; 8];

const WRITES: u32 = 1 << 16;
const ATOMIC: u32 = 1 << 17;

fn row_of(access: Access, locks: u64, segment: usize) -> TableRow {
    let range = access.range;
    let kind = (access.code & 3) as u32; // 0x31 and 0x33 write, 0x32 and 0x33 are atomic
    [
        range.base,
        range.last_byte() as u32,
        locks as u32,
        (locks >> 32) as u32,
        segment as u32 | kind << 16 | (range.size as u32) << 24,
        range.stride as u32 | (range.count as u32) << 16,
        access.site,
        0,
    ]
}

fn fill_table(chunks: &[Chunk], accesses: &[TableRow], table: &mut [TableRow]) {
    let mut next = 0;
    for chunk in chunks {
        for (number, row) in accesses[range_of(chunk.accesses)].iter().enumerate() {
            table[next] = *row;
            table[next][7] = number as u32 | (chunk.member as u32) << 10 | (chunk.team as u32) << 16;
            next += 1;
        }
    }
}

fn range_in(row: &TableRow) -> Range {
    Range { base: row[0], stride: row[5] as u16, count: (row[5] >> 16) as u16, size: (row[4] >> 24) as u8 }
}

fn name_of(row: &TableRow) -> (Name, u32) {
    let name = Name { team: (row[7] >> 16) as u16, member: (row[7] >> 10) as u8 % 64, number: row[7] as u16 % 1024 };
    (name, row[6])
}

// Races. A race's key is its witness and the ranks of its accesses by name: keys are ordered as races are.

fn key_of(witness: u32, first: usize, second: usize) -> u64 {
    ((witness as u64) << 20) + ((first as u64) << 10) + second as u64
}

fn parts(key: u64) -> (u32, usize, usize) {
    ((key >> 20) as u32, (key >> 10) as usize % 1024, key as usize % 1024)
}

/// No race has the greatest key.
fn least_of(table: &[TableRow], least: u64) -> Option<Race> {
    (least != u64::MAX).then(|| race_of(table, least))
}

/// The race of a key, which has no room for the elements: they are found again by the witness.
#[inline]
fn race_of(table: &[TableRow], key: u64) -> Race {
    let (witness, first, second) = parts(key);
    let (one, other) = (&table[first], &table[second]);
    let ((first, first_site), (second, second_site)) = (name_of(one), name_of(other));
    let [first_element, second_element] = [one, other].map(|row| range_in(row).element_at(witness));
    Race { witness, first, first_site, first_element, second, second_site, second_element }
}

/// The races above the witness and names are those whose key is no less.
fn floor_of(table: &[TableRow], witness: u32, first: Name, second: Name) -> u64 {
    let rank = table.partition_point(|row| name_of(row).0 < first);
    match table.get(rank) {
        Some(row) if name_of(row).0 == first => {
            key_of(witness, rank, table.partition_point(|row| name_of(row).0 <= second))
        }
        _ => key_of(witness, rank, 0),
    }
}

fn sorted_keys(bundle: &Bundle, rows: &[MatrixRow], table: &[TableRow]) -> Vec<u64> {
    let mut keys = match Lineages::of(bundle, table) {
        None => keys_of(bundle, rows, table, |_, _| false),
        Some(lineages) => climbing(|| keys_of(bundle, rows, table, |one, other| lineages.keep_apart(table, one, other))),
    };
    keys.sort_unstable();
    keys
}

#[inline(always)]
fn keys_of(bundle: &Bundle, rows: &[MatrixRow], table: &[TableRow], apart: impl Fn(usize, usize) -> bool) -> Vec<u64> {
    let mut keys = Vec::new();
    each_race(bundle, rows, table, apart, |key| keys.push(key));
    keys
}

/// Calls `found` with the key of each race. All pairs, but for those of one chunk, whose segments are ordered. `apart` says
/// whether locks held around regions keep two accesses apart; it is asked last before the bytes.
fn each_race(
    bundle: &Bundle,
    rows: &[MatrixRow],
    table: &[TableRow],
    apart: impl Fn(usize, usize) -> bool,
    mut found: impl FnMut(u64),
) {
    let mut next = 0;
    for chunk in &bundle.chunks {
        let (start, end) = (next, next + range_of(chunk.accesses).len());
        for first in start..end {
            let one = table[first];
            let segment = one[4] as usize % 512;
            let row = rows[segment];
            for (second, other) in (end..).zip(&table[end..]) {
                if other[0] > one[1] || other[1] < one[0] {
                    continue;
                }
                if (one[2] & other[2]) | (one[3] & other[3]) != 0 {
                    continue;
                }
                if (one[4] | other[4]) & WRITES == 0 || one[4] & other[4] & ATOMIC != 0 {
                    continue;
                }
                let to = other[4] as usize % 512;
                if bit(&row, to) || bit(&rows[to], segment) || apart(first, second) {
                    continue;
                }
                if let Some(overlap) = ranges::by_euclid(range_in(&one), range_in(other)) {
                    found(key_of(overlap.byte, first, second));
                }
            }
        }
        next = end;
    }
}

// Lineages: the locks held at the REGIONs above two accesses, up to the team where their lineages part.

/// Asks in a function of its own, so that the loop for bundles without such locks is compiled as if there were no climb.
#[inline(never)]
fn climbing<T>(ask: impl FnOnce() -> T) -> T {
    ask()
}

/// By numbers of REGIONs in the order of their teams: for each access the REGION that forks its team, and the REGIONs.
struct Lineages {
    forked: Vec<u16>,
    regions: Vec<Region>,
}

/// Of a REGION the team that it stands in, the REGION that forks this team, and the locks held.
struct Region {
    by_team: u16,
    above: u16,
    locks: u64,
}

/// Of an access on its way up: a team, the REGION that forks it, and the locks counted so far.
struct Climber {
    team: u16,
    above: u16,
    locks: u64,
}

impl Lineages {
    /// None where no REGION is met with a lock held: then the accesses' own locks decide.
    fn of(bundle: &Bundle, table: &[TableRow]) -> Option<Lineages> {
        if bundle.held.is_empty() {
            return None;
        }
        // Team 0 has no REGION; the number past the last stands for it.
        let forking = |team: u16| bundle.forks.partition_point(|fork| fork.team < team);
        let region_of = |team: u16| if team == 0 { bundle.forks.len() } else { forking(team) } as u16;
        let region = |fork: &Fork| Region { by_team: fork.by_team, above: region_of(fork.by_team), locks: 0 };
        let mut regions: Vec<Region> = bundle.forks.iter().map(region).collect();
        for &(team, locks) in &bundle.held {
            regions[forking(team)].locks = locks;
        }
        Some(Lineages { forked: table.iter().map(|row| region_of((row[7] >> 16) as u16)).collect(), regions })
    }

    /// Whether two accesses without a path between them have a lock in common: their own, and those held at the REGIONs
    /// that lead down to them from the team where they part. A team's number is above that of the team that forks it.
    fn keep_apart(&self, table: &[TableRow], first: usize, second: usize) -> bool {
        let (mut one, mut other) = (self.start(table, first), self.start(table, second));
        while one.team != other.team {
            let lower = if one.team > other.team { &mut one } else { &mut other };
            let region = &self.regions[lower.above as usize];
            *lower = Climber { team: region.by_team, above: region.above, locks: lower.locks | region.locks };
        }
        one.locks & other.locks != 0
    }

    fn start(&self, table: &[TableRow], access: usize) -> Climber {
        let row = &table[access];
        let locks = row[2] as u64 | (row[3] as u64) << 32;
        Climber { team: (row[7] >> 16) as u16, above: self.forked[access], locks }
    }
}
