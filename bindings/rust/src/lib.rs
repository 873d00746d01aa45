//! Dezhakom reads the logs of OpenMP runs ("bundles") and tells whether a run had a data race.
//!
//! A logger writes [`Command`]s by [`put_command`] or [`push_command`]; a tool reads, checks and judges bundles with the rest. The functions
//! are those of include/dezhakom.h, proved in Rattle: any bytes and numbers may be given, and a bad input is an `Err` with a [`Refusal`]. The
//! format and the words used here are in docs/FORMAT.md, what to log when in docs/LOGGING.md.
//!
//! ```
//! use dezhakom::{judge, WORK_WORDS};
//! let bundle = [0x01, 0, 0, 0, 0x02]; // the root's chunk, empty
//! let judgement = judge(&bundle, &mut [0; WORK_WORDS])?;
//! assert!(judgement.least.is_none());
//! # Ok::<(), dezhakom::Refusal>(())
//! ```

pub mod ffi;

use std::fmt;

/// Limits of a bundle.
pub const MOST_BYTES: usize = 65_536;
pub const MOST_SEGMENTS: usize = 512;
pub const MOST_ACCESSES: usize = 1_024;
/// The length of the longest command.
pub const COMMAND_BYTES: usize = 14;
/// The length of the shortest access.
const ACCESS_BYTES: usize = 12;
/// The highest site of a narrow access; a wide one takes any `u32`.
pub const MOST_SITE: u32 = 65_535;
/// The least length of a work area.
pub const WORK_WORDS: usize = 16_384;
/// The words of a listing's names, for each access.
const NAME_WORDS: usize = 2;

// ----------------------------------------------------------------- refusals

/// Why an input is refused. The number of each is its number in docs/FORMAT.md.
#[derive(Clone, Copy, Debug, PartialEq, Eq, Hash)]
#[non_exhaustive]
pub enum Cause {
    BundleTooLong = 1,
    UnknownCommand,
    OperandsCutOff,
    Misplaced,
    OutOfRange,
    LockMisused,
    TooManyEntries,
    ForkedBefore,
    StrayChunk,
    MissingChunk,
    TooDeep,
    BarrierCount,
    WorkAreaTooSmall,
    NoneSuch,
    BadLabel,
    UnequalSpans,
    DoesNotFit,
    PastEnd,
    CutAhead,
    OtherGroup,
    /// Where a bundle is converted to narrow accesses; no function of this crate does so.
    SiteTooLarge,
    /// Where interval rows are exported; no function of this crate does so.
    TooFewRecords,
    /// Where interval rows are checked; no function of this crate does so.
    WrongRecord,
}

impl Cause {
    const ALL: [Cause; 23] = [
        Cause::BundleTooLong,
        Cause::UnknownCommand,
        Cause::OperandsCutOff,
        Cause::Misplaced,
        Cause::OutOfRange,
        Cause::LockMisused,
        Cause::TooManyEntries,
        Cause::ForkedBefore,
        Cause::StrayChunk,
        Cause::MissingChunk,
        Cause::TooDeep,
        Cause::BarrierCount,
        Cause::WorkAreaTooSmall,
        Cause::NoneSuch,
        Cause::BadLabel,
        Cause::UnequalSpans,
        Cause::DoesNotFit,
        Cause::PastEnd,
        Cause::CutAhead,
        Cause::OtherGroup,
        Cause::SiteTooLarge,
        Cause::TooFewRecords,
        Cause::WrongRecord,
    ];

    /// 1 to 23.
    pub fn number(self) -> u32 {
        self as u32
    }

    fn of(number: u32) -> Cause {
        *Self::ALL.get((number as usize).wrapping_sub(1)).expect("a refusal from 1 to 23")
    }

    fn text(self) -> &'static str {
        match self {
            Cause::BundleTooLong => "the bundle has over 65,536 bytes",
            Cause::UnknownCommand => "unknown command byte",
            Cause::OperandsCutOff => "the bytes end inside a command",
            Cause::Misplaced => "not MEMBER outside a chunk, MEMBER inside one, or a chunk is not closed",
            Cause::OutOfRange => "an operand outside its range",
            Cause::LockMisused => "a held lock acquired, one not held released, or one held at END",
            Cause::TooManyEntries => "the 513th segment or the 1,025th access",
            Cause::ForkedBefore => "a team is forked twice",
            Cause::StrayChunk => "a chunk of no forked team, of a member not below its size, or a second one",
            Cause::MissingChunk => "a member's chunk is missing",
            Cause::TooDeep => "a team is nested over 4 deep",
            Cause::BarrierCount => "a complete member's barriers are not as many as the lowest-numbered complete one's",
            Cause::WorkAreaTooSmall => "the work area has under 16,384 words",
            Cause::NoneSuch => "no such member or segment",
            Cause::BadLabel => "a label that no segment can have",
            Cause::UnequalSpans => "the first triples that differ have unequal spans",
            Cause::DoesNotFit => "the command does not fit into the buffer",
            Cause::PastEnd => "the position is at or past the end",
            Cause::CutAhead => "a cut chunk has more barriers than a complete member of its team",
            Cause::OtherGroup => "an access is wide and the bundle's first narrow, or the other way round",
            Cause::SiteTooLarge => "a site over 65,535, which no narrow access has",
            Cause::TooFewRecords => "too few records are lent",
            Cause::WrongRecord => "a record is missing, extra or differing",
        }
    }
}

/// A refusal, and its place: mostly an offset in the bytes (docs/FORMAT.md).
#[derive(Clone, Copy, Debug, PartialEq, Eq, Hash)]
pub struct Refusal {
    pub cause: Cause,
    pub place: usize,
}

/// As racelist prints it, and what it means.
impl fmt::Display for Refusal {
    fn fmt(&self, out: &mut fmt::Formatter) -> fmt::Result {
        write!(out, "refused {} at {}: {}", self.cause.number(), self.place, self.cause.text())
    }
}

impl std::error::Error for Refusal {}

#[inline]
fn answer(refusal: u32, place: usize) -> Result<(), Refusal> {
    match refusal {
        0 => Ok(()),
        number => Err(Refusal { cause: Cause::of(number), place }),
    }
}

// ----------------------------------------------------------------- commands

/// The bytes base + k * stride + j, with k below count and j below size. The stride is 0 exactly where the count is 1, the size 1, 2, 4 or 8.
#[derive(Clone, Copy, Debug, PartialEq, Eq, Hash)]
pub struct Range {
    pub base: u32,
    pub stride: u16,
    pub count: u16,
    pub size: u8,
}

impl Range {
    /// One element.
    pub fn one(base: u32, size: u8) -> Range {
        Range { base, stride: 0, count: 1, size }
    }

    /// So many elements of a size, one behind the other.
    pub fn array(base: u32, count: u16, size: u8) -> Range {
        Range { base, stride: if count == 1 { 0 } else { size as u16 }, count, size }
    }
}

#[derive(Clone, Copy, Debug, PartialEq, Eq, Hash)]
pub enum AccessKind {
    Read = 0x30,
    Write,
    AtomicRead,
    AtomicWrite,
}

/// A command of a log.
#[derive(Clone, Copy, Debug, PartialEq, Eq, Hash)]
pub enum Command {
    /// Opens a chunk, the whole log of one member of a team.
    Member { team: u16, member: u8 },
    /// Closes the chunk.
    End,
    /// Closes the chunk of a member that was stopped; locks may be held.
    Cut,
    /// The member forks that team and waits for its join.
    Region { team: u16, size: u8 },
    /// A barrier of the member's own team.
    Barrier,
    Acquire { lock: u8 },
    Release { lock: u8 },
    /// The site is a number for the source line: at most [`MOST_SITE`], which takes 2 bytes, or, where the access is wide, any in 4
    /// bytes. All accesses of a bundle are narrow, or all are wide.
    Access { kind: AccessKind, wide: bool, site: u32, range: Range },
}

/// From the byte of a narrow access to that of the wide one.
const TO_WIDE: u32 = 8;

impl Command {
    fn record(&self) -> ffi::Command {
        let none = ffi::Command::default();
        match *self {
            Command::Member { team, member } => {
                ffi::Command { byte: 0x01, team: team.into(), member: member.into(), ..none }
            }
            Command::End => ffi::Command { byte: 0x02, ..none },
            Command::Cut => ffi::Command { byte: 0x03, ..none },
            Command::Region { team, size } => ffi::Command { byte: 0x10, team: team.into(), size: size.into(), ..none },
            Command::Barrier => ffi::Command { byte: 0x11, ..none },
            Command::Acquire { lock } => ffi::Command { byte: 0x20, lock: lock.into(), ..none },
            Command::Release { lock } => ffi::Command { byte: 0x21, lock: lock.into(), ..none },
            Command::Access { kind, wide, site, range } => ffi::Command {
                byte: kind as u32 + if wide { TO_WIDE } else { 0 },
                site,
                base: range.base,
                stride: range.stride.into(),
                count: range.count.into(),
                size: range.size.into(),
                ..none
            },
        }
    }

    /// The command of a record that was read: its fields have their operands' widths.
    fn of(record: &ffi::Command) -> Command {
        let (team, size, lock) = (record.team as u16, record.size as u8, record.lock as u8);
        let access = |kind, wide| Command::Access {
            kind,
            wide,
            site: record.site,
            range: Range { base: record.base, stride: record.stride as u16, count: record.count as u16, size },
        };
        match record.byte {
            0x01 => Command::Member { team, member: record.member as u8 },
            0x02 => Command::End,
            0x03 => Command::Cut,
            0x10 => Command::Region { team, size },
            0x11 => Command::Barrier,
            0x20 => Command::Acquire { lock },
            0x21 => Command::Release { lock },
            0x30 => access(AccessKind::Read, false),
            0x31 => access(AccessKind::Write, false),
            0x32 => access(AccessKind::AtomicRead, false),
            0x33 => access(AccessKind::AtomicWrite, false),
            0x38 => access(AccessKind::Read, true),
            0x39 => access(AccessKind::Write, true),
            0x3a => access(AccessKind::AtomicRead, true),
            0x3b => access(AccessKind::AtomicWrite, true),
            byte => unreachable!("command byte {byte:#x}"),
        }
    }
}

// The functions have no conditions: any slices and numbers may be passed, and the references are to records of the library's own form. So
// every `unsafe` below is sound by the types alone.

/// The command at a position, and the position after it. Refused with 18, 2, 3 or 5.
#[inline]
pub fn read_command(bytes: &[u8], position: usize) -> Result<(Command, usize), Refusal> {
    let (mut command, mut next, mut place) = Default::default();
    let refusal = unsafe {
        ffi::dezhakom_read_command(bytes.as_ptr(), bytes.len(), position, &mut command, &mut next, &mut place)
    };
    answer(refusal, place)?;
    Ok((Command::of(&command), next))
}

/// Writes a command at a position of a buffer, and answers the position after it. Refused with 5 or 17; the buffer then stays as it was.
#[inline]
pub fn put_command(command: &Command, buffer: &mut [u8], position: usize) -> Result<usize, Refusal> {
    let (mut next, mut place) = (0, 0);
    let refusal = unsafe {
        ffi::dezhakom_put_command(
            &command.record(),
            buffer.as_mut_ptr(),
            buffer.len(),
            position,
            &mut next,
            &mut place,
        )
    };
    answer(refusal, place)?;
    Ok(next)
}

/// Writes a command behind the bytes of a log. Refused with 5; the log then stays as it was.
pub fn push_command(log: &mut Vec<u8>, command: &Command) -> Result<(), Refusal> {
    let mut buffer = [0; COMMAND_BYTES];
    let length = put_command(command, &mut buffer, 0).map_err(|refusal| Refusal { place: log.len(), ..refusal })?;
    log.extend_from_slice(&buffer[..length]);
    Ok(())
}

/// The commands of a log from the front, each with its offset; a refusal is the last item.
pub fn commands(bytes: &[u8]) -> Commands<'_> {
    Commands { bytes, position: 0 }
}

/// See [`commands`].
#[derive(Clone, Debug)]
pub struct Commands<'a> {
    bytes: &'a [u8],
    position: usize,
}

impl Iterator for Commands<'_> {
    type Item = Result<(usize, Command), Refusal>;

    fn next(&mut self) -> Option<Self::Item> {
        let position = self.position;
        if position >= self.bytes.len() {
            return None;
        }
        let read = read_command(self.bytes, position);
        self.position = read.as_ref().map_or(self.bytes.len(), |&(_, next)| next);
        Some(read.map(|(command, _)| (position, command)))
    }
}

// ------------------------------------------------------------------ bundles

/// Whether the bytes are a bundle. Refused with 1 to 12, with 19 or with 20.
#[inline]
pub fn check(bytes: &[u8]) -> Result<(), Refusal> {
    let mut place = 0;
    let refusal = unsafe { ffi::dezhakom_check(bytes.as_ptr(), bytes.len(), &mut place) };
    answer(refusal, place)
}

/// The chunk of a member, from MEMBER to END or CUT. Refused as check, then with 14.
#[inline]
pub fn find_chunk(bytes: &[u8], team: u16, member: u8) -> Result<&[u8], Refusal> {
    let (mut start, mut end, mut place) = (0, 0, 0);
    let refusal = unsafe {
        ffi::dezhakom_find_chunk(bytes.as_ptr(), bytes.len(), team, member, &mut start, &mut end, &mut place)
    };
    answer(refusal, place)?;
    Ok(&bytes[start..end])
}

// ------------------------------------------------------------------- labels

/// A triple of a label.
#[repr(C)]
#[derive(Clone, Copy, Debug, Default, PartialEq, Eq, Hash)]
pub struct Triple {
    pub offset: u32,
    pub span: u32,
    pub interval: u32,
}

/// The label of a segment: 1 to 5 triples. Those past the count are not looked at.
#[repr(C)]
#[derive(Clone, Copy, Debug, Default)]
pub struct Label {
    pub count: u32,
    pub triples: [Triple; 5],
}

impl Label {
    /// The triples that count.
    pub fn triples(&self) -> &[Triple] {
        &self.triples[..self.triples.len().min(self.count as usize)]
    }
}

impl PartialEq for Label {
    fn eq(&self, other: &Label) -> bool {
        self.count == other.count && self.triples() == other.triples()
    }
}

impl Eq for Label {}

/// How a segment lies to another. `Concurrent` is not transitive, so there is no `Ord`: docs/SORTING.md has a key to sort by.
#[derive(Clone, Copy, Debug, PartialEq, Eq, Hash)]
pub enum Order {
    Same,
    Before,
    After,
    Concurrent,
}

/// The label of a member's segment, numbered from 0. Refused as check, then with 14.
#[inline]
pub fn label_of_segment(bytes: &[u8], team: u16, member: u8, segment: u32) -> Result<Label, Refusal> {
    let (mut label, mut place) = Default::default();
    let refusal = unsafe {
        ffi::dezhakom_label_of_segment(bytes.as_ptr(), bytes.len(), team, member, segment, &mut label, &mut place)
    };
    answer(refusal, place)?;
    Ok(label)
}

/// How the segment of the first label lies to that of the second, both of one bundle. Refused with 15 or 16.
#[inline]
pub fn compare_labels(first: &Label, second: &Label) -> Result<Order, Refusal> {
    let (mut order, mut place) = (0, 0);
    let refusal = unsafe { ffi::dezhakom_compare_labels(first, second, &mut order, &mut place) };
    answer(refusal, place)?;
    Ok(match order {
        0 => Order::Same,
        1 => Order::Before,
        2 => Order::After,
        3 => Order::Concurrent,
        number => unreachable!("order {number}"),
    })
}

/// The lowest byte that two ranges share, and the lowest element of each that covers it; elements are numbered from 0.
#[derive(Clone, Copy, Debug, PartialEq, Eq, Hash)]
pub struct Overlap {
    pub byte: u32,
    pub first_element: u16,
    pub second_element: u16,
}

/// The lowest byte that both ranges touch, if any, with its elements. Refused with 5 at 1 or 2, for the first range that no access can have.
#[inline]
pub fn lowest_shared_byte(first: Range, second: Range) -> Result<Option<Overlap>, Refusal> {
    let (mut found, mut byte, mut first_element, mut second_element, mut place) = (0, 0, 0, 0, 0);
    let refusal = unsafe {
        ffi::dezhakom_lowest_shared_byte(
            first.base,
            first.stride,
            first.count,
            first.size,
            second.base,
            second.stride,
            second.count,
            second.size,
            &mut found,
            &mut byte,
            &mut first_element,
            &mut second_element,
            &mut place,
        )
    };
    answer(refusal, place)?;
    let overlap = Overlap { byte, first_element: first_element as u16, second_element: second_element as u16 };
    Ok((found != 0).then_some(overlap))
}

// -------------------------------------------------------------------- races

/// The name of an access: its number counts the accesses of its member's chunk from 0.
#[derive(Clone, Copy, Debug, Default, PartialEq, Eq, PartialOrd, Ord, Hash)]
pub struct Name {
    pub team: u16,
    pub member: u8,
    pub number: u16,
}

/// As racelist prints it.
impl fmt::Display for Name {
    fn fmt(&self, out: &mut fmt::Formatter) -> fmt::Result {
        write!(out, "{}.{}.{}", self.team, self.member, self.number)
    }
}

/// Two accesses that race, the lower name first, and the lowest byte that both touch.
#[derive(Clone, Copy, Debug, PartialEq, Eq, Hash)]
#[non_exhaustive]
pub struct Race {
    pub witness: u32,
    pub first: Name,
    pub first_site: u32,
    /// The lowest element of the first access, numbered from 0, that covers the witness.
    pub first_element: u16,
    pub second: Name,
    pub second_site: u32,
    /// The same of the second access.
    pub second_element: u16,
}

impl Race {
    fn of(record: &ffi::Race) -> Race {
        let name = |access: &ffi::Access| Name {
            team: access.team as u16,
            member: access.member as u8,
            number: access.number as u16,
        };
        Race {
            witness: record.witness,
            first: name(&record.first),
            first_site: record.first.site,
            first_element: record.first.element as u16, // below the count, which has 16 bits
            second: name(&record.second),
            second_site: record.second.site,
            second_element: record.second.element as u16,
        }
    }

    /// What [`next_race`] takes to go on behind this race.
    pub fn key(&self) -> Key {
        (self.witness, self.first, self.second)
    }
}

/// The line of racelist, which does not have the elements.
impl fmt::Display for Race {
    fn fmt(&self, out: &mut fmt::Formatter) -> fmt::Result {
        let Race { witness, first, first_site, second, second_site, .. } = self;
        write!(out, "race {witness:08x} {first} {first_site} {second} {second_site}")
    }
}

/// A witness and two names, real or not.
pub type Key = (u32, Name, Name);

/// The counts of a bundle.
#[derive(Clone, Copy, Debug, PartialEq, Eq, Hash)]
pub struct Counts {
    pub chunks: u32,
    pub segments: u32,
    pub accesses: u32,
    pub races: u32,
}

/// The counts of a bundle, and its least race; without one it is race-free.
#[derive(Clone, Copy, Debug, PartialEq, Eq, Hash)]
pub struct Judgement {
    pub counts: Counts,
    pub least: Option<Race>,
}

/// Compares all pairs of accesses. The work area has [`WORK_WORDS`] words or more, and is 0 afterwards. Refused with 13, then as check.
#[inline]
pub fn judge(bytes: &[u8], work: &mut [u32]) -> Result<Judgement, Refusal> {
    let (mut judged, mut place) = (ffi::Judgement::default(), 0);
    let refusal = unsafe {
        ffi::dezhakom_judge(
            bytes.as_ptr(),
            bytes.len(),
            work.as_mut_ptr(),
            work.len(),
            &mut judged,
            &mut place,
        )
    };
    answer(refusal, place)?;
    let ffi::Judgement { chunks, segments, accesses, races, found, least } = judged;
    let counts = Counts { chunks, segments, accesses, races };
    Ok(Judgement { counts, least: (found != 0).then(|| Race::of(&least)) })
}

/// The least race above a key, if any. Refused as [`judge`].
#[inline]
pub fn next_race(bytes: &[u8], (witness, first, second): Key, work: &mut [u32]) -> Result<Option<Race>, Refusal> {
    let (mut found, mut race, mut place) = (0, ffi::Race::default(), 0);
    let refusal = unsafe {
        ffi::dezhakom_next_race(
            bytes.as_ptr(),
            bytes.len(),
            witness,
            first.team,
            first.member,
            first.number,
            second.team,
            second.member,
            second.number,
            work.as_mut_ptr(),
            work.len(),
            &mut found,
            &mut race,
            &mut place,
        )
    };
    answer(refusal, place)?;
    Ok((found != 0).then(|| Race::of(&race)))
}

/// All races of a bundle, in order, from one judgement.
#[derive(Clone, Debug)]
pub struct Listing {
    counts: Counts,
    names: Vec<u64>,
    numbers: Vec<u64>,
}

impl Listing {
    /// Lists the races of a bundle. Refused as [`judge`], with the same work area.
    pub fn of(bytes: &[u8], work: &mut [u32]) -> Result<Listing, Refusal> {
        // Room for all that a bundle of this length can have: an access has 12 bytes or 14. What is not used is not touched, but for the spare memory.
        let accesses = MOST_ACCESSES.min(bytes.len() / ACCESS_BYTES);
        let races = accesses * accesses.saturating_sub(1) / 2;
        let (mut names, mut numbers, mut spare) = (vec![0; NAME_WORDS * accesses], vec![0; races], vec![0; races / 2]);
        let (mut totals, mut place) = (ffi::Totals::default(), 0);
        let refusal = unsafe {
            ffi::dezhakom_list_races(
                bytes.as_ptr(),
                bytes.len(),
                work.as_mut_ptr(),
                work.len(),
                names.as_mut_ptr(),
                names.len(),
                numbers.as_mut_ptr(),
                numbers.len(),
                spare.as_mut_ptr(),
                spare.len(),
                &mut totals,
                &mut place,
            )
        };
        answer(refusal, place)?;
        let ffi::Totals { chunks, segments, accesses, races, whole } = totals;
        assert!(whole == 1, "there is room for all races");
        numbers.truncate(races as usize);
        numbers.shrink_to_fit();
        Ok(Listing { counts: Counts { chunks, segments, accesses, races }, names, numbers })
    }

    pub fn counts(&self) -> Counts {
        self.counts
    }

    /// How many races there are.
    pub fn len(&self) -> usize {
        self.numbers.len()
    }

    /// Whether the bundle is race-free.
    pub fn is_empty(&self) -> bool {
        self.numbers.is_empty()
    }

    /// The races in order.
    pub fn races(&self) -> Races<'_> {
        Races { names: &self.names, numbers: self.numbers.iter() }
    }
}

impl<'a> IntoIterator for &'a Listing {
    type Item = Race;
    type IntoIter = Races<'a>;

    fn into_iter(self) -> Races<'a> {
        self.races()
    }
}

/// The races of a [`Listing`].
#[derive(Clone, Debug)]
pub struct Races<'a> {
    names: &'a [u64],
    numbers: std::slice::Iter<'a, u64>,
}

impl Races<'_> {
    #[inline]
    fn read(&self, number: u64) -> Race {
        let mut race = ffi::Race::default();
        unsafe { ffi::dezhakom_race_in(self.names.as_ptr(), self.names.len(), number, &mut race) };
        Race::of(&race)
    }
}

impl Iterator for Races<'_> {
    type Item = Race;

    #[inline]
    fn next(&mut self) -> Option<Race> {
        let number = *self.numbers.next()?;
        Some(self.read(number))
    }

    #[inline]
    fn size_hint(&self) -> (usize, Option<usize>) {
        self.numbers.size_hint()
    }
}

impl DoubleEndedIterator for Races<'_> {
    fn next_back(&mut self) -> Option<Race> {
        let number = *self.numbers.next_back()?;
        Some(self.read(number))
    }
}

impl ExactSizeIterator for Races<'_> {}
