//! Answers the stored frames of crates/vectors through the safe functions, and compares with the second reader's answers.

use dezhakom::*;
use std::path::Path;

fn stored(name: &str) -> Vec<u8> {
    let path = Path::new(env!("CARGO_MANIFEST_DIR")).join("../../crates/vectors").join(name);
    std::fs::read(&path).unwrap_or_else(|error| panic!("{}: {error}", path.display()))
}

/// The operations of frames that are not for the library: REWRITE, TO_WIDE, TO_NARROW, ROWS, CHECK ROWS.
const NOT_IN_LIBRARY: std::ops::RangeInclusive<u64> = 12..=16;

/// Takes fields off the front of a frame's body.
struct Body<'a>(&'a [u8]);

impl<'a> Body<'a> {
    fn take(&mut self, length: usize) -> &'a [u8] {
        let (front, rest) = self.0.split_at(length);
        self.0 = rest;
        front
    }

    fn number(&mut self, width: usize) -> u64 {
        self.take(width).iter().rev().fold(0, |number, &byte| number << 8 | byte as u64)
    }

    fn range(&mut self) -> Range {
        Range {
            base: self.number(4) as u32,
            stride: self.number(2) as u16,
            count: self.number(2) as u16,
            size: self.number(1) as u8,
        }
    }

    fn label(&mut self) -> Label {
        let mut label = Label { count: self.number(4) as u32, ..Label::default() };
        for triple in &mut label.triples {
            let [offset, span, interval] = [(); 3].map(|()| self.number(4) as u32);
            *triple = Triple { offset, span, interval };
        }
        label
    }

    fn name(&mut self) -> Name {
        Name { team: self.number(2) as u16, member: self.number(1) as u8, number: self.number(2) as u16 }
    }

    /// The command of a record, which may be out of range. A site has 4 bytes in either group.
    fn command(&mut self) -> Command {
        let mut record = Body(self.take(14));
        match record.number(1) {
            0x01 => Command::Member { team: record.number(2) as u16, member: record.number(1) as u8 },
            0x02 => Command::End,
            0x03 => Command::Cut,
            0x10 => Command::Region { team: record.number(2) as u16, size: record.number(1) as u8 },
            0x11 => Command::Barrier,
            0x20 => Command::Acquire { lock: record.number(1) as u8 },
            0x21 => Command::Release { lock: record.number(1) as u8 },
            byte => {
                use AccessKind::*;
                let (kind, wide) = ([Read, Write, AtomicRead, AtomicWrite][byte as usize % 8], byte >= 0x38);
                Command::Access { kind, wide, site: record.number(4) as u32, range: record.range() }
            }
        }
    }
}

fn hex(bytes: &[u8]) -> String {
    bytes.iter().map(|byte| format!("{byte:02x}")).collect()
}

fn refusal_text(refusal: Refusal) -> String {
    refusal.to_string().split(':').next().unwrap().to_string()
}

fn command_text(command: Command) -> String {
    match command {
        Command::Member { team, member } => format!("member {team} {member}"),
        Command::End => "end".to_string(),
        Command::Cut => "cut".to_string(),
        Command::Region { team, size } => format!("region {team} {size}"),
        Command::Barrier => "barrier".to_string(),
        Command::Acquire { lock } => format!("acquire {lock}"),
        Command::Release { lock } => format!("release {lock}"),
        Command::Access { kind, wide, site, range: Range { base, stride, count, size } } => {
            let kind = match kind {
                AccessKind::Read => "read",
                AccessKind::Write => "write",
                AccessKind::AtomicRead => "atomic-read",
                AccessKind::AtomicWrite => "atomic-write",
            };
            format!("{}{kind} {site} {base} {stride} {count} {size}", if wide { "wide-" } else { "" })
        }
    }
}

/// The vectors have the witness in decimal, and the elements.
fn race_text(race: Race) -> String {
    let Race { witness, first, first_site, first_element, second, second_site, second_element, .. } = race;
    format!("race {witness} {first} {first_site} {second} {second_site} elements {first_element} {second_element}")
}

fn overlap_text(overlap: Overlap) -> String {
    let Overlap { byte, first_element, second_element } = overlap;
    format!("byte {byte} elements {first_element} {second_element}")
}

fn label_text(label: Label) -> String {
    let triples = label.triples().iter().map(|t| format!(" {} {} {}", t.offset, t.span, t.interval));
    format!("label{}", triples.collect::<String>())
}

fn judgement_text(judgement: Judgement) -> String {
    let Counts { chunks, segments, accesses, races } = judgement.counts;
    let verdict = judgement.least.map_or("race-free".to_string(), race_text);
    format!("chunks {chunks} segments {segments} accesses {accesses} races {races} {verdict}")
}

fn put_text(mut body: Body) -> String {
    let position = body.number(8) as usize;
    let command = body.command();
    let mut buffer = body.0.to_vec();
    let text = match put_command(&command, &mut buffer, position) {
        Ok(next) => format!("put {next}"),
        Err(refusal) => refusal_text(refusal),
    };
    format!("{text} {}", hex(&buffer))
}

/// The answer over a work area, and what the area holds afterwards. The listing of the same bundle must agree.
fn over_area(mut body: Body, ask: fn(&mut Body, &mut [u32]) -> Result<String, Refusal>) -> String {
    let (words, filler) = (body.number(4) as usize, body.number(4) as u32);
    let mut area = vec![filler; words];
    let text = ask(&mut body, &mut area).unwrap_or_else(refusal_text);
    let state = if area.iter().all(|&word| word == 0) {
        "zero"
    } else if area.iter().all(|&word| word == filler) {
        "kept"
    } else {
        "changed"
    };
    format!("{text} area {state}")
}

fn judge_text(body: &mut Body, area: &mut [u32]) -> Result<String, Refusal> {
    let judgement = judge(body.0, area);
    let listing = Listing::of(body.0, area);
    assert_eq!(judgement.map(|j| j.counts), listing.as_ref().map(|l| l.counts()).map_err(|&refusal| refusal));
    assert_eq!(judgement.ok().and_then(|j| j.least), listing.ok().and_then(|l| l.races().next()));
    judgement.map(judgement_text)
}

fn next_text(body: &mut Body, area: &mut [u32]) -> Result<String, Refusal> {
    let key = (body.number(4) as u32, body.name(), body.name());
    Ok(next_race(body.0, key, area)?.map_or("none".to_string(), race_text))
}

fn answer(operation: u64, mut body: Body) -> Result<String, Refusal> {
    Ok(match operation {
        1 => {
            let position = body.number(8) as usize;
            let (command, next) = read_command(body.0, position)?;
            format!("{} next {next}", command_text(command))
        }
        2 => put_text(body),
        3 => check(body.0).map(|()| "accepted".to_string())?,
        4 => {
            let (team, member) = (body.number(2) as u16, body.number(1) as u8);
            format!("chunk {}", hex(find_chunk(body.0, team, member)?))
        }
        5 => {
            let (team, member, segment) = (body.number(2) as u16, body.number(1) as u8, body.number(4) as u32);
            label_text(label_of_segment(body.0, team, member, segment)?)
        }
        6 => match compare_labels(&body.label(), &body.label())? {
            Order::Same => "same",
            Order::Before => "before",
            Order::After => "after",
            Order::Concurrent => "concurrent",
        }
        .to_string(),
        7 => lowest_shared_byte(body.range(), body.range())?.map_or("none".to_string(), overlap_text),
        8 => over_area(body, judge_text),
        9 => over_area(body, next_text),
        _ => panic!("operation {operation}"),
    })
}

#[test]
fn stored_frames() {
    let (frames, wanted) = (stored("stdin"), String::from_utf8(stored("stdout")).unwrap());
    let mut frames = Body(&frames);
    let mut count = 0;
    for wanted in wanted.lines() {
        let (operation, length) = (frames.number(1), frames.number(4) as usize);
        let body = frames.take(length);
        if NOT_IN_LIBRARY.contains(&operation) {
            continue;
        }
        let given = answer(operation, Body(body)).unwrap_or_else(refusal_text);
        assert_eq!(given, wanted, "operation {operation}, frame {count}");
        count += 1;
    }
    assert!(frames.0.is_empty() && count > 10_000);
}

/// The races of a listing are those that next race walks through.
#[test]
fn listings_are_walks() {
    let (frames, mut walked) = (stored("stdin"), 0);
    let mut frames = Body(&frames);
    let mut work = vec![0; WORK_WORDS];
    while !frames.0.is_empty() {
        let (operation, length) = (frames.number(1), frames.number(4) as usize);
        let bytes = &frames.take(length);
        if operation != 8 {
            continue;
        }
        let bytes = &bytes[8..];
        let Ok(listing) = Listing::of(bytes, &mut work) else { continue };
        if listing.len() > 200 {
            continue;
        }
        let mut key = (0, Name::default(), Name::default());
        for race in &listing {
            assert_eq!(next_race(bytes, key, &mut work), Ok(Some(race)));
            key = race.key();
            walked += 1;
        }
        assert_eq!(next_race(bytes, key, &mut work), Ok(None));
        assert!(listing.races().rev().eq(listing.races().collect::<Vec<_>>().into_iter().rev()));
    }
    assert!(walked > 100);
}
