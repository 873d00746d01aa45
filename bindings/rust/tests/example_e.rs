//! Document 01's example E, written and judged; its values are those of the paper.

use dezhakom::*;

fn word(kind: AccessKind, site: u32, base: u32, stride: u16, count: u16) -> Command {
    Command::Access { kind, wide: false, site, range: Range { base, stride, count, size: 4 } }
}

const E: &str = "010000001001000202\
                 0101000031 0a00 00100000 0800 0200 04 1102\
                 0101000130 1400 0a100000 0000 0100 04 1102";

fn e_bytes() -> Vec<u8> {
    let digits: String = E.split_whitespace().collect();
    (0..digits.len()).step_by(2).map(|at| u8::from_str_radix(&digits[at..at + 2], 16).unwrap()).collect()
}

fn e_commands() -> Vec<Command> {
    use Command::*;
    vec![
        Member { team: 0, member: 0 },
        Region { team: 1, size: 2 },
        End,
        Member { team: 1, member: 0 },
        word(AccessKind::Write, 10, 4096, 8, 2),
        Barrier,
        End,
        Member { team: 1, member: 1 },
        word(AccessKind::Read, 20, 4106, 0, 1),
        Barrier,
        End,
    ]
}

fn written(commands: &[Command]) -> Vec<u8> {
    let mut log = Vec::new();
    for command in commands {
        push_command(&mut log, command).unwrap();
    }
    log
}

#[test]
fn writing_and_reading() {
    assert_eq!(written(&e_commands()), e_bytes());
    let read: Result<Vec<_>, _> = commands(&e_bytes()).map(|item| item.map(|(_, command)| command)).collect();
    assert_eq!(read, Ok(e_commands()));
    let torn = e_bytes();
    let last = commands(&torn[..40]).last().unwrap();
    assert_eq!(last, Err(Refusal { cause: Cause::OperandsCutOff, place: 31 }));
    assert_eq!(commands(&torn[..40]).count(), 9);
}

#[test]
fn a_race() {
    let mut work = vec![7; WORK_WORDS];
    let bytes = e_bytes();
    let judgement = judge(&bytes, &mut work).unwrap();
    assert_eq!(judgement.counts, Counts { chunks: 3, segments: 6, accesses: 2, races: 1 });
    let least = judgement.least.unwrap();
    assert_eq!(least.to_string(), "race 0000100a 1.0.0 10 1.1.0 20");
    assert_eq!((least.first_element, least.second_element), (1, 0));
    assert!(work.iter().all(|&word| word == 0));
    let listing = Listing::of(&bytes, &mut work).unwrap();
    assert_eq!((listing.len(), listing.is_empty()), (1, false));
    assert_eq!(listing.races().next(), judgement.least);
    assert_eq!(next_race(&bytes, least.key(), &mut work), Ok(None));
}

#[test]
fn race_free_behind_the_barrier() {
    let mut commands = e_commands();
    commands.swap(8, 9);
    let bytes = written(&commands);
    let judgement = judge(&bytes, &mut vec![0; WORK_WORDS]).unwrap();
    assert_eq!((judgement.counts.races, judgement.least), (0, None));
    assert!(Listing::of(&bytes, &mut vec![0; WORK_WORDS]).unwrap().is_empty());
}

/// Member 1 is stopped before its barrier, with a lock held: its read races with the write, and comes before what is behind the barrier.
#[test]
fn a_stopped_run() {
    let mut commands = e_commands();
    commands.insert(6, word(AccessKind::Write, 11, 4106, 0, 1));
    commands.truncate(10);
    commands.extend([Command::Acquire { lock: 3 }, Command::Cut]);
    let bytes = written(&commands);
    let read: Result<Vec<_>, _> = dezhakom::commands(&bytes).map(|item| item.map(|(_, command)| command)).collect();
    assert_eq!(read, Ok(commands.clone()));
    let judgement = judge(&bytes, &mut vec![0; WORK_WORDS]).unwrap();
    assert_eq!(judgement.counts, Counts { chunks: 3, segments: 5, accesses: 3, races: 1 });
    assert_eq!(judgement.least.unwrap().to_string(), "race 0000100a 1.0.0 10 1.1.0 20");
    assert_eq!(find_chunk(&bytes, 1, 1).unwrap().last(), Some(&0x03));
    // A cut chunk that passed a barrier more than the complete member of its team.
    commands.splice(10.., [Command::Barrier, Command::Barrier, Command::Cut]);
    let ahead = check(&written(&commands)).unwrap_err();
    assert_eq!((ahead.cause, ahead.cause.number(), ahead.place), (Cause::CutAhead, 19, 39));
}

/// The command with a wide site, if it is an access.
fn widened(command: Command) -> Command {
    match command {
        Command::Access { kind, site, range, .. } => Command::Access { kind, wide: true, site: site + 70_000, range },
        other => other,
    }
}

#[test]
fn wide_sites() {
    let mut commands: Vec<Command> = e_commands().into_iter().map(widened).collect();
    let bytes = written(&commands);
    // MEMBER, then 0x39 with the site 70,010 in 4 bytes.
    assert_eq!(bytes[13..18], [0x39, 0x7a, 0x11, 0x01, 0x00]);
    assert_eq!(bytes.len(), e_bytes().len() + 2 * 2);
    let read: Result<Vec<_>, _> = dezhakom::commands(&bytes).map(|item| item.map(|(_, command)| command)).collect();
    assert_eq!(read, Ok(commands.clone()));
    let judgement = judge(&bytes, &mut vec![0; WORK_WORDS]).unwrap();
    assert_eq!(judgement.least.unwrap().to_string(), "race 0000100a 1.0.0 70010 1.1.0 70020");
    let listing = Listing::of(&bytes, &mut vec![0; WORK_WORDS]).unwrap();
    assert_eq!(listing.races().next(), judgement.least);
    for site in [0, MOST_SITE, u32::MAX] {
        let access = Command::Access { kind: AccessKind::AtomicWrite, wide: true, site, range: Range::one(0, 1) };
        assert_eq!(read_command(&written(&[access]), 0), Ok((access, 14)));
    }
    // The read is narrow, and the write before it wide.
    commands[8] = e_commands()[8];
    let other = check(&written(&commands)).unwrap_err();
    assert_eq!((other.cause, other.cause.number(), other.place), (Cause::OtherGroup, 20, 33));
}

#[test]
fn refusals() {
    let refused = |cause, place| Err(Refusal { cause, place });
    assert_eq!(check(&[]), refused(Cause::MissingChunk, 0));
    assert_eq!(check(&e_bytes()[..40]), refused(Cause::OperandsCutOff, 31));
    assert_eq!(check(&vec![0; MOST_BYTES + 1]), refused(Cause::BundleTooLong, 0));
    assert_eq!(find_chunk(&e_bytes(), 2, 0), Err(Refusal { cause: Cause::NoneSuch, place: 0 }));
    assert_eq!(judge(&e_bytes(), &mut [0; 16]).map(|_| ()), refused(Cause::WorkAreaTooSmall, 0));
    assert_eq!(Listing::of(&[], &mut vec![0; WORK_WORDS]).map(|_| ()), refused(Cause::MissingChunk, 0));
    let site = word(AccessKind::Read, MOST_SITE + 1, 0, 0, 1);
    assert_eq!(put_command(&site, &mut [0; COMMAND_BYTES], 0), Err(Refusal { cause: Cause::OutOfRange, place: 0 }));
    assert_eq!(push_command(&mut e_bytes(), &site), refused(Cause::OutOfRange, 45));
    let text = check(&[]).unwrap_err().to_string();
    assert_eq!(text, "refused 10 at 0: a member's chunk is missing");
}

#[test]
fn labels() {
    let bytes = e_bytes();
    let label = label_of_segment(&bytes, 1, 1, 1).unwrap();
    let triple = |offset, span, interval| Triple { offset, span, interval };
    assert_eq!(label.triples(), [triple(0, 1, 0), triple(1, 2, 1)]);
    let of = |member, segment| label_of_segment(&bytes, 1, member, segment).unwrap();
    assert_eq!(compare_labels(&of(0, 0), &of(1, 0)), Ok(Order::Concurrent));
    assert_eq!(compare_labels(&of(0, 0), &of(1, 1)), Ok(Order::Before));
    assert_eq!(compare_labels(&of(0, 1), &of(1, 0)), Ok(Order::After));
    assert_eq!(compare_labels(&of(0, 1), &of(0, 1)), Ok(Order::Same));
}

#[test]
fn ranges() {
    let of = |base, stride, count, size| Range { base, stride, count, size };
    let at = |byte, first_element, second_element| Ok(Some(Overlap { byte, first_element, second_element }));
    assert_eq!(lowest_shared_byte(of(0, 8, 4, 4), of(4, 8, 4, 4)), Ok(None));
    assert_eq!(lowest_shared_byte(of(0, 8, 4, 4), of(4, 0, 1, 8)), at(8, 1, 0));
    assert_eq!(lowest_shared_byte(of(4, 0, 1, 8), of(0, 8, 4, 4)), at(8, 0, 1));
    assert_eq!(lowest_shared_byte(of(0, 3, 3, 1), of(1, 2, 3, 1)), at(3, 1, 1));
    // Elements 2 to 7 of the first range cover byte 9.
    assert_eq!(lowest_shared_byte(of(0, 1, 8, 8), of(9, 0, 1, 1)), at(9, 2, 0));
    assert_eq!(lowest_shared_byte(of(0, 1, 65_535, 1), of(65_534, 0, 1, 8)), at(65_534, 65_534, 0));
    assert_eq!(lowest_shared_byte(Range::array(0, 3, 8), Range::one(u32::MAX, 1)), Ok(None));
    let refused = lowest_shared_byte(Range::one(0, 1), Range::one(u32::MAX, 2));
    assert_eq!(refused, Err(Refusal { cause: Cause::OutOfRange, place: 2 }));
}

/// Three loops over one array: the elements are the turns of the loops, and the order of races does not look at them.
#[test]
fn elements_of_a_listing() {
    use Command::*;
    let mut commands = vec![Member { team: 0, member: 0 }, Region { team: 1, size: 3 }, End];
    for (member, base, stride, count) in [(0, 1000, 4, 50), (1, 1100, 4, 50), (2, 1052, 12, 20)] {
        commands.push(Member { team: 1, member });
        commands.push(word(AccessKind::Write, member as u32, base, stride, count));
        commands.push(End);
    }
    let bytes = written(&commands);
    let mut work = vec![0; WORK_WORDS];
    let listing = Listing::of(&bytes, &mut work).unwrap();
    let found: Vec<_> = listing.races().map(|race| (race.witness, race.first_element, race.second_element)).collect();
    assert_eq!(found, [(1052, 13, 0), (1100, 25, 0), (1100, 0, 4)]);
    assert_eq!(listing.races().next(), judge(&bytes, &mut work).unwrap().least);
}

/// Some ten thousand races.
#[test]
fn a_long_listing() {
    use Command::*;
    let mut commands = vec![Member { team: 0, member: 0 }, Region { team: 1, size: 64 }, End];
    for member in 0..64 {
        commands.push(Member { team: 1, member });
        commands.extend([word(AccessKind::Write, 1, 64, 0, 1); 4]);
        commands.push(End);
    }
    let listing = Listing::of(&written(&commands), &mut vec![0; WORK_WORDS]).unwrap();
    assert_eq!(listing.len(), 64 * 63 / 2 * 16);
    let races: Vec<Race> = listing.races().collect();
    assert_eq!(races.len(), listing.len());
    assert!(races.windows(2).all(|pair| pair[0].key() < pair[1].key()));
    assert!(races.iter().all(|race| race.first.member < race.second.member && race.witness == 64));
    assert!(races.iter().all(|race| race.first_element == 0 && race.second_element == 0));
}
