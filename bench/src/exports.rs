//! The proved functions, by the Rust wrapper in bindings/rust, with the types of the plain Rust code.

use crate::judge::{Judgement, Name, Race};
use crate::label::Triple;
use crate::ranges::SharedByte;
use crate::reader::Refusal;

/// As it is exported, so that a call costs as much as one of those that it is compared with.
pub const LOWEST_SHARED_BYTE: SharedByte = dezhakom::ffi::dezhakom_lowest_shared_byte;

fn refusal_of(refusal: dezhakom::Refusal) -> Refusal {
    Refusal { number: refusal.cause.number(), place: refusal.place }
}

pub fn check(bytes: &[u8]) -> Result<(), Refusal> {
    dezhakom::check(bytes).map_err(refusal_of)
}

/// The triples of a label.
pub fn label(bytes: &[u8], team: u16, member: u8, segment: u32) -> Result<Vec<Triple>, Refusal> {
    let label = dezhakom::label_of_segment(bytes, team, member, segment).map_err(refusal_of)?;
    let past = &label.triples[label.triples().len()..];
    assert!(past.iter().all(|&triple| triple == dezhakom::Triple::default()), "triples past the label");
    Ok(label.triples().iter().map(|triple| [triple.offset, triple.span, triple.interval]).collect())
}

fn name_of(name: dezhakom::Name) -> Name {
    Name { team: name.team, member: name.member, number: name.number }
}

fn race_of(race: dezhakom::Race) -> Race {
    Race {
        witness: race.witness,
        first: name_of(race.first),
        first_site: race.first_site,
        first_element: race.first_element,
        second: name_of(race.second),
        second_site: race.second_site,
        second_element: race.second_element,
    }
}

pub fn judge(bytes: &[u8], work: &mut [u32]) -> Result<Judgement, Refusal> {
    let judgement = dezhakom::judge(bytes, work).map_err(refusal_of)?;
    let dezhakom::Counts { chunks, segments, accesses, races } = judgement.counts;
    Ok(Judgement { chunks, segments, accesses, races, least: judgement.least.map(race_of) })
}

pub fn next_race(
    bytes: &[u8],
    (witness, first, second): (u32, Name, Name),
    work: &mut [u32],
) -> Result<Option<Race>, Refusal> {
    let [first, second] =
        [first, second].map(|name| dezhakom::Name { team: name.team, member: name.member, number: name.number });
    Ok(dezhakom::next_race(bytes, (witness, first, second), work).map_err(refusal_of)?.map(race_of))
}

/// All races in order.
pub fn list(bytes: &[u8], work: &mut [u32]) -> Result<Vec<Race>, Refusal> {
    Ok(dezhakom::Listing::of(bytes, work).map_err(refusal_of)?.races().map(race_of).collect())
}
