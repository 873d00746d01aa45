//! The label of a segment, written from the scope paper.

use crate::reader::{self, Chunk, Fork, Refusal, refuse};

/// Offset, span and interval.
pub type Triple = [u32; 3];

/// As check, then 14, else the label.
pub fn label(bytes: &[u8], team: u16, member: u8, segment: u32) -> Result<Vec<Triple>, Refusal> {
    let (chunks, forks) = reader::read(bytes, &mut ())?;
    let Some(chunk) = chunks.iter().find(|chunk| (chunk.team, chunk.member) == (team, member)) else {
        return refuse(14, 0);
    };
    let (first, past) = chunk.segments;
    if segment >= (past - first) as u32 {
        return refuse(14, 0);
    }
    Ok(climb(&chunks, &forks, chunk, first + segment as u16))
}

/// The label of a chunk's segment, by the segment's number among all.
fn climb(chunks: &[Chunk], forks: &[Fork], chunk: &Chunk, segment: u16) -> Vec<Triple> {
    let (mut label, mut size) = (vec![], 1);
    if chunk.team != 0 {
        let fork = forks.binary_search_by_key(&chunk.team, |fork| fork.team).map(|i| &forks[i]).expect("a forked team");
        // The segment that forked the team is the one before that which the REGION opens.
        let at = fork.segment - 1;
        let by = chunks.iter().find(|by| by.segments.0 <= at && at < by.segments.1).expect("the segment's chunk");
        label = climb(chunks, forks, by, at);
        size = fork.size as u32;
    }
    let first = chunk.segments.0;
    let regions = forks.iter().filter(|fork| first < fork.segment && fork.segment <= segment).count() as u32;
    let barriers = (segment - first) as u32 - regions;
    label.push([chunk.member as u32 + size * regions, size, barriers]);
    label
}
