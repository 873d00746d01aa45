//! A bundle of typical size.

use crate::bundles;
use crate::generate::Random;

/// A team of 4 that passes 5 barriers and works on two arrays in turn: in each interval a member writes its part of one,
/// reads a neighbour's part of the other, and adds to a sum under a lock; in one interval two members do so without the
/// lock. 100 accesses, 15 races.
pub fn typical(random: &mut Random) -> Vec<u8> {
    let mut root = bundles::member(0, 0);
    root.extend(access(0x31, 1, 0x1000, 8, 64, 8));
    root.extend(bundles::region(1, 4));
    root.extend(access(0x30, 2, 0x1000, 8, 64, 8));
    root.extend(access(0x30, 3, 0x9000, 0, 1, 8));
    let mut chunks = vec![root];
    for member in 0..4u8 {
        let mut chunk = bundles::member(1, member);
        for interval in 0..6u32 {
            if interval > 0 {
                chunk.push(0x11);
            }
            let half = 0x2000 * (interval % 2 + 1);
            let other = 0x6000 - half;
            let part = |number: u8| 128 * number as u32;
            chunk.extend(access(0x31, 10, half + part(member), 8, 16, 8));
            chunk.extend(access(0x30, 11, other + part((member + 1) % 4), 8, 16, 8));
            let sum = [access(0x30, 12, 0x9000, 0, 1, 8), access(0x31, 13, 0x9000, 0, 1, 8)].concat();
            let locked = !(interval == 3 && member < 2);
            chunk.extend(if locked { [&[0x20, 5][..], &sum, &[0x21, 5]].concat() } else { sum });
        }
        if member == 3 {
            chunk.extend(access(0x32, 14, 0x9100, 0, 1, 4));
        }
        chunks.push(chunk);
    }
    chunks.iter_mut().for_each(bundles::end);
    bundles::shuffled(chunks, random)
}

fn access(code: u8, site: u16, base: u32, stride: u16, count: u16, size: u8) -> Vec<u8> {
    let mut bytes = vec![code];
    bytes.extend(site.to_le_bytes());
    bytes.extend(base.to_le_bytes());
    bytes.extend(stride.to_le_bytes());
    bytes.extend(count.to_le_bytes());
    bytes.push(size);
    bytes
}
