//! Damage to the bytes of a trace, and random bytes.

use super::{Random, KINDS};

/// A bound of small numbers, the kinds among them.
const SMALL: usize = KINDS as usize + 1;

/// Damages a trace once or twice. No bytes stay none or become a few.
pub fn damage(bytes: &mut Vec<u8>, random: &Random) {
    (0..=random.below(2)).for_each(|_| damage_once(bytes, random));
}

fn damage_once(bytes: &mut Vec<u8>, random: &Random) {
    let (start, size) = some_record(bytes, random);
    let place = random.below(bytes.len().max(1));
    match random.below(11) {
        0 => bytes.truncate(place),
        1 => (0..=random.below(12)).for_each(|_| bytes.push(random.below(256) as u8)),
        2 if !bytes.is_empty() => bytes[place] ^= 1 << random.below(8),
        3 if !bytes.is_empty() => bytes[place] = random.below(SMALL) as u8,
        4 if !bytes.is_empty() => drop(bytes.remove(place)),
        5 => bytes.insert(place, random.below(SMALL) as u8),
        6 if size > 0 => drop(bytes.drain(start..start + size)),
        7 if size > 0 => {
            let copy = bytes[start..start + size].to_vec();
            let (at, _) = some_record(bytes, random);
            bytes.splice(at..at, copy);
        }
        8 if size > 0 => bytes[start] = random.pick(&[0, 1, 2, 3, 4, 6, 8, 9, 10, 255]),
        9 if size > 4 => bytes[start + 4] = random.below(SMALL) as u8,
        10 if size > 0 => bytes[start..start + 4].fill(random.pick(&[0, 255])),
        _ => bytes.push(0),
    }
}

/// The position and the size of some record of those that can be framed; size 0 if there is none.
fn some_record(bytes: &[u8], random: &Random) -> (usize, usize) {
    let mut chosen = (0, 0);
    let (mut at, mut seen) = (0, 0);
    while let Some(&[low, high]) = bytes.get(at..).and_then(|rest| rest.first_chunk()) {
        let size = 2 + usize::from(u16::from_le_bytes([low, high]));
        if size < 4 || bytes.len() - at < size {
            break;
        }
        seen += 1;
        if random.once_in(seen) {
            chosen = (at, size);
        }
        at += size;
    }
    chosen
}

/// A few bytes or none, either of any values or of small ones, or a great many of one value.
pub fn random_bytes(bytes: &mut Vec<u8>, random: &Random) {
    bytes.clear();
    if random.once_in(50) {
        bytes.resize(random.below(70_000), random.pick(&[0, 1, 2, 9, 255]));
        return;
    }
    let bound = random.pick(&[256, SMALL, 3]);
    let count = random.below(48);
    (0..count).for_each(|_| bytes.push(random.below(bound) as u8));
}
