//! The ends of random call files: most run through, some end in an entry that cannot be read, a few are too long.

use crate::calls::Call;
use crate::random::Random;

/// A file above this many octets is not read at all.
pub const LARGEST_FILE: usize = 262_144;

fn ill_sized(random: &mut Random) -> Vec<u8> {
    let (kind, right, open) = random.pick(&[
        (32, 91, false),
        (33, 16, false),
        (34, 51, true),
        (35, 15, false),
        (40, 76, false),
        (41, 19, true),
        (42, 56, true),
        (43, 16, false),
        (54, 2, true),
    ]);
    let length =
        if open || random.chance(1, 2) { right - random.pick(&[1, 1, 2]) } else { right + random.pick(&[1, 1, 2]) };
    let mut entry = (length as u16 + 4).to_le_bytes().to_vec();
    entry.extend([kind, 0]);
    entry.resize(length + 4, 0);
    entry
}

fn slot_above_3(random: &mut Random) -> Vec<u8> {
    let (kind, body) = random.pick(&[(41, 22), (42, 80), (43, 16)]);
    let mut entry = (body as u16 + 4).to_le_bytes().to_vec();
    entry.extend([kind, 0]);
    entry.resize(body + 4, 0);
    entry[4 + 15] = random.pick(&[4, 4, 5, 255]);
    entry
}

fn bad_entry(random: &mut Random) -> Vec<u8> {
    match random.below(7) {
        0 => vec![random.pick(&[0, 4, 35]); random.between(1, 3)],
        1 => {
            // The length runs past the file, by one octet at least.
            let mut entry = Call::Table(vec![0; random.below(40)]).encode();
            entry.pop();
            if random.chance(1, 4) && entry.len() > 3 {
                entry[2] = random.pick(&[99, 35, 43]);
            }
            entry
        }
        2 => vec![random.pick(&[0, 1, 2, 3]), 0, random.pick(&[31, 35, 54, 99]), 0],
        3 | 4 => {
            // With a body that a kind close by would have.
            let body = random.pick(&[0, 2, 15, 15, 16, 19, 51, 56, 76, 76, 91]);
            let kind: u16 = random.pick(&[0, 1, 30, 36, 36, 39, 39, 44, 44, 53, 55, 31 << 8, 256 + 31, 65535]);
            let mut entry = Call::Table(vec![0; body]).encode();
            entry[2..4].copy_from_slice(&kind.to_le_bytes());
            entry
        }
        5 => ill_sized(random),
        _ => slot_above_3(random),
    }
}

/// Fills the file to `size` octets with tables that are too large to be good.
fn fill(file: &mut Vec<u8>, size: usize) {
    while file.len() < size {
        let left = size - file.len();
        let entry = left.min(60_000);
        // No end of 1 to 3 octets may be left over.
        let entry = if (1..4).contains(&(left - entry)) { entry - 4 } else { entry };
        if entry < 4 {
            file.resize(size, 0);
        } else {
            file.extend(Call::Table(vec![0; entry - 4]).encode());
        }
    }
}

/// Gives the file its end.
pub fn finish(random: &mut Random, file: &mut Vec<u8>) {
    match random.below(400) {
        0 => fill(file, LARGEST_FILE),
        1 => fill(file, LARGEST_FILE + 1),
        2 | 3 => fill(file, LARGEST_FILE + random.between(1, 70_000)),
        4..=80 => {
            let entry = bad_entry(random);
            file.extend(entry);
            if random.chance(1, 3) {
                let more = random.below(30);
                file.extend(random.octets(more));
            }
        }
        81..=84 => file.truncate(random.below(file.len() + 1)),
        _ => {}
    }
}
