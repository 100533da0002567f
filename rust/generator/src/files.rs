//! Files that need not be tables: damaged ones and random bytes.

use crate::random::Random;

/// The same file with one to three of its bytes changed.
pub fn damaged(random: &mut Random, file: &[u8]) -> Vec<u8> {
    let mut bytes = file.to_vec();
    for _ in 0..random.between(1, 3) {
        let at = random.index(bytes.len());
        // A small change is likelier to stay in range than a random byte.
        let change =
            if random.chance(1, 2) { random.between(1, 3) } else { random.between(1, 255) };
        bytes[at] = bytes[at].wrapping_add(change as u8);
    }
    bytes
}

/// Random bytes of a random length from 0 to a little above 4,096; half of the lengths are whole
/// records.
pub fn random_bytes(random: &mut Random) -> Vec<u8> {
    let whole = random.chance(1, 2);
    let length = if whole { random.between(0, 257) * 16 } else { random.between(0, 4200) };
    (0..length).map(|_| random.byte()).collect()
}

/// Whole records whose kinds and indices are likely ones and whose other bytes are mostly zero, so
/// that the reader goes further than it does on random bytes.
pub fn random_records(random: &mut Random) -> Vec<u8> {
    let count = random.between(1, 40) as usize;
    let mut file = Vec::new();
    for record in 0..count {
        let mut bytes = [0; 16];
        bytes[0] = if record == 0 { 1 } else { random.between(2, 4) as u8 };
        let near = ((record + 1) % count) as u8;
        let likely = [0, near, random.index(count) as u8];
        bytes[1] = if record == 0 { 0 } else { likely[random.index(3)] };
        bytes[2] = if bytes[0] < 3 { near } else { random.between(0, 11) as u8 };
        bytes[4] = random.between(0, 2) as u8;
        bytes[8] = if bytes[0] == 2 { random.between(1, 9) as u8 } else { 0 };
        file.extend(bytes);
    }
    file
}
