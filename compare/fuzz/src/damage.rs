//! Damages numbers, rows and bytes.

use calls::Draw;

/// Numbers at the ends of codes and types.
const ENDS: [u64; 24] =
    [0, 1, 2, 3, 4, 5, 6, 7, 8, 9, 10, 11, 15, 16, 63, 64, 255, 256, 65_535, 65_536, u32::MAX as u64, 1 << 32, 1 << 63, u64::MAX];

pub fn number(draw: &mut Draw) -> u64 {
    match draw.below(4) {
        0 => draw.bits(),
        1 => draw.below(300),
        _ => draw.pick(&ENDS),
    }
}

/// Any length up to `most`, often near `usual`.
pub fn length(draw: &mut Draw, usual: usize, most: usize) -> usize {
    let near = usual.saturating_sub(9) as u64 + draw.below(18);
    let length = if draw.chance(50) { near } else { draw.below(most as u64 + 1) };
    (length as usize).min(most)
}

fn junk(draw: &mut Draw, len: usize) -> Vec<u8> {
    (0..len).map(|_| draw.bits() as u8).collect()
}

/// Words of small numbers and ends.
fn odd_words(draw: &mut Draw, len: usize) -> Vec<u8> {
    (0..len.div_ceil(8)).flat_map(|_| number(draw).to_le_bytes()).take(len).collect()
}

/// Bytes with something wrong, or with a word that nobody reads changed.
pub fn bytes(draw: &mut Draw, bytes: &mut Vec<u8>) {
    let len = bytes.len();
    match draw.below(8) {
        0 => {
            let len = length(draw, len, 2 * len + 64);
            bytes.resize(len, draw.bits() as u8);
        }
        1 => *bytes = junk(draw, len),
        2 => *bytes = odd_words(draw, len),
        3 if len > 0 => {
            let at = draw.below(len as u64) as usize;
            bytes[at] ^= 1 << draw.below(8);
        }
        4 if len > 0 => {
            let at = draw.below(len as u64) as usize;
            bytes[at] = draw.bits() as u8;
        }
        5 => bytes.clear(),
        _ if len >= 8 => {
            // One word, or the kind.
            let at = if draw.chance(30) { 0 } else { 8 * draw.below(len as u64 / 8) as usize };
            bytes[at..at + 8].copy_from_slice(&number(draw).to_le_bytes());
        }
        _ => *bytes = odd_words(draw, 8),
    }
}
