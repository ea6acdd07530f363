//! The word: how its bits lie in bytes, and D over its boundaries.
//! Nothing here judges; a word that isn't balanced has a D too.

/// Refusal 1 is given above this many bits.
pub const MAX_BITS: u32 = 2_097_152;

/// ceil(m/8), the bytes that a word of m bits takes.
pub fn bytes_needed(m: u32) -> usize {
    (m as usize).div_ceil(8)
}

/// The first m bits: "Bit i is in byte i/8 and has weight 2^(i mod 8) there; 1 opens, 0 closes."
pub fn unpack(bytes: &[u8], m: u32) -> Vec<bool> {
    (0..m as usize)
        .map(|i| bytes[i / 8] & (1 << (i % 8)) != 0)
        .collect()
}

/// The bytes of these bits, spare bits of the last byte 0.
pub fn pack(bits: &[bool]) -> Vec<u8> {
    let mut bytes = vec![0; bits.len().div_ceil(8)];
    for (i, &opens) in bits.iter().enumerate() {
        if opens {
            bytes[i / 8] |= 1 << (i % 8);
        }
    }
    bytes
}

/// D(0) to D(m): "openings less closings among the first p bits".
pub fn depths(bits: &[bool]) -> Vec<i32> {
    let mut depth = 0;
    let mut depths = Vec::with_capacity(bits.len() + 1);
    depths.push(depth);
    for &opens in bits {
        depth += if opens { 1 } else { -1 };
        depths.push(depth);
    }
    depths
}

/// The bits of a word written in parentheses.
pub fn from_text(text: &str) -> Vec<bool> {
    text.bytes().map(|byte| byte == b'(').collect()
}

/// The word in parentheses.
pub fn to_text(bits: &[bool]) -> String {
    bits.iter().map(|&o| if o { '(' } else { ')' }).collect()
}

/// Balanced by the definition itself: "empty, or an opening, a balanced word, a closing, and a
/// balanced word". Slow and recursive; it is here to hold the forest's own judgment to.
pub fn balanced_by_definition(bits: &[bool]) -> bool {
    match bits.first() {
        None => true,
        Some(false) => false,
        Some(true) => (1..bits.len()).any(|close| {
            !bits[close]
                && balanced_by_definition(&bits[1..close])
                && balanced_by_definition(&bits[close + 1..])
        }),
    }
}

#[cfg(test)]
mod tests {
    use super::*;

    #[test]
    fn bits_lie_least_first() {
        let bits = from_text("(()(()()))()");
        assert_eq!(pack(&bits), [0x5B, 0x04]);
        assert_eq!(unpack(&[0x5B, 0xF4, 0xFF], 12), bits);
        assert_eq!(to_text(&bits), "(()(()()))()");
    }

    #[test]
    fn depths_count_the_first_bits() {
        assert_eq!(depths(&from_text("(())")), [0, 1, 2, 1, 0]);
        assert_eq!(depths(&[]), [0]);
    }
}
