//! The index, each entry worked out straight from D over its own stretch of bits.
//! No entry is joined from others, so a fault in joining can't be repeated here.

/// Document 01's blocks. The self-test takes smaller ones, so that small words have high indexes.
pub const BLOCK_BITS: usize = 256;

/// The four numbers of a stretch.
#[derive(Clone, Copy, Debug, PartialEq, Eq)]
pub struct Summary {
    pub total: i32,
    pub least: i32,
    pub greatest: i32,
    pub count: i32,
}

/// "An empty stretch has 0, 0, 0, 0."
pub const EMPTY: Summary = Summary {
    total: 0,
    least: 0,
    greatest: 0,
    count: 0,
};

/// The summary of the bits from a up to but not including b.
pub fn summary(depths: &[i32], a: usize, b: usize) -> Summary {
    if a >= b {
        return EMPTY;
    }
    let inside = &depths[a + 1..=b];
    let least = inside.iter().copied().fold(i32::MAX, i32::min);
    let greatest = inside.iter().copied().fold(i32::MIN, i32::max);
    Summary {
        total: depths[b] - depths[a],
        least: least - depths[a],
        greatest: greatest - depths[a],
        count: inside.iter().map(|&depth| i32::from(depth == least)).sum(),
    }
}

/// L for a word of m bits: "the least power of two that is at least 1 and at least B".
pub fn leaves(m: usize, block_bits: usize) -> usize {
    m.div_ceil(block_bits).max(1).next_power_of_two()
}

/// 8L, the index numbers that a word of m bits needs.
pub fn numbers_needed(m: u32) -> usize {
    8 * leaves(m as usize, BLOCK_BITS)
}

pub struct Index {
    pub block_bits: usize,
    pub leaves: usize,
    /// By entry, 2L of them; entry 0 is four zeros.
    pub entries: Vec<Summary>,
    m: usize,
}

impl Index {
    pub fn new(depths: &[i32], block_bits: usize) -> Index {
        let m = depths.len() - 1;
        let leaves = leaves(m, block_bits);
        let mut index = Index {
            block_bits,
            leaves,
            entries: vec![EMPTY; 2 * leaves],
            m,
        };
        for k in 1..2 * leaves {
            let (a, b) = index.stretch(k);
            index.entries[k] = summary(depths, a, b);
        }
        index
    }

    /// The bits that entry k stands for, cut at m.
    pub fn stretch(&self, k: usize) -> (usize, usize) {
        let levels_above = k.ilog2();
        let width = self.block_bits * (self.leaves >> levels_above);
        let before = k - (1 << levels_above);
        let start = before * width;
        (start.min(self.m), (start + width).min(self.m))
    }

    /// h, the exponent of L.
    pub fn height(&self) -> u32 {
        self.leaves.ilog2()
    }

    /// "Entry k takes four signed 32-bit numbers from place 4k."
    pub fn numbers(&self) -> Vec<i32> {
        self.entries
            .iter()
            .flat_map(|s| [s.total, s.least, s.greatest, s.count])
            .collect()
    }
}

#[cfg(test)]
mod tests {
    use super::*;
    use crate::shapes::every_word;
    use crate::word::depths;

    /// Document 01's join; only this test needs it.
    fn join(x: Summary, y: Summary) -> Summary {
        if x.count == 0 {
            return y;
        }
        if y.count == 0 {
            return x;
        }
        let least = x.least.min(x.total + y.least);
        let side = |reaches: bool, count: i32| if reaches { count } else { 0 };
        Summary {
            total: x.total + y.total,
            least,
            greatest: x.greatest.max(x.total + y.greatest),
            count: side(x.least == least, x.count) + side(x.total + y.least == least, y.count),
        }
    }

    #[test]
    fn entries_are_joined_from_their_children() {
        for block_bits in [1, 2, 3, 4] {
            for bits in every_word(12) {
                let index = Index::new(&depths(&bits), block_bits);
                for k in 1..index.leaves {
                    let joined = join(index.entries[2 * k], index.entries[2 * k + 1]);
                    assert_eq!(index.entries[k], joined);
                }
            }
        }
    }

    #[test]
    fn lengths() {
        assert_eq!(numbers_needed(0), 8);
        assert_eq!(numbers_needed(256), 8);
        assert_eq!(numbers_needed(258), 16);
        assert_eq!(numbers_needed(512), 16);
        assert_eq!(numbers_needed(514), 32);
        assert_eq!(numbers_needed(2_097_152), 65_536);
    }
}
