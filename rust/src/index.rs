//! The index of a word, to be kept, lent out and brought back.

/// The most bits that a word may have.
pub const MAX_BITS: u32 = 2_097_152;

/// The bits of a block, for which the index has one leaf.
pub const BLOCK_BITS: u32 = 256;

/// 8L, the index numbers that a word of m bits needs. L is the least power of two that is at least 1
/// and at least ceil(m/256).
///
/// ```
/// assert_eq!(lineage::index_numbers(256), 8);
/// assert_eq!(lineage::index_numbers(258), 16);
/// ```
pub fn index_numbers(m: u32) -> usize {
    let blocks = m.div_ceil(BLOCK_BITS) as usize;
    8 * blocks.max(1).next_power_of_two()
}

/// The index of a word, as [`build`](crate::build) makes it.
///
/// It is plain numbers: lend them out, store them, and bring them back with `Index::from`. Nothing is
/// taken on trust then: [`ask`](crate::ask) holds every number to the word first, and refuses an index
/// that isn't the word's own.
///
/// ```
/// use lineage::{ask, build, Index, Refusal};
///
/// let bytes = [0x5B, 0x04];
/// let index = build(&bytes, 12)?;
/// let mut numbers: Vec<i32> = index.numbers().to_vec();
/// assert_eq!(numbers, [0, 0, 0, 0, 0, 0, 3, 2]);
///
/// let back = Index::from(numbers.as_slice());
/// assert!(ask(&bytes, 12, &back, &[]).is_ok());
///
/// numbers[6] += 1;
/// let spoiled = Index::from(numbers);
/// assert_eq!(ask(&bytes, 12, &spoiled, &[]), Err(Refusal::IndexDiffers));
/// # Ok::<(), Refusal>(())
/// ```
#[derive(Clone, Debug, PartialEq, Eq)]
pub struct Index(Vec<i32>);

impl Index {
    /// The numbers, four to an entry.
    pub fn numbers(&self) -> &[i32] {
        &self.0
    }

    /// The numbers, given away.
    pub fn into_numbers(self) -> Vec<i32> {
        self.0
    }
}

impl From<Vec<i32>> for Index {
    fn from(numbers: Vec<i32>) -> Index {
        Index(numbers)
    }
}

impl From<&[i32]> for Index {
    fn from(numbers: &[i32]) -> Index {
        Index(numbers.to_vec())
    }
}

impl AsRef<[i32]> for Index {
    fn as_ref(&self) -> &[i32] {
        self.numbers()
    }
}
