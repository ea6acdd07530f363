//! Questions about the lineage of certificates, answered by a proved library.
//!
//! A lineage is an ordered forest, written as a word of parentheses: bit i is in byte i/8 and has weight
//! 2^(i mod 8) there; 1 opens a node and 0 closes it. A node is named by the place of its opening bit. This crate is
//! a safe face over the library's C face; the library judges every word, index and question that it is lent, so
//! nothing here has to be trusted.
//!
//! ```
//! use lineage::{ask, build, Answer, Question, Refusal};
//!
//! // `(()(()()))()`: twelve bits, two roots, six nodes.
//! let bytes = [0x5B, 0x04];
//! let index = build(&bytes, 12)?;
//! let replies = ask(&bytes, 12, &index, &[
//!     Question::Depth { node: 4 },
//!     Question::Closing { node: 3 },
//!     Question::Common { node: 3, other: 6 },
//!     Question::Parent { node: 10 },
//!     Question::Depth { node: 2 },
//! ])?;
//! let answers: Vec<_> = replies.iter().map(|reply| reply.answer).collect();
//! assert_eq!(answers, [
//!     Ok(Answer::Depth(2)),
//!     Ok(Answer::Closing(8)),
//!     Ok(Answer::Node(3)),
//!     Err(Refusal::NoSuchNode),
//!     Err(Refusal::NotAnOpening),
//! ]);
//! # Ok::<(), Refusal>(())
//! ```
//!
//! A refusal prints as its number with a sentence that tells a clerk what to mend:
//!
//! ```
//! // `((` lacks its closings.
//! let refusal = lineage::judge(&[0b11], 2).unwrap_err();
//! assert_eq!(refusal, lineage::Refusal::NotBalanced);
//! assert!(refusal.to_string().starts_with("refused 6: the row isn't balanced"));
//! ```
//!
//! [`build_into`] and [`batch`] are the same calls on lent slices, without allocating.

mod face;
mod index;
mod question;
mod refusal;

pub use index::{index_numbers, Index, BLOCK_BITS, MAX_BITS};
pub use question::{Answer, Question, Reply};
pub use refusal::Refusal;

/// Whether the first m bits are a balanced word: refused by 1, 2 or 6.
pub fn judge(bytes: &[u8], m: u32) -> Result<(), Refusal> {
    face::judge(bytes, m).map(|_| ())
}

/// The index of a word: refused by 1, 2 or 6.
pub fn build(bytes: &[u8], m: u32) -> Result<Index, Refusal> {
    // A word that is too long is refused before its index is looked at, so none is made room for.
    let length = if m > MAX_BITS { 0 } else { index_numbers(m) };
    let mut numbers = vec![0; length];
    build_into(bytes, m, &mut numbers)?;
    Ok(Index::from(numbers))
}

/// Writes a word's index to the beginning of a lent slice, and gives the number of nodes: refused by 1, 2, 3 or 6,
/// and then nothing is written.
///
/// ```
/// let mut numbers = [7; 9];
/// assert_eq!(lineage::build_into(&[0x5B, 0x04], 12, &mut numbers), Ok(6));
/// assert_eq!(numbers, [0, 0, 0, 0, 0, 0, 3, 2, 7]);
/// ```
pub fn build_into(bytes: &[u8], m: u32, index: &mut [i32]) -> Result<usize, Refusal> {
    face::build(bytes, m, index)
}

/// A reply to each question: refused as a whole by 1, 2, 3, 6 or 7.
pub fn ask(
    bytes: &[u8],
    m: u32,
    index: &Index,
    questions: &[Question],
) -> Result<Vec<Reply>, Refusal> {
    let asked: Vec<u32> = questions.iter().flat_map(|q| q.numbers()).collect();
    let mut answers = vec![0; asked.len()];
    batch(bytes, m, index.numbers(), &asked, &mut answers)?;
    let threes = answers.chunks_exact(3).map(|n| [n[0], n[1], n[2]]);
    Ok(questions
        .iter()
        .zip(threes)
        .map(|(q, n)| q.reply(n))
        .collect())
}

/// Answers questions of three numbers each (kind, a, b) into answers of three numbers each (code, result, entries
/// read), and gives how many they are: refused as a whole by 1 to 7, and then nothing is written.
///
/// ```
/// let index = [0, 0, 0, 0, 0, 0, 3, 2];
/// let mut answers = [9; 7];
/// let asked = lineage::batch(&[0x5B, 0x04], 12, &index, &[12, 3, 6, 6, 10, 0], &mut answers);
/// assert_eq!(asked, Ok(2));
/// assert_eq!(answers, [0, 3, 0, 16, 0, 0, 9]);
/// ```
pub fn batch(
    bytes: &[u8],
    m: u32,
    index: &[i32],
    questions: &[u32],
    answers: &mut [u32],
) -> Result<usize, Refusal> {
    face::batch(bytes, m, index, questions, answers)
}
