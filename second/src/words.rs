//! Sound words compared with the library: judged, their index built, their questions answered.

use crate::calls::Model;
use crate::compare::{Batch, Compare, Difference, Tally};
use crate::face::Face;
use crate::index::numbers_needed;
use crate::questions;
use crate::rng::Rng;
use crate::shapes::{self, Shaped};
use crate::word::pack;

/// Questions of one batch at most: enough that checking the index again doesn't matter.
const BATCH_NUMBERS: usize = 3 * 65_536;

/// Every balanced word of so many bits and less, with every question.
pub fn every_small(face: &dyn Face, most_bits: usize) -> Result<Tally, Difference> {
    let mut tally = Tally::default();
    let mut rng = Rng::new(0);
    for bits in shapes::every_word(most_bits) {
        let questions = questions::every(bits.len() as u32);
        let bytes = with_noise_behind(&bits, &mut rng);
        let word = Word::new(face, "a small word".into(), &bytes, bits.len() as u32);
        tally += word.calls(&mut rng)?;
        tally += word.ask(&questions)?;
    }
    Ok(tally)
}

/// A word of a few blocks, with every question that makes a difference.
pub fn every_question(
    face: &dyn Face,
    shaped: &Shaped,
    rng: &mut Rng,
) -> Result<Tally, Difference> {
    let m = shaped.bits.len() as u32;
    let bytes = with_noise_behind(&shaped.bits, rng);
    let word = Word::new(face, shaped.name.clone(), &bytes, m);
    let mut tally = word.calls(rng)?;
    for kind in 1..=14 {
        for part in questions::every_used(kind, m, rng).chunks(BATCH_NUMBERS) {
            tally += word.ask(part)?;
        }
    }
    Ok(tally)
}

/// A word of any size, with so many chosen questions.
pub fn chosen_questions(
    face: &dyn Face,
    shaped: &Shaped,
    count: usize,
    rng: &mut Rng,
) -> Result<Tally, Difference> {
    let bytes = with_noise_behind(&shaped.bits, rng);
    let m = shaped.bits.len() as u32;
    let word = Word::new(face, shaped.name.clone(), &bytes, m);
    let mut tally = word.calls(rng)?;
    let questions = questions::chosen(word.model.sound(), count, rng);
    tally += word.ask(&questions)?;
    Ok(tally)
}

/// Random words of between so many bits.
pub fn random(
    face: &dyn Face,
    (least_bits, most_bits): (usize, usize),
    words: usize,
    count: usize,
    rng: &mut Rng,
) -> Result<Tally, Difference> {
    let mut tally = Tally::default();
    for _ in 0..words {
        let bits = shapes::length(least_bits, most_bits, rng);
        let shaped = shapes::shaped(bits, rng);
        tally += chosen_questions(face, &shaped, count, rng)?;
    }
    Ok(tally)
}

/// A sound word as it is lent, and the index that goes with it.
struct Word<'a> {
    compare: Compare<'a>,
    model: Model<'a>,
    index: Vec<i32>,
}

impl<'a> Word<'a> {
    fn new(face: &'a dyn Face, name: String, bytes: &'a [u8], m: u32) -> Word<'a> {
        let model = Model::new(bytes, m);
        let index = model.sound().index.numbers();
        Word {
            compare: Compare::new(face, name),
            model,
            index,
        }
    }

    /// Judge and build, with an index slice that is exact or too long.
    fn calls(&self, rng: &mut Rng) -> Result<Tally, Difference> {
        self.compare.judge(&self.model)?;
        let spare = rng.below(3) * rng.below(9);
        self.compare
            .build(&self.model, numbers_needed(self.model.m) + spare)?;
        Ok(Tally {
            words: 1,
            ..Tally::default()
        })
    }

    fn ask(&self, questions: &[u32]) -> Result<Tally, Difference> {
        let batch = Batch {
            index: &self.index,
            questions,
            answers: questions.len(),
        };
        self.compare.batch(&self.model, &batch)?;
        Ok(Tally {
            questions: questions.len() as u64 / 3,
            ..Tally::default()
        })
    }
}

/// The word's bytes, often with bits past m set and further bytes: "never read into an answer".
fn with_noise_behind(bits: &[bool], rng: &mut Rng) -> Vec<u8> {
    let mut bytes = pack(bits);
    if rng.once_in(3) {
        return bytes;
    }
    if bits.len() % 8 != 0 {
        let last = bytes.len() - 1;
        bytes[last] |= (rng.next() as u8) << (bits.len() % 8);
    }
    for _ in 0..rng.below(4) {
        bytes.push(rng.next() as u8);
    }
    bytes
}

#[cfg(test)]
mod tests {
    use super::*;
    use crate::word::unpack;

    #[test]
    fn noise_stays_behind_the_word() {
        let mut rng = Rng::new(7);
        let bits = crate::examples::word_w();
        for _ in 0..50 {
            let bytes = with_noise_behind(&bits, &mut rng);
            assert_eq!(unpack(&bytes, 12), bits);
        }
    }
}
