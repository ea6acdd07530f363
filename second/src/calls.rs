//! The three entry points as document 01 promises them, on lent slices.
//! They say what the library must give back and write, refusals included.

use std::cell::OnceCell;

use crate::answers::{Lineage, Question};
use crate::index::numbers_needed;
use crate::word::{bytes_needed, unpack, MAX_BITS};

/// A code with the number beside it.
#[derive(Clone, Copy, Debug, PartialEq, Eq)]
pub struct Outcome {
    pub code: u32,
    pub value: usize,
}

/// "Refusals 1 to 7 return 0 beside the code and write nothing."
pub fn refusal(code: u32) -> Outcome {
    Outcome { code, value: 0 }
}

pub fn accepted(value: usize) -> Outcome {
    Outcome { code: 0, value }
}

/// A word as it is lent, sound or not. Its lineage is worked out once, for all calls.
pub struct Model<'a> {
    pub bytes: &'a [u8],
    pub m: u32,
    lineage: OnceCell<Option<Lineage>>,
}

impl<'a> Model<'a> {
    pub fn new(bytes: &'a [u8], m: u32) -> Model<'a> {
        Model {
            bytes,
            m,
            lineage: OnceCell::new(),
        }
    }

    /// The word's lineage: an outcome to give back if the word is refused by 1, 2 or 6, or by one of
    /// the further faults that come between 2 and 6.
    fn accepted_word(&self, further: &[(u32, bool)]) -> Result<&Lineage, Outcome> {
        let first = [
            (1, self.m > MAX_BITS),
            (2, self.bytes.len() < bytes_needed(self.m)),
        ];
        if let Some(fault) = first.iter().chain(further).find(|fault| fault.1) {
            return Err(refusal(fault.0));
        }
        self.lineage
            .get_or_init(|| Lineage::new(unpack(self.bytes, self.m)))
            .as_ref()
            .ok_or(refusal(6))
    }

    /// The lineage of a word that is known to be sound.
    pub fn sound(&self) -> &Lineage {
        self.accepted_word(&[]).expect("a sound word")
    }

    /// Checks 1, 2 and 6.
    pub fn judge(&self) -> Outcome {
        match self.accepted_word(&[]) {
            Err(refused) => refused,
            Ok(_) => accepted(0),
        }
    }

    /// Checks 1, 2, 3 and 6; gives n.
    pub fn build(&self, index: &mut [i32]) -> Outcome {
        let short = (3, index.len() < numbers_needed(self.m));
        match self.accepted_word(&[short]) {
            Err(refused) => refused,
            Ok(lineage) => {
                let numbers = lineage.index.numbers();
                index[..numbers.len()].copy_from_slice(&numbers);
                accepted(lineage.nodes() as usize)
            }
        }
    }

    /// Checks 1 to 7; gives the number of questions. An error tells where forest and walks disagree.
    pub fn batch(
        &self,
        index: &[i32],
        questions: &[u32],
        answers: &mut [u32],
    ) -> Result<Outcome, String> {
        let further = [
            (3, index.len() < numbers_needed(self.m)),
            (4, questions.len() % 3 != 0),
            (5, answers.len() < questions.len()),
        ];
        let lineage = match self.accepted_word(&further) {
            Err(refused) => return Ok(refused),
            Ok(lineage) => lineage,
        };
        let numbers = lineage.index.numbers();
        if index[..numbers.len()] != numbers[..] {
            return Ok(refusal(7));
        }
        answer_all(lineage, questions, answers)?;
        Ok(accepted(questions.len() / 3))
    }
}

fn answer_all(lineage: &Lineage, questions: &[u32], answers: &mut [u32]) -> Result<(), String> {
    let lent = questions.chunks_exact(3);
    for (three, place) in lent.zip(answers.chunks_exact_mut(3)) {
        let question = Question::new(three[0], three[1], three[2]);
        let answer = lineage
            .answer(question)
            .map_err(|both| format!("{question:?}: {both}"))?;
        place.copy_from_slice(&answer.numbers());
    }
    Ok(())
}

#[cfg(test)]
mod tests {
    use super::*;

    const W: [u8; 2] = [0x5B, 0x04];

    #[test]
    fn refusals_come_in_order() {
        let index = [0, 0, 0, 0, 0, 0, 3, 2];
        let ask = |bytes: &[u8], m, index: &[i32], questions: usize, answers: usize| {
            let questions = vec![1; questions];
            let model = Model::new(bytes, m);
            let outcome = model.batch(index, &questions, &mut vec![9; answers]);
            outcome.unwrap().code
        };
        assert_eq!(ask(&[], MAX_BITS + 1, &[], 1, 0), 1);
        assert_eq!(ask(&W[..1], 12, &[], 1, 0), 2);
        assert_eq!(ask(&W, 12, &index[..7], 1, 0), 3);
        assert_eq!(ask(&W, 10, &index, 4, 0), 4);
        assert_eq!(ask(&W, 11, &index, 3, 2), 5);
        assert_eq!(ask(&W, 11, &[1; 8], 3, 3), 6);
        assert_eq!(ask(&W, 12, &[1; 8], 3, 3), 7);
        assert_eq!(ask(&W, 12, &index, 3, 3), 0);
    }

    #[test]
    fn an_accepted_batch_keeps_the_rest() {
        let mut answers = [9; 7];
        let index = [0, 0, 0, 0, 0, 0, 3, 2, 77];
        let questions = [1, 4, 0, 3, 6, 0];
        let outcome = Model::new(&W, 12).batch(&index, &questions, &mut answers);
        assert_eq!(outcome, Ok(accepted(2)));
        assert_eq!(answers, [0, 2, 0, 16, 0, 0, 9]);
    }

    #[test]
    fn limits() {
        let zeros = vec![0; bytes_needed(MAX_BITS)];
        assert_eq!(Model::new(&zeros, MAX_BITS).judge(), refusal(6));
        assert_eq!(Model::new(&zeros, MAX_BITS + 1).judge(), refusal(1));
        assert_eq!(Model::new(&[], 0).judge(), accepted(0));
    }
}
