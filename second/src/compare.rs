//! One call made twice, of the library and of the model, on buffers that begin alike.
//! Everything is held together afterwards: the outcome, what was written, and what had to stay.

use std::fmt;
use std::ops::AddAssign;

use crate::calls::{Model, Outcome};
use crate::face::Face;
use crate::word::{to_text, unpack};

/// How much has been compared.
#[derive(Clone, Copy, Debug, Default)]
pub struct Tally {
    pub words: u64,
    pub questions: u64,
    pub damaged: u64,
    pub files: u64,
}

impl AddAssign for Tally {
    fn add_assign(&mut self, other: Tally) {
        self.words += other.words;
        self.questions += other.questions;
        self.damaged += other.damaged;
        self.files += other.files;
    }
}

/// The first thing that differs.
#[derive(Debug)]
pub struct Difference {
    pub what: String,
    pub input: String,
    pub expected: String,
    pub got: String,
}

impl fmt::Display for Difference {
    fn fmt(&self, f: &mut fmt::Formatter) -> fmt::Result {
        writeln!(f, "DIFFERENCE in {}", self.what)?;
        writeln!(f, "{}", self.input)?;
        writeln!(f, "expected: {}", self.expected)?;
        write!(f, "got:      {}", self.got)
    }
}

/// What one call is lent besides the bytes and m.
pub struct Batch<'a> {
    pub index: &'a [i32],
    pub questions: &'a [u32],
    /// The lent length of the answers; the buffer goes on behind it.
    pub answers: usize,
}

/// Numbers kept behind each lent end, to see that nothing is written there.
const CANARIES: usize = 16;

pub struct Compare<'a> {
    face: &'a dyn Face,
    /// What kind of input this is, for the report of a difference.
    pub name: String,
}

impl<'a> Compare<'a> {
    pub fn new(face: &'a dyn Face, name: String) -> Compare<'a> {
        Compare { face, name }
    }

    pub fn judge(&self, model: &Model) -> Result<(), Difference> {
        let got = self.face.judge(model.bytes, model.m);
        self.same_outcome("judge", model, model.judge(), got)
    }

    /// A build into a lent index of this length.
    pub fn build(&self, model: &Model, lent: usize) -> Result<(), Difference> {
        let mut expected: Vec<i32> = (0..lent + CANARIES)
            .map(|place| noise(place) as i32)
            .collect();
        let mut got = expected.clone();
        let expected_outcome = model.build(&mut expected[..lent]);
        let got_outcome = self.face.build(model.bytes, model.m, &mut got[..lent]);
        let call = format!("build, {lent} index numbers lent");
        self.same_outcome(&call, model, expected_outcome, got_outcome)?;
        match first_difference(&expected, &got) {
            None => Ok(()),
            Some(place) => Err(self.difference(
                format!("{call}: index number {place}"),
                model,
                expected[place],
                got[place],
            )),
        }
    }

    pub fn batch(&self, model: &Model, batch: &Batch) -> Result<(), Difference> {
        let mut expected: Vec<u32> = (0..batch.answers + CANARIES).map(noise).collect();
        let mut got = expected.clone();
        let lent = batch.answers;
        let expected_outcome = model
            .batch(batch.index, batch.questions, &mut expected[..lent])
            .map_err(|both| self.difference("the second program itself".into(), model, both, ""))?;
        let got_outcome = self.face.batch(
            model.bytes,
            model.m,
            batch.index,
            batch.questions,
            &mut got[..lent],
        );
        let call = format!(
            "batch, {} index numbers, {} question numbers, {lent} answer numbers lent",
            batch.index.len(),
            batch.questions.len()
        );
        self.same_outcome(&call, model, expected_outcome, got_outcome)?;
        match first_difference(&expected, &got) {
            None => Ok(()),
            Some(place) => Err(self.answer_difference(model, batch, place, &expected, &got)),
        }
    }

    fn answer_difference(
        &self,
        model: &Model,
        batch: &Batch,
        place: usize,
        expected: &[u32],
        got: &[u32],
    ) -> Difference {
        if expected[place] == noise(place) {
            let what = format!("batch: answer number {place} should have been kept");
            return self.difference(what, model, expected[place], got[place]);
        }
        let three = place / 3 * 3..place / 3 * 3 + 3;
        let [kind, a, b] = batch.questions[three.clone()] else {
            unreachable!("an answer stands in a question's place")
        };
        let what = format!("batch: kind {kind} of {a}, {b} (code, result, reads)");
        self.difference(
            what,
            model,
            format!("{:?}", &expected[three.clone()]),
            format!("{:?}", &got[three]),
        )
    }

    fn same_outcome(
        &self,
        call: &str,
        model: &Model,
        expected: Outcome,
        got: Outcome,
    ) -> Result<(), Difference> {
        match expected == got {
            true => Ok(()),
            false => Err(self.difference(
                call.into(),
                model,
                format!("{expected:?}"),
                format!("{got:?}"),
            )),
        }
    }

    fn difference(
        &self,
        what: String,
        model: &Model,
        expected: impl fmt::Display,
        got: impl fmt::Display,
    ) -> Difference {
        Difference {
            what,
            input: describe(&self.name, model.bytes, model.m),
            expected: expected.to_string(),
            got: got.to_string(),
        }
    }
}

/// What a buffer holds before a call; each place has its own, so that a shifted write shows.
fn noise(place: usize) -> u32 {
    0xA5A5_0000 ^ (place as u32).wrapping_mul(0x9E37_79B1)
}

fn first_difference<T: PartialEq>(expected: &[T], got: &[T]) -> Option<usize> {
    expected.iter().zip(got).position(|(e, g)| e != g)
}

/// The word in parentheses where it is short, else the beginning of its bytes; name and seed make
/// the whole of it again.
fn describe(name: &str, bytes: &[u8], m: u32) -> String {
    let word = if m <= 2_048 && bytes.len() >= (m as usize).div_ceil(8) {
        to_text(&unpack(bytes, m))
    } else {
        let shown = &bytes[..bytes.len().min(256)];
        format!("bytes {}", to_hex(shown))
    };
    format!(
        "input: {name}; m = {m}, {} bytes lent\nword: {word}",
        bytes.len()
    )
}

pub fn to_hex(bytes: &[u8]) -> String {
    bytes.iter().map(|byte| format!("{byte:02X}")).collect()
}

#[cfg(test)]
mod tests {
    use super::*;
    use crate::answers::Lineage;
    use crate::word::pack;

    /// The model as a face, with one fault that the comparison must see.
    struct Spoiled(Fault);

    #[derive(Clone, Copy, PartialEq, Debug)]
    enum Fault {
        None,
        JudgeCode,
        BuildValue,
        IndexNumber,
        IndexPastNeeded,
        Result,
        Reads,
        AnswerPastQuestions,
    }

    impl Face for Spoiled {
        fn judge(&self, bytes: &[u8], m: u32) -> Outcome {
            let mut outcome = Model::new(bytes, m).judge();
            outcome.code ^= u32::from(self.0 == Fault::JudgeCode);
            outcome
        }

        fn build(&self, bytes: &[u8], m: u32, index: &mut [i32]) -> Outcome {
            let mut outcome = Model::new(bytes, m).build(index);
            outcome.value += usize::from(self.0 == Fault::BuildValue);
            index[6] += i32::from(self.0 == Fault::IndexNumber);
            index[16] ^= i32::from(self.0 == Fault::IndexPastNeeded);
            outcome
        }

        fn batch(
            &self,
            bytes: &[u8],
            m: u32,
            index: &[i32],
            questions: &[u32],
            answers: &mut [u32],
        ) -> Outcome {
            let outcome = Model::new(bytes, m).batch(index, questions, answers);
            answers[1] ^= u32::from(self.0 == Fault::Result);
            answers[5] ^= u32::from(self.0 == Fault::Reads);
            answers[6] ^= u32::from(self.0 == Fault::AnswerPastQuestions);
            outcome.unwrap()
        }
    }

    fn compare(fault: Fault) -> Result<(), Difference> {
        let bits = crate::examples::word_v();
        let bytes = pack(&bits);
        let index = Lineage::new(bits).unwrap().index.numbers();
        let model = Model::new(&bytes, 512);
        let face = Spoiled(fault);
        let compare = Compare::new(&face, "V".into());
        compare.judge(&model)?;
        compare.build(&model, 17)?;
        let batch = Batch {
            index: &index,
            questions: &[1, 4, 0, 4, 0, 0],
            answers: 7,
        };
        compare.batch(&model, &batch)
    }

    #[test]
    fn every_fault_is_seen() {
        assert!(compare(Fault::None).is_ok());
        for fault in [
            Fault::JudgeCode,
            Fault::BuildValue,
            Fault::IndexNumber,
            Fault::IndexPastNeeded,
            Fault::Result,
            Fault::Reads,
            Fault::AnswerPastQuestions,
        ] {
            assert!(compare(fault).is_err(), "{fault:?} went unseen");
        }
    }

    #[test]
    fn a_difference_names_question_and_answers() {
        let report = compare(Fault::Reads).unwrap_err().to_string();
        assert!(report.contains("kind 4 of 0, 0"), "{report}");
        assert!(report.contains("expected: [0, 511, 1]"), "{report}");
        assert!(report.contains("got:      [0, 511, 0]"), "{report}");
    }
}
