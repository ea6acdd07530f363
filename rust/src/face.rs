//! The C face, called with whole slices. The only unsafe code of this crate stands here.

use crate::Refusal;

#[repr(C)]
struct Outcome {
    code: u32,
    value: usize,
}

impl Outcome {
    fn given(self) -> Result<usize, Refusal> {
        match self.code {
            0 => Ok(self.value),
            code => Err(Refusal::known(code)),
        }
    }
}

// As include/lineage.h declares them.
extern "C" {
    fn lineage_judge(bytes: *const u8, bytes_len: usize, m: u32) -> Outcome;
    fn lineage_build(
        bytes: *const u8,
        bytes_len: usize,
        m: u32,
        index: *mut i32,
        index_len: usize,
    ) -> Outcome;
    fn lineage_batch(
        bytes: *const u8,
        bytes_len: usize,
        m: u32,
        index: *const i32,
        index_len: usize,
        questions: *const u32,
        questions_len: usize,
        answers: *mut u32,
        answers_len: usize,
    ) -> Outcome;
}

// SAFETY, for all three: the library asks that each pointer leads to as many elements as its length
// says, that the slice it writes to overlaps no other, and that nobody writes to lent memory meanwhile.
// References to slices promise all of it. It keeps no pointer past the call and judges all else itself.

pub fn judge(bytes: &[u8], m: u32) -> Result<usize, Refusal> {
    unsafe { lineage_judge(bytes.as_ptr(), bytes.len(), m) }.given()
}

pub fn build(bytes: &[u8], m: u32, index: &mut [i32]) -> Result<usize, Refusal> {
    let (start, length) = (index.as_mut_ptr(), index.len());
    unsafe { lineage_build(bytes.as_ptr(), bytes.len(), m, start, length) }.given()
}

pub fn batch(
    bytes: &[u8],
    m: u32,
    index: &[i32],
    questions: &[u32],
    answers: &mut [u32],
) -> Result<usize, Refusal> {
    unsafe {
        lineage_batch(
            bytes.as_ptr(),
            bytes.len(),
            m,
            index.as_ptr(),
            index.len(),
            questions.as_ptr(),
            questions.len(),
            answers.as_mut_ptr(),
            answers.len(),
        )
    }
    .given()
}
