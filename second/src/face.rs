//! The library's C face, seen as three calls on slices.
//! The comparison speaks to a `Face`, so that its own tests can lend it a spoiled one.

use crate::calls::Outcome;

pub trait Face: Sync {
    fn judge(&self, bytes: &[u8], m: u32) -> Outcome;
    fn build(&self, bytes: &[u8], m: u32, index: &mut [i32]) -> Outcome;
    fn batch(
        &self,
        bytes: &[u8],
        m: u32,
        index: &[i32],
        questions: &[u32],
        answers: &mut [u32],
    ) -> Outcome;
}

/// Where the archive was looked for when this program was built.
pub const ARCHIVE: &str = env!("SECOND_ARCHIVE");

/// The linked archive, if there was one.
pub fn archive() -> Option<Box<dyn Face>> {
    #[cfg(archive)]
    return Some(Box::new(linked::Archive));
    #[cfg(not(archive))]
    None
}

#[cfg(archive)]
mod linked {
    use super::{Face, Outcome};

    #[repr(C)]
    struct LineageOutcome {
        code: u32,
        value: usize,
    }

    impl From<LineageOutcome> for Outcome {
        fn from(outcome: LineageOutcome) -> Outcome {
            Outcome {
                code: outcome.code,
                value: outcome.value,
            }
        }
    }

    extern "C" {
        fn lineage_judge(bytes: *const u8, bytes_len: usize, m: u32) -> LineageOutcome;
        fn lineage_build(
            bytes: *const u8,
            bytes_len: usize,
            m: u32,
            index: *mut i32,
            index_len: usize,
        ) -> LineageOutcome;
        fn lineage_batch(
            bytes: *const u8,
            bytes_len: usize,
            m: u32,
            index: *const i32,
            index_len: usize,
            questions: *const u32,
            questions_len: usize,
            answers: *mut u32,
            answers_len: usize,
        ) -> LineageOutcome;
    }

    pub struct Archive;

    // Each call lends whole slices with their own lengths, which is all that the face asks for.
    impl Face for Archive {
        fn judge(&self, bytes: &[u8], m: u32) -> Outcome {
            unsafe { lineage_judge(bytes.as_ptr(), bytes.len(), m) }.into()
        }

        fn build(&self, bytes: &[u8], m: u32, index: &mut [i32]) -> Outcome {
            unsafe {
                lineage_build(
                    bytes.as_ptr(),
                    bytes.len(),
                    m,
                    index.as_mut_ptr(),
                    index.len(),
                )
            }
            .into()
        }

        fn batch(
            &self,
            bytes: &[u8],
            m: u32,
            index: &[i32],
            questions: &[u32],
            answers: &mut [u32],
        ) -> Outcome {
            unsafe {
                lineage_batch(
                    bytes.as_ptr(),
                    bytes.len(),
                    m,
                    index.as_ptr(),
                    index.len(),
                    questions.as_ptr(),
                    questions.len(),
                    answers.as_mut_ptr(),
                    answers.len(),
                )
            }
            .into()
        }
    }
}
