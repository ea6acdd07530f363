//! The numbers given back, each with a sentence that tells a clerk what to mend.

use std::fmt;

/// Why a call, or one question of a batch, was refused.
///
/// Numbers 1 to 7 refuse a whole call; 11 to 16 refuse one question.
#[derive(Clone, Copy, Debug, PartialEq, Eq, Hash)]
#[non_exhaustive]
pub enum Refusal {
    /// 1: m > 2,097,152.
    TooManyBits,
    /// 2: fewer than ceil(m/8) bytes lent.
    BytesMissing,
    /// 3: fewer than 8L index numbers lent.
    IndexTooShort,
    /// 4: question slice not a multiple of three long.
    QuestionCut,
    /// 5: answer slice shorter than the question slice.
    AnswersTooShort,
    /// 6: word not balanced.
    NotBalanced,
    /// 7: one of the 8L index numbers differs.
    IndexDiffers,
    /// 11: kind not 1 to 14.
    UnknownKind,
    /// 12: place not below m; for kind 13, a boundary above m.
    PlaceOutside,
    /// 13: place isn't an opening.
    NotAnOpening,
    /// 14: place isn't a closing.
    NotAClosing,
    /// 15: kind 13 with a > b.
    BoundsReversed,
    /// 16: no such node.
    NoSuchNode,
}

impl Refusal {
    /// All of them, in the order of their numbers.
    pub const ALL: [Refusal; 13] = [
        Refusal::TooManyBits,
        Refusal::BytesMissing,
        Refusal::IndexTooShort,
        Refusal::QuestionCut,
        Refusal::AnswersTooShort,
        Refusal::NotBalanced,
        Refusal::IndexDiffers,
        Refusal::UnknownKind,
        Refusal::PlaceOutside,
        Refusal::NotAnOpening,
        Refusal::NotAClosing,
        Refusal::BoundsReversed,
        Refusal::NoSuchNode,
    ];

    /// The number that stands for it.
    pub fn number(self) -> u32 {
        match self {
            Refusal::TooManyBits => 1,
            Refusal::BytesMissing => 2,
            Refusal::IndexTooShort => 3,
            Refusal::QuestionCut => 4,
            Refusal::AnswersTooShort => 5,
            Refusal::NotBalanced => 6,
            Refusal::IndexDiffers => 7,
            Refusal::UnknownKind => 11,
            Refusal::PlaceOutside => 12,
            Refusal::NotAnOpening => 13,
            Refusal::NotAClosing => 14,
            Refusal::BoundsReversed => 15,
            Refusal::NoSuchNode => 16,
        }
    }

    /// The refusal of this number, if there is one.
    pub fn from_number(number: u32) -> Option<Refusal> {
        Refusal::ALL.into_iter().find(|r| r.number() == number)
    }

    /// A number that the library gave; its promises name no others.
    pub(crate) fn known(number: u32) -> Refusal {
        Refusal::from_number(number)
            .unwrap_or_else(|| panic!("the library gave {number}, which no promise of it names"))
    }

    /// What is wrong, and what to do about it.
    pub fn sentence(self) -> &'static str {
        match self {
            Refusal::TooManyBits => {
                "the row has more than 2,097,152 bits: check the bit count, or send the row in several parts"
            }
            Refusal::BytesMissing => {
                "there are fewer bytes than the bit count needs: send the missing bytes, or correct the bit count"
            }
            Refusal::IndexTooShort => {
                "the room for the index is too short for this row: lend as many numbers as index_numbers gives"
            }
            Refusal::QuestionCut => {
                "the last question is cut off: each question is three numbers, its kind, a and b"
            }
            Refusal::AnswersTooShort => {
                "the room for answers is shorter than the questions: lend three numbers for each question"
            }
            Refusal::NotBalanced => {
                "the row isn't balanced, an opening or a closing is missing or too many: have the row sent again"
            }
            Refusal::IndexDiffers => {
                "the index isn't this row's, or was changed since it was built: build it again from the row"
            }
            Refusal::UnknownKind => {
                "there is no such kind of question: use one of the kinds 1 to 14"
            }
            Refusal::PlaceOutside => {
                "the place lies past the end of the row: use places below the bit count, and boundaries up to it"
            }
            Refusal::NotAnOpening => {
                "no node begins at this place, since a closing stands there: name a node by the place of its opening"
            }
            Refusal::NotAClosing => {
                "an opening stands at this place: to find a node's opening, give the place of its closing"
            }
            Refusal::BoundsReversed => {
                "the first boundary lies after the second: exchange the two"
            }
            Refusal::NoSuchNode => {
                "there is no such node: the row has none there, so check the place or the number that you asked with"
            }
        }
    }
}

/// The number and its sentence.
impl fmt::Display for Refusal {
    fn fmt(&self, f: &mut fmt::Formatter<'_>) -> fmt::Result {
        write!(f, "refused {}: {}", self.number(), self.sentence())
    }
}

impl std::error::Error for Refusal {}

#[cfg(test)]
mod tests {
    use super::*;

    #[test]
    fn numbers_lead_back_to_their_refusals() {
        let numbers: Vec<u32> = Refusal::ALL.iter().map(|r| r.number()).collect();
        assert_eq!(numbers, [1, 2, 3, 4, 5, 6, 7, 11, 12, 13, 14, 15, 16]);
        for refusal in Refusal::ALL {
            assert_eq!(Refusal::from_number(refusal.number()), Some(refusal));
        }
        for number in [0, 8, 10, 17, u32::MAX] {
            assert_eq!(Refusal::from_number(number), None);
        }
    }

    #[test]
    fn each_sentence_is_its_own() {
        let mut sentences: Vec<_> = Refusal::ALL.iter().map(|r| r.sentence()).collect();
        sentences.sort();
        sentences.dedup();
        assert_eq!(sentences.len(), Refusal::ALL.len());
    }
}
