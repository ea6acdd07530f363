//! Document 01's examples, and every refusal, through the safe face.

use lineage::{ask, batch, build, build_into, judge, Answer, Index, Question, Refusal, Reply};

const W: [u8; 2] = [0x5B, 0x04];

fn w_answer(question: Question) -> Result<Answer, Refusal> {
    let index = build(&W, 12).unwrap();
    let replies = ask(&W, 12, &index, &[question]).unwrap();
    assert_eq!(replies[0].reads, 0, "reads are 0 throughout");
    replies[0].answer
}

#[test]
fn examples_of_w() {
    use Question::*;
    let none = Err(Refusal::NoSuchNode);
    let examples = [
        (Depth { node: 4 }, Ok(Answer::Depth(2))),
        (Number { node: 6 }, Ok(Answer::Number(4))),
        (NodeNumbered { number: 3 }, Ok(Answer::Node(4))),
        (NodeNumbered { number: 6 }, none),
        (Closing { node: 3 }, Ok(Answer::Closing(8))),
        (Parent { node: 10 }, none),
        (Ancestor { node: 6, levels: 2 }, Ok(Answer::Node(0))),
        (Ancestor { node: 6, levels: 3 }, none),
        (BranchSize { node: 3 }, Ok(Answer::Count(3))),
        (Children { node: 0 }, Ok(Answer::Count(2))),
        (FirstChild { node: 1 }, none),
        (NextSibling { node: 1 }, Ok(Answer::Node(3))),
        (NextSibling { node: 3 }, none),
        (NextSibling { node: 0 }, Ok(Answer::Node(10))),
        (Common { node: 3, other: 6 }, Ok(Answer::Node(3))),
        (Common { node: 0, other: 10 }, none),
        (LowestBoundary { from: 2, to: 8 }, Ok(Answer::Boundary(3))),
        (LowestBoundary { from: 5, to: 7 }, Ok(Answer::Boundary(6))),
        (LowestBoundary { from: 0, to: 12 }, Ok(Answer::Boundary(0))),
        (InBranch { branch: 3, node: 6 }, Ok(Answer::Holds(true))),
        (InBranch { branch: 6, node: 3 }, Ok(Answer::Holds(false))),
        (Depth { node: 2 }, Err(Refusal::NotAnOpening)),
        (Depth { node: 12 }, Err(Refusal::PlaceOutside)),
        (Opening { closing: 0 }, Err(Refusal::NotAClosing)),
        (
            LowestBoundary { from: 2, to: 1 },
            Err(Refusal::BoundsReversed),
        ),
    ];
    for (question, wanted) in examples {
        assert_eq!(w_answer(question), wanted, "{question:?}");
    }
}

#[test]
fn examples_of_v() {
    let bytes = [[0xFF; 32], [0; 32]].concat();
    let index = build(&bytes, 512).unwrap();
    let entries = [0, 0, 0, 0, 0, 0, 256, 1, 256, 1, 256, 1, -256, -256, -1, 1];
    assert_eq!(index.numbers(), entries);
    let questions = [
        Question::Closing { node: 0 },
        Question::Opening { closing: 511 },
        Question::Parent { node: 255 },
    ];
    let found = |answer, reads| Reply {
        answer: Ok(answer),
        reads,
    };
    let wanted = [
        found(Answer::Closing(511), 1),
        found(Answer::Node(0), 1),
        found(Answer::Node(254), 0),
    ];
    assert_eq!(ask(&bytes, 512, &index, &questions).unwrap(), wanted);
}

#[test]
fn the_empty_forest() {
    let index = build(&[], 0).unwrap();
    assert_eq!(index.numbers(), [0; 8]);
    let questions = [
        Question::LowestBoundary { from: 0, to: 0 },
        Question::NodeNumbered { number: 0 },
    ];
    let replies = ask(&[], 0, &index, &questions).unwrap();
    assert_eq!(replies[0].answer, Ok(Answer::Boundary(0)));
    assert_eq!(replies[1].answer, Err(Refusal::NoSuchNode));
}

#[test]
fn judging() {
    assert_eq!(judge(&W, 12), Ok(()));
    assert_eq!(judge(&W, 11), Err(Refusal::NotBalanced));
    assert_eq!(judge(&W[..1], 12), Err(Refusal::BytesMissing));
    assert_eq!(judge(&[], 2_097_152), Err(Refusal::BytesMissing));
    assert_eq!(judge(&[], 2_097_153), Err(Refusal::TooManyBits));
}

#[test]
fn a_refused_build_writes_nothing() {
    let mut index = [5; 8];
    let short = build_into(&W, 12, &mut index[..7]);
    assert_eq!(short, Err(Refusal::IndexTooShort));
    let odd = build_into(&W, 11, &mut index);
    assert_eq!(odd, Err(Refusal::NotBalanced));
    assert_eq!(index, [5; 8]);
    assert_eq!(build(&[], u32::MAX), Err(Refusal::TooManyBits));
}

#[test]
fn refused_batches() {
    let index = build(&W, 12).unwrap().into_numbers();
    let mut answers = [9; 3];
    let mut refused = |index: &[i32], questions: &[u32], lent: usize| {
        batch(&W, 12, index, questions, &mut answers[..lent]).unwrap_err()
    };
    assert_eq!(refused(&index[..7], &[1, 4], 0), Refusal::IndexTooShort);
    assert_eq!(refused(&index, &[1, 4], 0), Refusal::QuestionCut);
    assert_eq!(refused(&index, &[1, 4, 0], 2), Refusal::AnswersTooShort);
    assert_eq!(refused(&[1; 8], &[1, 4, 0], 3), Refusal::IndexDiffers);
    assert_eq!(answers, [9; 3]);
    let unknown = batch(&W, 12, &index, &[15, 0, 0], &mut answers);
    assert_eq!((unknown, answers), (Ok(1), [11, 0, 0]));
}

#[test]
fn an_index_comes_back() {
    let index = build(&W, 12).unwrap();
    let lent: &[i32] = index.as_ref();
    let back = Index::from(lent.to_vec());
    let replies = ask(&W, 12, &back, &[Question::Children { node: 0 }]).unwrap();
    assert_eq!(replies[0].answer, Ok(Answer::Count(2)));
    let other = build(&[0b01], 2).unwrap();
    let refused = ask(&W, 12, &other, &[]);
    assert_eq!(refused, Err(Refusal::IndexDiffers));
}

#[test]
fn refusals_are_errors() {
    let error: Box<dyn std::error::Error> = Box::new(Refusal::BytesMissing);
    assert!(error.to_string().starts_with("refused 2: "));
}
