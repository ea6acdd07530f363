//! Questions and answers as enums, and the three numbers that each stands for.

use crate::Refusal;

/// One question, a case for each kind.
///
/// A node is named by the place of its opening bit.
#[derive(Clone, Copy, Debug, PartialEq, Eq, Hash)]
#[non_exhaustive]
pub enum Question {
    /// Kind 1: the depth of a node; a root has depth 0.
    Depth { node: u32 },
    /// Kind 2: the number of a node, its place in preorder from 0.
    Number { node: u32 },
    /// Kind 3: the node with this number.
    NodeNumbered { number: u32 },
    /// Kind 4: the closing place of a node.
    Closing { node: u32 },
    /// Kind 5: the opening place of the closing at this place.
    Opening { closing: u32 },
    /// Kind 6: the parent of a node.
    Parent { node: u32 },
    /// Kind 7: the ancestor so many levels above a node; the node itself for 0.
    Ancestor { node: u32, levels: u32 },
    /// Kind 8: the nodes in a node's branch, itself included.
    BranchSize { node: u32 },
    /// Kind 9: the number of a node's children.
    Children { node: u32 },
    /// Kind 10: the first child of a node.
    FirstChild { node: u32 },
    /// Kind 11: the next sibling of a node; roots are siblings of each other, in order.
    NextSibling { node: u32 },
    /// Kind 12: the deepest node whose branch holds both nodes.
    Common { node: u32, other: u32 },
    /// Kind 13: the leftmost boundary between two boundaries, both included, with the least depth.
    LowestBoundary { from: u32, to: u32 },
    /// Kind 14: whether a node is in the branch of another, or is that other.
    InBranch { branch: u32, node: u32 },
}

/// What a question found.
#[derive(Clone, Copy, Debug, PartialEq, Eq, Hash)]
#[non_exhaustive]
pub enum Answer {
    /// A node, named by the place of its opening.
    Node(u32),
    /// The place of a closing.
    Closing(u32),
    /// A boundary.
    Boundary(u32),
    /// A depth.
    Depth(u32),
    /// A node's number in preorder.
    Number(u32),
    /// How many nodes there are of what was asked for.
    Count(u32),
    /// Yes or no.
    Holds(bool),
}

impl Answer {
    /// The result as the library gives it.
    pub fn result(self) -> u32 {
        match self {
            Answer::Node(result)
            | Answer::Closing(result)
            | Answer::Boundary(result)
            | Answer::Depth(result)
            | Answer::Number(result)
            | Answer::Count(result) => result,
            Answer::Holds(holds) => u32::from(holds),
        }
    }
}

/// What came back for one question: an answer or a refusal, and the index entries read on the way.
#[derive(Clone, Copy, Debug, PartialEq, Eq, Hash)]
pub struct Reply {
    pub answer: Result<Answer, Refusal>,
    /// 0 where a question was refused, except beside [`Refusal::NoSuchNode`].
    pub reads: u32,
}

impl Question {
    /// Kind, a and b; an unused b is 0.
    pub fn numbers(self) -> [u32; 3] {
        match self {
            Question::Depth { node } => [1, node, 0],
            Question::Number { node } => [2, node, 0],
            Question::NodeNumbered { number } => [3, number, 0],
            Question::Closing { node } => [4, node, 0],
            Question::Opening { closing } => [5, closing, 0],
            Question::Parent { node } => [6, node, 0],
            Question::Ancestor { node, levels } => [7, node, levels],
            Question::BranchSize { node } => [8, node, 0],
            Question::Children { node } => [9, node, 0],
            Question::FirstChild { node } => [10, node, 0],
            Question::NextSibling { node } => [11, node, 0],
            Question::Common { node, other } => [12, node, other],
            Question::LowestBoundary { from, to } => [13, from, to],
            Question::InBranch { branch, node } => [14, branch, node],
        }
    }

    /// The question that three numbers ask; [`Refusal::UnknownKind`] if they ask none.
    pub fn from_numbers([kind, a, b]: [u32; 3]) -> Result<Question, Refusal> {
        Ok(match kind {
            1 => Question::Depth { node: a },
            2 => Question::Number { node: a },
            3 => Question::NodeNumbered { number: a },
            4 => Question::Closing { node: a },
            5 => Question::Opening { closing: a },
            6 => Question::Parent { node: a },
            7 => Question::Ancestor { node: a, levels: b },
            8 => Question::BranchSize { node: a },
            9 => Question::Children { node: a },
            10 => Question::FirstChild { node: a },
            11 => Question::NextSibling { node: a },
            12 => Question::Common { node: a, other: b },
            13 => Question::LowestBoundary { from: a, to: b },
            14 => Question::InBranch { branch: a, node: b },
            _ => return Err(Refusal::UnknownKind),
        })
    }

    /// What the library's three numbers say in reply to this question.
    pub(crate) fn reply(self, [code, result, reads]: [u32; 3]) -> Reply {
        let answer = match code {
            0 => Ok(self.answer(result)),
            code => Err(Refusal::known(code)),
        };
        Reply { answer, reads }
    }

    fn answer(self, result: u32) -> Answer {
        match self {
            Question::Depth { .. } => Answer::Depth(result),
            Question::Number { .. } => Answer::Number(result),
            Question::Closing { .. } => Answer::Closing(result),
            Question::BranchSize { .. } | Question::Children { .. } => Answer::Count(result),
            Question::LowestBoundary { .. } => Answer::Boundary(result),
            Question::InBranch { .. } => Answer::Holds(result != 0),
            Question::NodeNumbered { .. }
            | Question::Opening { .. }
            | Question::Parent { .. }
            | Question::Ancestor { .. }
            | Question::FirstChild { .. }
            | Question::NextSibling { .. }
            | Question::Common { .. } => Answer::Node(result),
        }
    }
}

#[cfg(test)]
mod tests {
    use super::*;

    #[test]
    fn numbers_lead_back_to_their_questions() {
        for kind in 1..=14 {
            let question = Question::from_numbers([kind, 5, 6]).unwrap();
            assert_eq!(question.numbers()[..2], [kind, 5]);
            assert_eq!(Question::from_numbers(question.numbers()), Ok(question));
        }
        for kind in [0, 15, 16, u32::MAX] {
            let refused = Question::from_numbers([kind, 0, 0]);
            assert_eq!(refused, Err(Refusal::UnknownKind));
        }
    }

    #[test]
    fn answers_keep_their_result() {
        for kind in 1..=14 {
            let question = Question::from_numbers([kind, 0, 0]).unwrap();
            for result in [0, 1] {
                let reply = question.reply([0, result, 4]);
                assert_eq!(reply.answer.unwrap().result(), result);
                assert_eq!(reply.reads, 4);
            }
        }
    }
}
