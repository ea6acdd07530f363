//! One question answered twice: its result from the forest, and again by the walks with their reads.
//! The two must agree; an answer is given out only when they do.

use crate::forest::{Forest, NONE};
use crate::index::{Index, BLOCK_BITS};
use crate::walks::Walker;
use crate::word;

#[derive(Clone, Copy, Debug, PartialEq, Eq)]
pub struct Question {
    pub kind: u32,
    pub a: u32,
    pub b: u32,
}

impl Question {
    pub fn new(kind: u32, a: u32, b: u32) -> Question {
        Question { kind, a, b }
    }
}

/// "Each answer is code, result, entries read."
#[derive(Clone, Copy, Debug, PartialEq, Eq)]
pub struct Answer {
    pub code: u32,
    pub result: u32,
    pub reads: u32,
}

impl Answer {
    pub fn numbers(self) -> [u32; 3] {
        [self.code, self.result, self.reads]
    }
}

const NO_SUCH_NODE: u32 = 16;

/// A balanced word with everything that questions about it need.
pub struct Lineage {
    pub bits: Vec<bool>,
    pub depths: Vec<i32>,
    pub forest: Forest,
    pub index: Index,
}

impl Lineage {
    /// None if the word isn't balanced.
    pub fn new(bits: Vec<bool>) -> Option<Lineage> {
        Lineage::with_blocks(bits, BLOCK_BITS)
    }

    pub fn with_blocks(bits: Vec<bool>, block_bits: usize) -> Option<Lineage> {
        let forest = Forest::grow(&bits)?;
        let depths = word::depths(&bits);
        let index = Index::new(&depths, block_bits);
        Some(Lineage {
            bits,
            depths,
            forest,
            index,
        })
    }

    pub fn m(&self) -> u32 {
        self.bits.len() as u32
    }

    pub fn nodes(&self) -> u32 {
        self.forest.nodes.len() as u32
    }

    /// The answer, or both answers where forest and walks disagree.
    pub fn answer(&self, question: Question) -> Result<Answer, String> {
        let answer = self.by_walks(question);
        let (code, result) = self.by_forest(question);
        if (answer.code, answer.result) == (code, result) {
            Ok(answer)
        } else {
            Err(format!(
                "forest gives code {code}, result {result}; walks give {answer:?}"
            ))
        }
    }

    /// Codes 11 to 15: "argument a wholly (12 to 14) before b".
    fn fault(&self, question: Question) -> Option<u32> {
        let Question { kind, a, b } = question;
        match kind {
            1 | 2 | 4 | 6..=11 => self.not_a_node(a),
            3 => None,
            5 => self.not_a_closing(a),
            12 | 14 => self.not_a_node(a).or_else(|| self.not_a_node(b)),
            13 if a > self.m() || b > self.m() => Some(12),
            13 if a > b => Some(15),
            13 => None,
            _ => Some(11),
        }
    }

    fn not_a_node(&self, place: u32) -> Option<u32> {
        match self.bits.get(place as usize) {
            None => Some(12),
            Some(false) => Some(13),
            Some(true) => None,
        }
    }

    fn not_a_closing(&self, place: u32) -> Option<u32> {
        match self.bits.get(place as usize) {
            None => Some(12),
            Some(true) => Some(14),
            Some(false) => None,
        }
    }

    /// Code and result, looked up in the forest.
    pub fn by_forest(&self, question: Question) -> (u32, u32) {
        match self.fault(question) {
            Some(code) => (code, 0),
            None => match self.looked_up(question) {
                Some(result) => (0, result),
                None => (NO_SUCH_NODE, 0),
            },
        }
    }

    fn looked_up(&self, question: Question) -> Option<u32> {
        let Question { kind, a, b } = question;
        let forest = &self.forest;
        let number = |place: u32| forest.node_at[place as usize];
        let node = |place: u32| forest.at(number(place));
        let opening = |number: u32| forest.at(number).opening;
        let place = |number: u32| (number != NONE).then(|| opening(number));
        match kind {
            1 => Some(node(a).depth),
            2 => Some(number(a)),
            3 => forest.nodes.get(a as usize).map(|node| node.opening),
            4 => Some(node(a).closing),
            5 => Some(node(a).opening),
            6 => place(node(a).parent),
            7 => forest.ancestor(number(a), b).map(opening),
            8 => Some(node(a).branch),
            9 => Some(node(a).children),
            10 => place(node(a).first_child),
            11 => place(node(a).next_sibling),
            12 => forest.common(number(a), number(b)).map(opening),
            13 => Some(self.lowest_boundary(a, b)),
            14 => Some(u32::from(forest.holds(number(a), number(b)))),
            _ => unreachable!("kind {kind} has a fault"),
        }
    }

    /// "Leftmost boundary from a to b with the least D", by looking at them all.
    fn lowest_boundary(&self, a: u32, b: u32) -> u32 {
        let depths = &self.depths[a as usize..=b as usize];
        let least = depths.iter().copied().fold(i32::MAX, i32::min);
        let steps = depths.iter().position(|&depth| depth == least);
        a + steps.expect("some boundary has the least") as u32
    }

    /// Code, result and reads, by the walks that document 01's table names for the kind.
    pub fn by_walks(&self, question: Question) -> Answer {
        if let Some(code) = self.fault(question) {
            let (result, reads) = (0, 0);
            return Answer {
                code,
                result,
                reads,
            };
        }
        let mut walker = Walker::new(&self.depths, &self.index);
        let found = self.walked(&mut walker, question);
        Answer {
            code: if found.is_some() { 0 } else { NO_SUCH_NODE },
            result: found.unwrap_or(0) as u32,
            reads: walker.reads,
        }
    }

    fn walked(&self, walker: &mut Walker, question: Question) -> Option<usize> {
        let (a, b) = (question.a as usize, question.b as usize);
        match question.kind {
            1 => Some(walker.prefix(a) as usize),
            2 => Some((a + walker.prefix(a) as usize) / 2),
            3 if question.a >= self.nodes() => None,
            3 => walker.select(a),
            4 => self.closing(walker, a),
            5 => walker.backward(a + 1, 0),
            6 => walker.backward(a, -1),
            7 if b == 0 => Some(a),
            7 => walker.backward(a, -i64::from(question.b)),
            8 => self.closing(walker, a).map(|close| (close - a).div_ceil(2)),
            9 => self.closing(walker, a).map(|close| match close - a {
                1 => 0,
                _ => walker.range(a + 1, close).count as usize,
            }),
            10 => Some(a + 1).filter(|&next| self.bits[next]),
            11 => self
                .closing(walker, a)
                .map(|close| close + 1)
                .filter(|&next| self.bits.get(next) == Some(&true)),
            12 => common(walker, a.min(b), a.max(b)),
            13 => lowest(walker, a, b),
            14 => self
                .closing(walker, a)
                .map(|close| usize::from(a <= b && b <= close)),
            kind => unreachable!("kind {kind} has a fault"),
        }
    }

    /// Forward by 0 gives the boundary after the closing bit.
    fn closing(&self, walker: &mut Walker, a: usize) -> Option<usize> {
        walker.forward(a, 0).map(|boundary| boundary - 1)
    }
}

/// Kind 12: the earlier node holds the later one if D never comes back down to its own.
fn common(walker: &mut Walker, earlier: usize, later: usize) -> Option<usize> {
    if earlier == later {
        return Some(earlier);
    }
    let least = walker.range(earlier, later).least;
    if least >= 1 {
        return Some(earlier);
    }
    walker.backward(earlier, least - 1)
}

/// Kind 13: a itself unless D goes below it.
fn lowest(walker: &mut Walker, a: usize, b: usize) -> Option<usize> {
    if a == b {
        return Some(a);
    }
    let least = walker.range(a, b).least;
    if least >= 0 {
        return Some(a);
    }
    walker.forward(a, least)
}
