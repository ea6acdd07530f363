//! Questions to compare on: all of them for small words, and for larger ones chosen so that
//! walks cross blocks, end at edges, or find nothing.

use crate::answers::{Lineage, Question};
use crate::forest::NONE;
use crate::index::BLOCK_BITS;
use crate::rng::Rng;

/// Numbers that no word reaches, at the edges where a width or a sign could tear.
const HUGE: [u32; 6] = [
    65_536,
    2_097_153,
    (1 << 31) - 1,
    1 << 31,
    (1 << 31) + 1,
    u32::MAX,
];

/// One past each end of the fourteen, and further.
const KINDS: std::ops::RangeInclusive<u32> = 0..=16;

/// The kinds that look at b.
const TWO_ARGUMENTS: [u32; 4] = [7, 12, 13, 14];

/// Every kind with every pair of arguments up to one past m, and some huge ones.
pub fn every(m: u32) -> Vec<u32> {
    let arguments: Vec<u32> = (0..=m + 1).chain(HUGE).collect();
    let mut questions = Vec::new();
    for kind in KINDS.chain([255, 257, 1 << 31, u32::MAX]) {
        for &a in &arguments {
            for &b in &arguments {
                questions.extend([kind, a, b]);
            }
        }
    }
    questions
}

/// Every kind with every a, and every b where b is looked at.
pub fn every_used(kind: u32, m: u32, rng: &mut Rng) -> Vec<u32> {
    let mut questions = Vec::new();
    for a in 0..=m + 1 {
        if TWO_ARGUMENTS.contains(&kind) {
            (0..=m + 1).for_each(|b| questions.extend([kind, a, b]));
        } else {
            questions.extend([kind, a, rng.next() as u32]);
        }
    }
    questions
}

/// So many chosen questions.
pub fn chosen(lineage: &Lineage, count: usize, rng: &mut Rng) -> Vec<u32> {
    (0..count)
        .flat_map(|_| {
            let question = choose(lineage, rng);
            [question.kind, question.a, question.b]
        })
        .collect()
}

fn choose(lineage: &Lineage, rng: &mut Rng) -> Question {
    if rng.once_in(60) {
        let kind = rng.pick(&[0, 15, 16, 17, 256, 1 << 31, u32::MAX]);
        return Question::new(kind, place(lineage, rng), rng.next() as u32);
    }
    let kind = rng.within(1, 14) as u32;
    let a = match kind {
        3 => number(lineage, rng),
        5 => partnered(lineage, false, rng),
        13 => place(lineage, rng),
        _ => partnered(lineage, true, rng),
    };
    let b = second_argument(lineage, kind, a, rng);
    if kind == 13 && a > b && !rng.once_in(20) {
        return Question::new(kind, b, a);
    }
    Question::new(kind, a, b)
}

fn second_argument(lineage: &Lineage, kind: u32, a: u32, rng: &mut Rng) -> u32 {
    match kind {
        7 => levels(lineage, a, rng),
        12 | 14 => match rng.below(4) {
            0 => a,
            1 => relative(lineage, a, rng),
            _ => partnered(lineage, true, rng),
        },
        13 if rng.once_in(3) => a.saturating_add(rng.below(600) as u32).min(lineage.m()),
        13 => place(lineage, rng),
        _ => rng.next() as u32,
    }
}

/// A place or boundary: anywhere, at a block's edge, at the ends, or past them.
fn place(lineage: &Lineage, rng: &mut Rng) -> u32 {
    let m = lineage.m();
    match rng.below(40) {
        0..=15 => rng.below(m as usize + 1) as u32,
        16..=30 => at_an_edge(m, rng),
        31..=34 => m.saturating_sub(rng.below(4) as u32),
        35..=38 => rng.below(4) as u32,
        _ => rng.pick(&[m, m + 1, m.saturating_add(7), 1 << 31, u32::MAX]),
    }
}

fn at_an_edge(m: u32, rng: &mut Rng) -> u32 {
    let blocks = m as usize / BLOCK_BITS + 1;
    let edge = rng.below(blocks) * BLOCK_BITS;
    (edge + rng.below(5)).saturating_sub(2).min(m as usize) as u32
}

fn number(lineage: &Lineage, rng: &mut Rng) -> u32 {
    match rng.below(8) {
        0 => lineage.nodes().saturating_sub(1),
        1 => rng.pick(&[0, lineage.nodes(), lineage.nodes() + 1, u32::MAX]),
        _ => rng.below(lineage.nodes() as usize + 1) as u32,
    }
}

/// A place, most often moved to its partner where it isn't an opening (or a closing) as wanted.
fn partnered(lineage: &Lineage, opening: bool, rng: &mut Rng) -> u32 {
    let place = place(lineage, rng);
    if place >= lineage.m() || rng.once_in(20) {
        return place;
    }
    let node = &lineage.forest.nodes[lineage.forest.node_at[place as usize] as usize];
    match lineage.bits[place as usize] == opening {
        true => place,
        false if opening => node.opening,
        false => node.closing,
    }
}

/// A node of a's own neighbourhood.
fn relative(lineage: &Lineage, a: u32, rng: &mut Rng) -> u32 {
    if lineage.bits.get(a as usize) != Some(&true) {
        return a;
    }
    let forest = &lineage.forest;
    let number = forest.node_at[a as usize];
    let node = forest.at(number);
    let other = match rng.below(5) {
        0 => node.parent,
        1 => node.first_child,
        2 => node.next_sibling,
        3 => number + rng.below(node.branch as usize) as u32,
        _ => {
            let levels = rng.below(node.depth as usize + 1) as u32;
            forest.ancestor(number, levels).unwrap_or(NONE)
        }
    };
    match other {
        NONE => a,
        _ => forest.at(other).opening,
    }
}

fn levels(lineage: &Lineage, a: u32, rng: &mut Rng) -> u32 {
    let depth = lineage.depths.get(a as usize).copied().unwrap_or(0);
    let depth = depth.unsigned_abs();
    match rng.below(8) {
        0 => depth,
        1 => depth + 1,
        2 => depth.saturating_sub(1),
        3 => rng.pick(&[0, 1, 2, 1 << 31, (1 << 31) + 1, u32::MAX]),
        _ => rng.below(depth as usize + 2) as u32,
    }
}

#[cfg(test)]
mod tests {
    use super::*;

    #[test]
    fn every_question_of_the_smallest_words() {
        assert_eq!(every(0).len(), 3 * 21 * 8 * 8);
        assert_eq!(every(2).len(), 3 * 21 * 10 * 10);
    }

    /// The chosen questions must reach every code that a question can have, and every kind.
    #[test]
    fn chosen_questions_reach_every_code() {
        let mut rng = Rng::new(3);
        let word = crate::shapes::shaped_as(5, 3_000, &mut rng);
        let lineage = Lineage::new(word.bits).unwrap();
        let mut codes = std::collections::BTreeSet::new();
        for three in chosen(&lineage, 5_000, &mut rng).chunks(3) {
            let question = Question::new(three[0], three[1], three[2]);
            codes.insert(lineage.answer(question).unwrap().code);
        }
        let codes: Vec<u32> = codes.into_iter().collect();
        assert_eq!(codes, [0, 11, 12, 13, 14, 15, 16]);
    }
}
