//! Words to compare on: every small one, and larger ones of shapes that try the index.

use crate::index::BLOCK_BITS;
use crate::rng::Rng;
use crate::word::MAX_BITS;

/// Every balanced word of at most so many bits.
pub fn every_word(most_bits: usize) -> Vec<Vec<bool>> {
    // By the definition: (x) y, over the splits of the nodes that are left.
    let mut by_nodes: Vec<Vec<Vec<bool>>> = vec![vec![Vec::new()]];
    for nodes in 1..=most_bits / 2 {
        let mut words = Vec::new();
        for inside in 0..nodes {
            for x in &by_nodes[inside] {
                for y in &by_nodes[nodes - 1 - inside] {
                    words.push(enclose_then(x, y));
                }
            }
        }
        by_nodes.push(words);
    }
    by_nodes.into_iter().flatten().collect()
}

fn enclose_then(x: &[bool], y: &[bool]) -> Vec<bool> {
    let mut word = vec![true];
    word.extend_from_slice(x);
    word.push(false);
    word.extend_from_slice(y);
    word
}

/// A word with a name that tells its shape.
pub struct Shaped {
    pub name: String,
    pub bits: Vec<bool>,
}

type Shape = fn(usize, &mut Rng) -> Vec<bool>;

/// Each makes a balanced word of so many nodes.
const SHAPES: [(&str, Shape); 12] = [
    ("chain", chain),
    ("row of roots", row),
    ("star", star),
    ("caterpillar, leaf first", caterpillar_leaf_first),
    ("caterpillar, leaf last", caterpillar_leaf_last),
    ("uniform", uniform),
    ("steep", steep),
    ("shallow", shallow),
    ("saw", saw),
    ("blocks", blocks),
    ("chains in a row", chains_in_a_row),
    ("shifted", shifted),
];

/// A word of at most so many bits, of a chosen shape.
pub fn shaped(most_bits: usize, rng: &mut Rng) -> Shaped {
    let choice = rng.below(SHAPES.len());
    shaped_as(choice, most_bits, rng)
}

pub fn shape_count() -> usize {
    SHAPES.len()
}

pub fn shaped_as(choice: usize, bits: usize, rng: &mut Rng) -> Shaped {
    let (name, shape) = SHAPES[choice];
    let bits = shape(bits / 2, rng);
    Shaped {
        name: format!("{name}, m = {}", bits.len()),
        bits,
    }
}

/// A length between the limits, all scales alike: often at a block's edge or where the index grows.
pub fn length(least_bits: usize, most_bits: usize, rng: &mut Rng) -> usize {
    let most_bits = most_bits.min(MAX_BITS as usize);
    let scales = least_bits.max(2).ilog2() as usize..=most_bits.max(2).ilog2() as usize;
    let scale = 1usize << rng.within(*scales.start(), *scales.end());
    let bits = match rng.below(3) {
        0 => rng.within(scale, 2 * scale),
        1 => scale - 2 + 2 * rng.below(3),
        _ => rng.within(scale, 2 * scale) / BLOCK_BITS * BLOCK_BITS + 2 * rng.below(3),
    };
    bits.clamp(least_bits, most_bits) & !1
}

fn repeat(bits: &[bool], times: usize) -> Vec<bool> {
    bits.repeat(times)
}

fn chain(nodes: usize, _: &mut Rng) -> Vec<bool> {
    let mut word = vec![true; nodes];
    word.resize(2 * nodes, false);
    word
}

fn row(nodes: usize, _: &mut Rng) -> Vec<bool> {
    repeat(&[true, false], nodes)
}

fn star(nodes: usize, _: &mut Rng) -> Vec<bool> {
    match nodes {
        0 => Vec::new(),
        _ => enclose_then(&repeat(&[true, false], nodes - 1), &[]),
    }
}

/// A spine whose every node has a leaf to the left of the spine's next node.
fn caterpillar_leaf_first(nodes: usize, _: &mut Rng) -> Vec<bool> {
    let mut word = repeat(&[true, true, false], nodes / 2);
    word.extend(repeat(&[false], nodes / 2));
    word.extend(repeat(&[true, false], nodes % 2));
    word
}

/// The same spine with its leaves on the way back up.
fn caterpillar_leaf_last(nodes: usize, _: &mut Rng) -> Vec<bool> {
    let mut word = repeat(&[true, false], nodes % 2);
    word.extend(repeat(&[true], nodes / 2));
    word.extend(repeat(&[true, false, false], nodes / 2));
    word
}

/// Every word of this length is equally likely.
fn uniform(nodes: usize, rng: &mut Rng) -> Vec<bool> {
    let (mut height, mut left) = (0u64, 2 * nodes as u64);
    let mut word = Vec::with_capacity(2 * nodes);
    while left > 0 {
        // The share of ways home that begin with an opening, by the ballot numbers.
        let openings = (height + 2) * (left - height);
        let all = 2 * left * (height + 1);
        let opens = rng.next() % all < openings;
        word.push(opens);
        height = if opens { height + 1 } else { height - 1 };
        left -= 1;
    }
    word
}

/// Opens so many times in a hundred where it may choose.
fn leaning(nodes: usize, percent: usize, rng: &mut Rng) -> Vec<bool> {
    let (mut height, mut left) = (0, 2 * nodes);
    let mut word = Vec::with_capacity(left);
    while left > 0 {
        let opens = height == 0 || (height < left && rng.below(100) < percent);
        word.push(opens);
        height = if opens { height + 1 } else { height - 1 };
        left -= 1;
    }
    word
}

fn steep(nodes: usize, rng: &mut Rng) -> Vec<bool> {
    let percent = rng.within(55, 99);
    leaning(nodes, percent, rng)
}

fn shallow(nodes: usize, rng: &mut Rng) -> Vec<bool> {
    let percent = rng.within(5, 49);
    leaning(nodes, percent, rng)
}

/// Up and down by one stroke, so that many boundaries share the least of a block.
fn saw(nodes: usize, rng: &mut Rng) -> Vec<bool> {
    let stroke = rng.within(1, 600).min(nodes.max(1));
    let mut word = Vec::with_capacity(2 * nodes);
    for _ in 0..nodes / stroke {
        word.extend(chain(stroke, rng));
    }
    word.extend(chain(nodes % stroke, rng));
    word
}

fn chains_in_a_row(nodes: usize, rng: &mut Rng) -> Vec<bool> {
    let mut word = Vec::with_capacity(2 * nodes);
    while word.len() < 2 * nodes {
        let left = nodes - word.len() / 2;
        let most = rng.pick(&[1, 3, 130, 300, 5_000]).min(left);
        let next = rng.within(1, most);
        word.extend(chain(next, rng));
    }
    word
}

/// Whole blocks of one pattern each: openings only, closings only, or level ones.
fn blocks(nodes: usize, rng: &mut Rng) -> Vec<bool> {
    let mut word: Vec<bool> = Vec::with_capacity(2 * nodes);
    let mut height = 0;
    while word.len() + height + 2 * BLOCK_BITS <= 2 * nodes {
        match rng.below(4) {
            0 | 1 => {
                word.extend([true; BLOCK_BITS]);
                height += BLOCK_BITS;
            }
            2 if height >= BLOCK_BITS => {
                word.extend([false; BLOCK_BITS]);
                height -= BLOCK_BITS;
            }
            _ => word.extend(repeat(&[true, false], BLOCK_BITS / 2)),
        }
    }
    word.extend(repeat(&[false], height));
    let left = nodes - word.len() / 2;
    word.extend(repeat(&[true, false], left));
    word
}

/// Another shape pushed off the block edges by roots or by a chain around it.
fn shifted(nodes: usize, rng: &mut Rng) -> Vec<bool> {
    let shift = rng.within(1, 2 * BLOCK_BITS).min(nodes);
    // Not itself, which stands last.
    let (_, shape) = SHAPES[rng.below(SHAPES.len() - 1)];
    let inside = shape(nodes - shift, rng);
    let around = if rng.once_in(2) {
        (repeat(&[true], shift), repeat(&[false], shift))
    } else {
        (repeat(&[true, false], shift), Vec::new())
    };
    [around.0, inside, around.1].concat()
}

#[cfg(test)]
mod tests {
    use super::*;
    use crate::forest::Forest;

    #[test]
    fn every_word_counts_up_by_catalan_numbers() {
        assert_eq!(every_word(14).len(), 1 + 1 + 2 + 5 + 14 + 42 + 132 + 429);
        assert!(every_word(10)
            .iter()
            .all(|word| Forest::grow(word).is_some()));
    }

    #[test]
    fn shapes_are_balanced_and_of_the_length_asked_for() {
        let mut rng = Rng::new(1);
        for choice in 0..shape_count() {
            for bits in [0, 2, 4, 6, 254, 256, 258, 1_024, 5_000] {
                let word = shaped_as(choice, bits, &mut rng);
                assert_eq!(word.bits.len(), bits, "{}", word.name);
                assert!(Forest::grow(&word.bits).is_some(), "{}", word.name);
            }
        }
    }

    #[test]
    fn lengths_keep_the_limit() {
        let mut rng = Rng::new(2);
        for _ in 0..1_000 {
            let bits = length(100, 5_000, &mut rng);
            assert!((100..=5_000).contains(&bits) && bits % 2 == 0);
            assert!(length(0, 4, &mut rng) <= 4);
        }
    }
}
