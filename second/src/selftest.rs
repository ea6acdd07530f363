//! The self-test, which needs neither archive nor program: document 01's examples, then forest against
//! walks on every small word, with blocks so small that those words have high indexes.

use crate::answers::{Lineage, Question};
use crate::compare::Tally;
use crate::examples;
use crate::files;
use crate::forest::Forest;
use crate::house;
use crate::questions;
use crate::rng::Rng;
use crate::shapes;
use crate::word::{balanced_by_definition, to_text};

const SMALL_BITS: usize = 14;

/// Document 01's own, and some that give fourteen bits an index of height 1 to 4.
const BLOCKS: [usize; 5] = [256, 1, 2, 4, 8];

pub fn run(seed: u64) -> Result<Tally, String> {
    let examples = examples::check()?;
    println!("document 01: {examples} answers, three indexes, the limits and the house file hold");
    let judged = every_row()?;
    println!("every row up to {SMALL_BITS} bits, {judged} of them: judged as the definition does");
    let files = house_files()?;
    println!("{files} house files by rule: printed as their rule says");
    let mut tally = every_small_word()?;
    println!("every word up to {SMALL_BITS} bits: forest and walks agree");
    tally += random_words(seed)?;
    println!("random words up to 2097152 bits: forest and walks agree");
    Ok(tally)
}

/// Every row of bits, balanced or not: the forest grows exactly of those that the definition allows.
fn every_row() -> Result<u64, String> {
    let mut judged = 0;
    for m in 0..=SMALL_BITS {
        for number in 0..1u32 << m {
            let bits: Vec<bool> = (0..m).map(|i| number >> i & 1 == 1).collect();
            if Forest::grow(&bits).is_some() != balanced_by_definition(&bits) {
                return Err(format!("{}: judged wrongly", to_text(&bits)));
            }
            judged += 1;
        }
    }
    Ok(judged)
}

fn house_files() -> Result<usize, String> {
    let files = files::named();
    for file in &files {
        let printed = house::run(&file.input);
        if file.printed.as_ref().is_some_and(|rule| *rule != printed) {
            return Err(format!("house file, {}: printed {printed:?}", file.name));
        }
    }
    Ok(files.len())
}

fn every_small_word() -> Result<Tally, String> {
    let mut tally = Tally::default();
    for bits in shapes::every_word(SMALL_BITS) {
        let questions = questions::every(bits.len() as u32);
        for block_bits in BLOCKS {
            let name = format!("{}, blocks of {block_bits}", to_text(&bits));
            let lineage = Lineage::with_blocks(bits.clone(), block_bits);
            let lineage = lineage.ok_or_else(|| format!("{name}: not balanced"))?;
            tally += agree(&name, &lineage, &questions)?;
        }
    }
    Ok(tally)
}

fn random_words(seed: u64) -> Result<Tally, String> {
    let mut rng = Rng::new(seed);
    let mut tally = Tally::default();
    for (most_bits, words, blocks) in [(3_000, 300, 4), (60_000, 60, 64), (2_097_152, 12, 256)] {
        for _ in 0..words {
            let bits = shapes::length(0, most_bits, &mut rng);
            let shaped = shapes::shaped(bits, &mut rng);
            let block_bits = rng.pick(&[256, blocks]);
            let lineage = Lineage::with_blocks(shaped.bits, block_bits)
                .ok_or_else(|| format!("{}: not balanced", shaped.name))?;
            let questions = questions::chosen(&lineage, 2_000, &mut rng);
            tally += agree(&shaped.name, &lineage, &questions)?;
        }
    }
    Ok(tally)
}

/// Forest and walks agree, and no question reads more than four times h.
fn agree(name: &str, lineage: &Lineage, questions: &[u32]) -> Result<Tally, String> {
    let most = 4 * lineage.index.height();
    for three in questions.chunks(3) {
        let question = Question::new(three[0], three[1], three[2]);
        let answer = lineage
            .answer(question)
            .map_err(|both| format!("{name}: {question:?}: {both}"))?;
        if answer.reads > most {
            return Err(format!("{name}: {question:?}: {} reads", answer.reads));
        }
    }
    Ok(Tally {
        words: 1,
        questions: questions.len() as u64 / 3,
        ..Tally::default()
    })
}

#[cfg(test)]
mod tests {
    #[test]
    fn the_self_test_passes() {
        super::run(1).unwrap();
    }
}
