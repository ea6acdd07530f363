//! Damaged inputs: each fault alone, then several at once, so that the order of refusals shows.

use crate::calls::Model;
use crate::compare::{Batch, Compare, Difference, Tally};
use crate::face::Face;
use crate::questions;
use crate::rng::Rng;
use crate::shapes::{self, Shaped};
use crate::word::{pack, MAX_BITS};

/// Everything that a batch is lent, to be spoiled.
#[derive(Clone)]
struct Call {
    bytes: Vec<u8>,
    m: u32,
    index: Vec<i32>,
    questions: Vec<u32>,
    answers: usize,
}

type Fault = fn(&mut Call, &mut Rng);

/// Some of these leave the call sound; the model says which.
const FAULTS: [(&str, Fault); 27] = [
    ("bit flipped", flip_bit),
    ("first bit flipped", flip_first_bit),
    ("last bit flipped", flip_last_bit),
    ("two bits exchanged", exchange_bits),
    ("m one more", one_bit_more),
    ("m one less", one_bit_less),
    ("m two less", two_bits_less),
    ("bits past m set", set_bits_past_m),
    ("further bytes", further_bytes),
    ("a byte missing", drop_byte),
    ("no bytes", drop_bytes),
    ("m one past the limit", m_past_limit),
    ("m largest", m_largest),
    ("entry 0 changed", |call, rng| change_entry(call, 0, rng)),
    ("entry 1 changed", |call, rng| change_entry(call, 1, rng)),
    ("last entry changed", |call, rng| {
        change_entry(call, (call.index.len() / 4).saturating_sub(1), rng)
    }),
    ("some entry changed", |call, rng| {
        let entry = rng.below((call.index.len() / 4).max(1));
        change_entry(call, entry, rng)
    }),
    ("index number too few", |call, _| {
        call.index.pop();
    }),
    ("no index", |call, _| call.index.clear()),
    ("half an index", |call, _| {
        call.index.truncate(call.index.len() / 2)
    }),
    ("further index numbers", |call, rng| {
        call.index.push(rng.next() as i32)
    }),
    ("a question number too many", |call, rng| {
        call.questions.push(rng.next() as u32);
        call.answers += 1;
    }),
    ("two question numbers too many", |call, rng| {
        call.questions.extend([1, rng.next() as u32]);
        call.answers += 2;
    }),
    ("no questions", |call, _| call.questions.clear()),
    ("an answer number too few", |call, _| {
        call.answers = call.questions.len().saturating_sub(1)
    }),
    ("no answers", |call, _| call.answers = 0),
    ("further answer numbers", |call, rng| {
        call.answers += rng.within(1, 5)
    }),
];

/// Each fault alone on a word, and so many mixtures.
pub fn of_word(
    face: &dyn Face,
    shaped: &Shaped,
    mixtures: usize,
    rng: &mut Rng,
) -> Result<Tally, Difference> {
    let sound = sound_call(shaped, rng);
    let mut tally = Tally::default();
    for (name, fault) in FAULTS {
        let mut call = sound.clone();
        fault(&mut call, rng);
        tally += compare(face, format!("{}: {name}", shaped.name), &call)?;
    }
    for _ in 0..mixtures {
        let (name, call) = mixed(&sound, rng);
        tally += compare(face, format!("{}: {name}", shaped.name), &call)?;
    }
    Ok(tally)
}

/// Damaged words of up to so many bits.
pub fn random(
    face: &dyn Face,
    most_bits: usize,
    words: usize,
    mixtures: usize,
    rng: &mut Rng,
) -> Result<Tally, Difference> {
    let mut tally = Tally::default();
    for _ in 0..words {
        let bits = shapes::length(0, most_bits, rng);
        let shaped = shapes::shaped(bits, rng);
        tally += of_word(face, &shaped, mixtures, rng)?;
    }
    Ok(tally)
}

/// A few faults on a word that is too large to try them all.
pub fn few_of_word(
    face: &dyn Face,
    shaped: &Shaped,
    few: usize,
    rng: &mut Rng,
) -> Result<Tally, Difference> {
    let sound = sound_call(shaped, rng);
    let mut tally = Tally::default();
    for _ in 0..few {
        let (name, fault) = rng.pick(&FAULTS);
        let mut call = sound.clone();
        fault(&mut call, rng);
        tally += compare(face, format!("{}: {name}", shaped.name), &call)?;
    }
    Ok(tally)
}

fn sound_call(shaped: &Shaped, rng: &mut Rng) -> Call {
    let bytes = pack(&shaped.bits);
    let m = shaped.bits.len() as u32;
    let model = Model::new(&bytes, m);
    let lineage = model.sound();
    let questions = questions::chosen(lineage, 12, rng);
    Call {
        index: lineage.index.numbers(),
        answers: questions.len(),
        questions,
        m,
        bytes,
    }
}

fn mixed(sound: &Call, rng: &mut Rng) -> (String, Call) {
    let mut call = sound.clone();
    let mut names = Vec::new();
    for _ in 0..rng.within(2, 4) {
        let (name, fault) = rng.pick(&FAULTS);
        fault(&mut call, rng);
        names.push(name);
    }
    (names.join(" + "), call)
}

/// All three entry points see the damaged input.
fn compare(face: &dyn Face, name: String, call: &Call) -> Result<Tally, Difference> {
    let model = Model::new(&call.bytes, call.m);
    let compare = Compare::new(face, name);
    compare.judge(&model)?;
    compare.build(&model, call.index.len())?;
    let batch = Batch {
        index: &call.index,
        questions: &call.questions,
        answers: call.answers,
    };
    compare.batch(&model, &batch)?;
    Ok(Tally {
        damaged: 1,
        ..Tally::default()
    })
}

/// The bits that can be spoiled: those of m that are lent.
fn lent_bits(call: &Call) -> usize {
    (call.m as usize).min(8 * call.bytes.len())
}

fn flip(call: &mut Call, place: usize) {
    if place < lent_bits(call) {
        call.bytes[place / 8] ^= 1 << (place % 8);
    }
}

fn flip_bit(call: &mut Call, rng: &mut Rng) {
    let place = rng.below(lent_bits(call).max(1));
    flip(call, place);
}

fn flip_first_bit(call: &mut Call, _: &mut Rng) {
    flip(call, 0);
}

fn flip_last_bit(call: &mut Call, _: &mut Rng) {
    let last = lent_bits(call).saturating_sub(1);
    flip(call, last);
}

/// As many openings as before, so that only the order can be at fault, or the index.
fn exchange_bits(call: &mut Call, rng: &mut Rng) {
    let bits = lent_bits(call).max(1);
    let (one, other) = (rng.below(bits), rng.below(bits));
    let opens = |place: usize| {
        call.bytes
            .get(place / 8)
            .map(|byte| byte >> (place % 8) & 1)
    };
    if opens(one) != opens(other) {
        flip(call, one);
        flip(call, other);
    }
}

fn one_bit_more(call: &mut Call, rng: &mut Rng) {
    if call.m % 8 == 0 {
        call.bytes.push(rng.next() as u8);
    }
    call.m = call.m.saturating_add(1);
}

fn one_bit_less(call: &mut Call, _: &mut Rng) {
    call.m = call.m.saturating_sub(1);
}

fn two_bits_less(call: &mut Call, _: &mut Rng) {
    call.m = call.m.saturating_sub(2);
}

fn set_bits_past_m(call: &mut Call, _: &mut Rng) {
    let spare = call.m % 8;
    if spare != 0 && call.bytes.len() == (call.m as usize).div_ceil(8) {
        let last = call.bytes.len() - 1;
        call.bytes[last] |= 0xFF << spare;
    }
}

fn further_bytes(call: &mut Call, rng: &mut Rng) {
    for _ in 0..rng.within(1, 40) {
        call.bytes.push(rng.next() as u8);
    }
}

fn drop_byte(call: &mut Call, _: &mut Rng) {
    call.bytes.pop();
}

fn drop_bytes(call: &mut Call, _: &mut Rng) {
    call.bytes.clear();
}

fn m_past_limit(call: &mut Call, _: &mut Rng) {
    call.m = MAX_BITS + 1;
}

fn m_largest(call: &mut Call, _: &mut Rng) {
    call.m = u32::MAX;
}

/// One number of the entry becomes another.
fn change_entry(call: &mut Call, entry: usize, rng: &mut Rng) {
    let place = 4 * entry + rng.below(4);
    let any = rng.next() as i32 | 1;
    let change = rng.pick(&[1, -1, 256, i32::MIN, any]);
    if let Some(number) = call.index.get_mut(place) {
        *number = number.wrapping_add(change);
    }
}

#[cfg(test)]
mod tests {
    use super::*;
    use std::collections::BTreeSet;

    /// The faults must lead to every refusal of a batch, and to none.
    #[test]
    fn every_refusal_comes_up() {
        let mut rng = Rng::new(4);
        let mut codes = BTreeSet::new();
        for _ in 0..20 {
            let shaped = shapes::shaped(700, &mut rng);
            let sound = sound_call(&shaped, &mut rng);
            for (_, fault) in FAULTS {
                let mut call = sound.clone();
                fault(&mut call, &mut rng);
                let model = Model::new(&call.bytes, call.m);
                let mut answers = vec![0; call.answers];
                let outcome = model.batch(&call.index, &call.questions, &mut answers);
                codes.insert(outcome.unwrap().code);
            }
        }
        assert_eq!(Vec::from_iter(codes), [0, 1, 2, 3, 4, 5, 6, 7]);
    }
}
