//! Damaged house files: the second program's sound and spoiled ones, damaged further byte by byte.
// All damages have one type, also those that keep the length.
#![allow(clippy::ptr_arg)]

use std::fs;
use std::io;
use std::path::Path;

use crate::files;
use crate::rng::Rng;

/// Bytes at which a tag, a length or a number could tear.
const BYTES: [u8; 12] = [0, 1, 2, 3, 4, 12, 13, 16, 127, 128, 192, 255];

/// The largest input that is read, and one less and one more.
const EDGES: [usize; 3] = [49_151, 49_152, 49_153];

type Damage = fn(&mut Vec<u8>, &mut Rng);

const DAMAGES: [Damage; 9] = [
    flip, overwrite, number, insert, remove, repeat, splice, cut, fill,
];

/// A file, and lengths of the pieces in which it is to be handed over.
pub fn draw(rng: &mut Rng) -> (Vec<u8>, Vec<usize>) {
    let most_bits = rng.pick(&[16, 600, 600, 5_000, 65_536]);
    let mut input = files::random(most_bits, rng).input;
    if !rng.once_in(3) {
        for _ in 0..rng.pick(&[1, 1, 2, 4, 16]) {
            rng.pick(&DAMAGES)(&mut input, rng);
        }
    }
    let most = rng.pick(&[1, 3, 64, 5_000]);
    let pieces = (0..rng.pick(&[0, 0, 1, 20]))
        .map(|_| rng.within(1, most))
        .collect();
    (input, pieces)
}

fn place(input: &[u8], rng: &mut Rng) -> usize {
    rng.below(input.len() + 1)
}

/// Two places in order.
fn stretch(input: &[u8], rng: &mut Rng) -> (usize, usize) {
    let first = place(input, rng);
    let length = rng.pick(&[1, 3, 15, 300]);
    (first, (first + rng.within(1, length)).min(input.len()))
}

fn flip(input: &mut Vec<u8>, rng: &mut Rng) {
    let at = place(input, rng);
    if let Some(byte) = input.get_mut(at) {
        *byte ^= 1 << rng.below(8);
    }
}

fn overwrite(input: &mut Vec<u8>, rng: &mut Rng) {
    let at = place(input, rng);
    if let Some(byte) = input.get_mut(at) {
        *byte = rng.pick(&BYTES);
    }
}

/// Two or four bytes that spell an edge.
fn number(input: &mut Vec<u8>, rng: &mut Rng) {
    let value: u32 = rng.pick(&[
        0,
        1,
        12,
        256,
        65_535,
        65_536,
        65_537,
        2_097_152,
        1 << 31,
        u32::MAX,
    ]);
    let bytes = value.to_be_bytes();
    let bytes = &bytes[rng.pick(&[0, 2])..];
    let at = place(input, rng);
    for (old, &new) in input[at..].iter_mut().zip(bytes) {
        *old = new;
    }
}

fn insert(input: &mut Vec<u8>, rng: &mut Rng) {
    let at = place(input, rng);
    for _ in 0..rng.within(1, 4) {
        input.insert(at, rng.pick(&BYTES));
    }
}

fn remove(input: &mut Vec<u8>, rng: &mut Rng) {
    let (first, end) = stretch(input, rng);
    input.drain(first..end);
}

fn repeat(input: &mut Vec<u8>, rng: &mut Rng) {
    let (first, end) = stretch(input, rng);
    let copy = input[first..end].to_vec();
    let at = place(input, rng);
    let times = rng.pick(&[1, 1, 2, 1_100]);
    input.splice(at..at, copy.repeat(times));
}

/// The end of another file behind the beginning of this one.
fn splice(input: &mut Vec<u8>, rng: &mut Rng) {
    let other = files::random(600, rng).input;
    let from = place(&other, rng);
    let at = place(input, rng);
    input.truncate(at);
    input.extend(&other[from..]);
}

fn cut(input: &mut Vec<u8>, rng: &mut Rng) {
    let at = place(input, rng);
    input.truncate(at);
}

/// Up to the edge of what is read at all.
fn fill(input: &mut Vec<u8>, rng: &mut Rng) {
    if rng.once_in(4) {
        let length = rng.pick(&EDGES);
        let byte = rng.pick(&BYTES);
        input.resize(length.max(input.len()), byte);
    }
}

/// The rule's own files and a few drawn ones; small, since AFL++ begins with them.
pub fn write_seeds(folder: &Path) -> io::Result<()> {
    fs::create_dir_all(folder)?;
    let mut rng = Rng::new(3);
    let drawn = (0..8).map(|_| files::random(600, &mut rng));
    let small = files::named()
        .into_iter()
        .chain(drawn)
        .filter(|file| file.input.len() < 2_000);
    for (i, file) in small.enumerate() {
        fs::write(folder.join(format!("{i:03}.house")), file.input)?;
    }
    Ok(())
}

#[cfg(test)]
mod tests {
    use super::*;
    use crate::house;
    use std::collections::BTreeSet;

    #[test]
    fn every_damage_takes_every_length() {
        let mut rng = Rng::new(1);
        for damage in DAMAGES {
            for length in [0, 1, 2, 3, 40] {
                for _ in 0..100 {
                    damage(&mut vec![3; length], &mut rng);
                }
            }
        }
    }

    #[test]
    fn damaged_files_reach_every_refusal_and_some_answers() {
        let mut rng = Rng::new(2);
        let mut beginnings = BTreeSet::new();
        for _ in 0..1_000 {
            let printed = house::run(&draw(&mut rng).0);
            beginnings.insert(printed.lines().next().unwrap_or("").to_string());
        }
        for number in [2, 6, 31, 32, 33, 34, 35] {
            assert!(beginnings.contains(&format!("refused {number}")));
        }
        assert!(beginnings.iter().any(|line| line.starts_with("0 ")));
    }
}
