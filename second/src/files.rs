//! House files to compare on: one named file for each rule and edge, and damaged drafts.

use crate::answers::Lineage;
use crate::questions;
use crate::rng::Rng;
use crate::shapes;
use crate::word::pack;

const MAX_FILE_BITS: usize = 65_536;
const MAX_QUESTIONS: usize = 1_024;

/// An input, and what must be printed where the name settles it.
pub struct Named {
    pub name: String,
    pub input: Vec<u8>,
    pub printed: Option<String>,
}

pub fn field(tag: u8, value: &[u8]) -> Vec<u8> {
    let length = (value.len() as u16).to_be_bytes();
    [&[tag], &length[..], value].concat()
}

fn bits(m: u32) -> Vec<u8> {
    field(1, &m.to_be_bytes())
}

fn stretch(bytes: &[u8]) -> Vec<u8> {
    field(2, bytes)
}

fn question(numbers: &[u32]) -> Vec<u8> {
    let value: Vec<u8> = numbers.iter().flat_map(|n| n.to_be_bytes()).collect();
    field(3, &value)
}

/// The number of the root that stands at place 0: prints `0 0 0`.
fn ask() -> Vec<u8> {
    question(&[2, 0, 0])
}

const W: [u8; 2] = [0x5B, 0x04];

/// Every refusal, at the edge of its neighbours in the order, and the sound files beside them.
pub fn named() -> Vec<Named> {
    let mut files = Vec::new();
    let mut add = |name: &str, parts: &[Vec<u8>], printed: &str| {
        files.push(Named {
            name: name.into(),
            input: parts.concat(),
            printed: Some(printed.into()),
        })
    };
    sound_files(&mut add);
    cut_files(&mut add);
    unknown_and_misplaced_files(&mut add);
    wrong_length_files(&mut add);
    too_much_files(&mut add);
    refused_words(&mut add);
    files.extend(largest());
    files
}

type Add<'a> = &'a mut dyn FnMut(&str, &[Vec<u8>], &str);

fn sound_files(add: Add) {
    let w = || vec![bits(12), stretch(&W)];
    add("no questions", &w(), "");
    add("m = 0 and nothing else", &[bits(0)], "");
    let none = [
        bits(0),
        question(&[13, 0, 0]),
        question(&[3, 0, 0]),
        question(&[1, 0, 0]),
    ];
    add("m = 0 with questions", &none, "0 0 0\n16 0 0\n12 0 0\n");
    let two = [bits(12), stretch(&W[..1]), stretch(&W[1..]), ask()];
    add("two stretches", &two, "0 0 0\n");
    let spare = [bits(12), stretch(&[0x5B, 0xF4]), question(&[13, 0, 12])];
    add("bits past m set", &spare, "0 0 0\n");
    let codes = [
        w().concat(),
        question(&[15, 0, 0]),
        question(&[0, 99, 99]),
        question(&[1, u32::MAX, 0]),
        question(&[5, 0, 0]),
        question(&[13, 2, 1]),
        question(&[7, 6, u32::MAX]),
    ];
    let printed = "11 0 0\n11 0 0\n12 0 0\n14 0 0\n15 0 0\n16 0 0\n";
    add("a question of each refusal", &codes, printed);
}

fn cut_files(add: Add) {
    let cut = "refused 31\n";
    add("empty input", &[], cut);
    add("a lone known tag", &[vec![1]], cut);
    add("a lone unknown byte", &[bits(12), vec![9]], cut);
    add("a head without its length", &[bits(12), vec![2, 0]], cut);
    add(
        "a value cut short",
        &[bits(12), stretch(&W), vec![3, 0, 12, 0, 0]],
        cut,
    );
    add(
        "an unknown tag cut short",
        &[bits(12), vec![9, 0, 4, 1]],
        cut,
    );
    add("m cut short", &[vec![1, 0, 4, 0, 0, 0]], cut);
    add("a head alone", &[vec![2, 0, 1]], cut);
}

fn unknown_and_misplaced_files(add: Add) {
    let unknown = "refused 32\n";
    add("tag 0", &[bits(12), field(0, &[])], unknown);
    add("tag 4", &[bits(12), stretch(&W), field(4, &W)], unknown);
    add("unknown tag first", &[field(255, &[1]), bits(12)], unknown);
    let misplaced = "refused 33\n";
    add("word first", &[stretch(&W), bits(12)], misplaced);
    add("empty stretch first", &[stretch(&[]), bits(12)], misplaced);
    add("question first", &[ask(), bits(12)], misplaced);
    add("m twice", &[bits(12), bits(12), stretch(&W)], misplaced);
    let short_m = [bits(12), stretch(&W), field(1, &[0, 12])];
    add("a second m of a wrong length", &short_m, misplaced);
    let late_m = [bits(12), stretch(&W), ask(), bits(70_000)];
    add("a second m, too large", &late_m, misplaced);
    let late = [bits(12), stretch(&W[..1]), ask(), stretch(&W[1..])];
    add("word after a question", &late, misplaced);
    let empty = [bits(12), stretch(&W), ask(), stretch(&[])];
    add("empty stretch after a question", &empty, misplaced);
    let unknown_then = [bits(12), field(7, &[]), bits(12)];
    add("unknown tag before a misplaced one", &unknown_then, unknown);
    let misplaced_then = [stretch(&W), field(7, &[])];
    add("misplaced before unknown", &misplaced_then, misplaced);
}

fn wrong_length_files(add: Add) {
    let wrong = "refused 34\n";
    add("m of three bytes", &[field(1, &[0, 0, 12])], wrong);
    add("m of five bytes", &[field(1, &[0, 0, 0, 0, 12])], wrong);
    add("m of no bytes", &[field(1, &[])], wrong);
    add("empty stretch", &[bits(12), stretch(&[])], wrong);
    add("empty stretch, m = 0", &[bits(0), stretch(&[])], wrong);
    let eleven = [bits(12), stretch(&W), field(3, &[0; 11])];
    add("question of eleven bytes", &eleven, wrong);
    let thirteen = [bits(12), stretch(&W), field(3, &[0; 13])];
    add("question of thirteen bytes", &thirteen, wrong);
    let none = [bits(12), stretch(&W), field(3, &[])];
    add("question of no bytes", &none, wrong);
    let late = [bits(12), stretch(&W), ask().repeat(1_024), field(3, &[0])];
    add("a 1,025th question of a wrong length", &late, wrong);
}

fn too_much_files(add: Add) {
    let too_much = "refused 35\n";
    add("m = 65,537", &[bits(65_537)], too_much);
    add("m = 2,097,153", &[bits(2_097_153), vec![9]], too_much);
    add("m largest", &[bits(u32::MAX)], too_much);
    add("m too large, then cut", &[bits(65_538), vec![1]], too_much);
    add("a byte for m = 0", &[bits(0), stretch(&[0])], too_much);
    let third = [bits(12), stretch(&W), stretch(&[0])];
    add("a byte too many", &third, too_much);
    let third = [bits(12), stretch(&[0x5B, 4, 0]), vec![9, 9]];
    add("a byte too many, then cut", &third, too_much);
    let many = |count: usize| [bits(12), stretch(&W), ask().repeat(count)];
    add("1,024 questions", &many(1_024), &"0 0 0\n".repeat(1_024));
    add("1,025 questions", &many(1_025), too_much);
    let past = [many(1_025).concat(), vec![9, 0, 0]];
    add("1,025 questions, then unknown", &past, too_much);
    for (length, printed) in [
        (49_152, "refused 32\n"),
        (49_153, too_much),
        (70_000, too_much),
        (1_000_000, too_much),
    ] {
        let zeros = vec![0; length];
        add(&format!("{length} zeros"), &[zeros], printed);
    }
    let long = [many(3).concat(), vec![3; 60_000]];
    add("a sound beginning, too long", &long, too_much);
    let long_cut = [many(3).concat(), vec![3; 40_000]];
    add("a sound beginning, then threes", &long_cut, "refused 34\n");
}

fn refused_words(add: Add) {
    let (short, unbalanced) = ("refused 2\n", "refused 6\n");
    add("no word", &[bits(12), ask()], short);
    add(
        "a byte too few",
        &[bits(12), stretch(&W[..1]), ask()],
        short,
    );
    add(
        "odd and a byte too few",
        &[bits(9), stretch(&[0x55])],
        short,
    );
    add("odd m", &[bits(11), stretch(&W), ask()], unbalanced);
    add("m = 1, an opening", &[bits(1), stretch(&[1])], unbalanced);
    add("m = 1, a closing", &[bits(1), stretch(&[0])], unbalanced);
    add("closing first", &[bits(2), stretch(&[2])], unbalanced);
    add("left over", &[bits(2), stretch(&[3])], unbalanced);
    add(
        "no word but a fault",
        &[bits(12), ask(), field(9, &[])],
        "refused 32\n",
    );
    let fault = [bits(2), stretch(&[2]), field(3, &[])];
    add("unbalanced but a fault", &fault, "refused 34\n");
}

/// "65,536 bits and 1,024 questions", the word whole and in the smallest stretches.
fn largest() -> Vec<Named> {
    let mut rng = Rng::new(11);
    let mut files = Vec::new();
    for choice in 0..shapes::shape_count() {
        let shaped = shapes::shaped_as(choice, MAX_FILE_BITS, &mut rng);
        let lineage = Lineage::new(shaped.bits).expect("a balanced shape");
        for most in [MAX_FILE_BITS / 8, 1] {
            let draft = Draft::sound(&lineage, MAX_QUESTIONS, most, &mut rng);
            files.push(Named {
                name: format!("largest file: {}, stretches of {most}", shaped.name),
                input: draft.input(),
                printed: None,
            });
        }
    }
    files
}

/// A file as its fields, each with its tag, the length that it claims, and its value.
#[derive(Clone)]
struct Draft(Vec<(u8, u16, Vec<u8>)>);

impl Draft {
    fn sound(lineage: &Lineage, count: usize, most: usize, rng: &mut Rng) -> Draft {
        let mut fields = vec![(1, 4, lineage.m().to_be_bytes().to_vec())];
        let bytes = pack(&lineage.bits);
        let mut rest = &bytes[..];
        while !rest.is_empty() {
            let length = rng.within(1, most.min(rest.len()));
            let length = if most > 8_000 { rest.len() } else { length };
            fields.push((2, length as u16, rest[..length].to_vec()));
            rest = &rest[length..];
        }
        for three in questions::chosen(lineage, count, rng).chunks(3) {
            let value = three.iter().flat_map(|n| n.to_be_bytes()).collect();
            fields.push((3, 12, value));
        }
        Draft(fields)
    }

    fn input(&self) -> Vec<u8> {
        let mut input = Vec::new();
        for (tag, length, value) in &self.0 {
            input.push(*tag);
            input.extend(length.to_be_bytes());
            input.extend(value);
        }
        input
    }
}

/// A sound file of up to so many bits, or a damaged one; the reader of this program says which.
pub fn random(most_bits: usize, rng: &mut Rng) -> Named {
    let bits = shapes::length(0, most_bits.min(MAX_FILE_BITS), rng);
    let shaped = shapes::shaped(bits, rng);
    let lineage = Lineage::new(shaped.bits).expect("a balanced shape");
    let most = rng.pick(&[1, 3, 50, 10_000]);
    let count = rng.pick(&[0, 1, 5, 60]);
    let mut draft = Draft::sound(&lineage, count, most, rng);
    let mut name = shaped.name;
    if rng.once_in(2) {
        name += ", ";
        name += spoil_fields(&mut draft, rng);
    }
    let mut input = draft.input();
    if rng.once_in(3) {
        name += ", ";
        name += spoil_bytes(&mut input, rng);
    }
    Named {
        name,
        input,
        printed: None,
    }
}

fn spoil_fields(draft: &mut Draft, rng: &mut Rng) -> &'static str {
    let fields = &mut draft.0;
    let place = rng.below(fields.len());
    match rng.below(7) {
        0 => {
            fields[place].0 = rng.pick(&[0, 1, 2, 3, 4, 255]);
            "a tag changed"
        }
        1 => {
            let length = i32::from(fields[place].1) + rng.pick(&[-1, 1, 256]);
            fields[place].1 = length as u16;
            "a length changed"
        }
        2 => {
            let other = rng.below(fields.len());
            fields.swap(place, other);
            "two fields exchanged"
        }
        3 => {
            fields.remove(place);
            "a field left out"
        }
        4 => {
            let copy = fields[place].clone();
            fields.insert(rng.below(fields.len() + 1), copy);
            "a field twice"
        }
        5 => {
            let (_, length, value) = &mut fields[place];
            value.push(rng.next() as u8);
            *length += 1;
            "a value too long"
        }
        _ => {
            let (_, length, value) = &mut fields[place];
            if value.pop().is_some() {
                *length -= 1;
            }
            "a value too short"
        }
    }
}

fn spoil_bytes(input: &mut Vec<u8>, rng: &mut Rng) -> &'static str {
    match rng.below(3) {
        0 => {
            input.truncate(rng.below(input.len() + 1));
            "cut"
        }
        1 => {
            for _ in 0..rng.within(1, 3) {
                input.push(rng.pick(&[0, 1, 2, 3, 9]));
            }
            "bytes behind"
        }
        _ => {
            if !input.is_empty() {
                let place = rng.below(input.len());
                input[place] ^= 1 << rng.below(8);
            }
            "a bit flipped"
        }
    }
}

#[cfg(test)]
mod tests {
    use super::*;
    use crate::house;
    use std::collections::BTreeSet;

    #[test]
    fn the_largest_file_has_the_largest_size() {
        let sizes = largest().into_iter().map(|file| file.input.len());
        assert_eq!(sizes.max(), Some(7 + 8_192 * 4 + 1_024 * 15));
    }

    #[test]
    fn random_files_reach_every_refusal() {
        let mut rng = Rng::new(5);
        let mut first_lines = BTreeSet::new();
        for _ in 0..3_000 {
            let printed = house::run(&random(600, &mut rng).input);
            let line = printed.lines().next().unwrap_or("").to_string();
            first_lines.insert(line);
        }
        for number in [2, 6, 31, 32, 33, 34, 35] {
            assert!(first_lines.contains(&format!("refused {number}")));
        }
    }
}
