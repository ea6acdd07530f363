//! Document 01's examples, each with its reads, and the house file that it prints whole.
//! They hold the second program to the document before anything is compared with it.

use crate::answers::{Answer, Lineage, Question};
use crate::calls::{accepted, refusal, Model};
use crate::house;
use crate::word::{from_text, pack};

/// Kind, a, b, then code, result, reads.
type Example = [u32; 6];

/// "W is `(()(()()))()`: m = 12 ... Reads are 0 throughout."
const OF_W: [Example; 23] = [
    [1, 4, 0, 0, 2, 0],
    [2, 6, 0, 0, 4, 0],
    [3, 3, 0, 0, 4, 0],
    [3, 6, 0, 16, 0, 0],
    [4, 3, 0, 0, 8, 0],
    [6, 10, 0, 16, 0, 0],
    [7, 6, 2, 0, 0, 0],
    [7, 6, 3, 16, 0, 0],
    [8, 3, 0, 0, 3, 0],
    [9, 0, 0, 0, 2, 0],
    [10, 1, 0, 16, 0, 0],
    [11, 1, 0, 0, 3, 0],
    [11, 3, 0, 16, 0, 0],
    [11, 0, 0, 0, 10, 0],
    [12, 3, 6, 0, 3, 0],
    [12, 0, 10, 16, 0, 0],
    [13, 2, 8, 0, 3, 0],
    [13, 5, 7, 0, 6, 0],
    [13, 0, 12, 0, 0, 0],
    [14, 3, 6, 0, 1, 0],
    [14, 6, 3, 0, 0, 0],
    [1, 2, 0, 13, 0, 0],
    [1, 12, 0, 12, 0, 0],
];

/// "V is 256 openings and 256 closings".
const OF_V: [Example; 3] = [
    [4, 0, 0, 0, 511, 1],
    [5, 511, 0, 0, 0, 1],
    [6, 255, 0, 0, 254, 0],
];

/// "m = 0: n is 0, eight zeros, 13 of 0, 0 answers 0, 3 of 0 is 16."
const OF_NOTHING: [Example; 2] = [[13, 0, 0, 0, 0, 0], [3, 0, 0, 16, 0, 0]];

const HOUSE_FILE: &str = "01 0004 0000000C 02 0002 5B04 03 000C 0000000C 00000004 00000006 \
                          03 000C 00000006 0000000A 00000000";

pub fn word_w() -> Vec<bool> {
    from_text("(()(()()))()")
}

pub fn word_v() -> Vec<bool> {
    from_text(&("(".repeat(256) + &")".repeat(256)))
}

/// How many examples hold, or the first that doesn't.
pub fn check() -> Result<u64, String> {
    let v_index = [
        [0, 0, 0, 0],
        [0, 0, 256, 1],
        [256, 1, 256, 1],
        [-256, -256, -1, 1],
    ];
    check_word(word_w(), &[0, 0, 0, 0, 0, 0, 3, 2], &OF_W)?;
    check_word(word_v(), v_index.as_flattened(), &OF_V)?;
    check_word(Vec::new(), &[0; 8], &OF_NOTHING)?;
    check_limits()?;
    let printed = house::run(&from_hex(HOUSE_FILE));
    same("the house file", &printed.as_str(), &"0 3 0\n16 0 0\n")?;
    Ok((OF_W.len() + OF_V.len() + OF_NOTHING.len()) as u64)
}

fn check_word(bits: Vec<bool>, index: &[i32], examples: &[Example]) -> Result<(), String> {
    let lineage = Lineage::new(bits).ok_or("an example word isn't balanced")?;
    same("the index", &lineage.index.numbers().as_slice(), &index)?;
    for &[kind, a, b, code, result, reads] in examples {
        let answer = lineage.answer(Question::new(kind, a, b))?;
        let wanted = Answer {
            code,
            result,
            reads,
        };
        same(&format!("kind {kind} of {a}, {b}"), &answer, &wanted)?;
    }
    Ok(())
}

/// "m = 256 needs 8 index numbers, 258 needs 16. m = 2,097,152 passes refusal 1; one bit more doesn't."
fn check_limits() -> Result<(), String> {
    for (m, needed) in [(0, 8), (12, 8), (256, 8), (258, 16)] {
        let bytes = pack(&from_text(&"()".repeat(m / 2)));
        for lent in [needed - 1, needed] {
            let outcome = Model::new(&bytes, m as u32).build(&mut vec![0; lent]);
            let wanted = match lent == needed {
                true => accepted(m / 2),
                false => refusal(3),
            };
            same(&format!("{lent} numbers for m = {m}"), &outcome, &wanted)?;
        }
    }
    same(
        "m = 2097152",
        &Model::new(&[], 2_097_152).judge(),
        &refusal(2),
    )?;
    same(
        "m = 2097153",
        &Model::new(&[], 2_097_153).judge(),
        &refusal(1),
    )
}

fn same<T: PartialEq + std::fmt::Debug>(what: &str, got: &T, wanted: &T) -> Result<(), String> {
    match got == wanted {
        true => Ok(()),
        false => Err(format!("{what}: document 01 says {wanted:?}, got {got:?}")),
    }
}

pub fn from_hex(text: &str) -> Vec<u8> {
    let digits: String = text.split_whitespace().collect();
    (0..digits.len() / 2)
        .map(|i| u8::from_str_radix(&digits[2 * i..2 * i + 2], 16).expect("hexadecimal"))
        .collect()
}

#[cfg(test)]
mod tests {
    #[test]
    fn every_example_holds() {
        assert_eq!(super::check(), Ok(28));
    }
}
