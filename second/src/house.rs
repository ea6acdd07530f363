//! The house file: its reader, its refusals in document 01's order, and the printed answers.

use crate::answers::{Lineage, Question};
use crate::word::{bytes_needed, unpack};

const MAX_INPUT: usize = 49_152;
const MAX_FILE_BITS: u32 = 65_536;
const MAX_QUESTIONS: usize = 1_024;

/// What the program prints for this input.
pub fn run(input: &[u8]) -> String {
    match read(input).and_then(answer) {
        Ok(lines) => lines,
        Err(number) => format!("refused {number}\n"),
    }
}

/// The question that a line of the printed answers belongs to.
pub fn question_of_line(input: &[u8], line: usize) -> Option<Question> {
    read(input).ok()?.questions.get(line).copied()
}

/// What has been read so far.
#[derive(Default)]
struct File {
    m: Option<u32>,
    word: Vec<u8>,
    questions: Vec<Question>,
}

fn read(input: &[u8]) -> Result<File, u32> {
    if input.len() > MAX_INPUT {
        return Err(35);
    }
    let mut file = File::default();
    let mut rest = input;
    // The first field is asked for even of an empty input, which is cut short.
    loop {
        let (tag, value, after) = field(rest)?;
        file.take(tag, value)?;
        if after.is_empty() {
            return Ok(file);
        }
        rest = after;
    }
}

/// Tag, value and what follows; 31 if the input ends before the field does.
fn field(rest: &[u8]) -> Result<(u8, &[u8], &[u8]), u32> {
    let &[tag, high, low, ref after @ ..] = rest else {
        return Err(31);
    };
    let length = usize::from(u16::from_be_bytes([high, low]));
    if after.len() < length {
        return Err(31);
    }
    let (value, after) = after.split_at(length);
    Ok((tag, value, after))
}

impl File {
    /// Refusals 32 to 35 of one whole field, in this order.
    fn take(&mut self, tag: u8, value: &[u8]) -> Result<(), u32> {
        if !(1..=3).contains(&tag) {
            return Err(32);
        }
        if !self.in_place(tag) {
            return Err(33);
        }
        match tag {
            1 => self.take_bits(value),
            2 => self.take_stretch(value),
            _ => self.take_question(value),
        }
    }

    /// Tag 1 "comes once, first"; "Tag 2 never follows tag 3".
    fn in_place(&self, tag: u8) -> bool {
        match tag {
            1 => self.m.is_none(),
            2 => self.m.is_some() && self.questions.is_empty(),
            _ => self.m.is_some(),
        }
    }

    fn take_bits(&mut self, value: &[u8]) -> Result<(), u32> {
        let m = u32::from_be_bytes(value.try_into().map_err(|_| 34u32)?);
        self.m = Some(m);
        if m > MAX_FILE_BITS {
            Err(35)
        } else {
            Ok(())
        }
    }

    fn take_stretch(&mut self, value: &[u8]) -> Result<(), u32> {
        if value.is_empty() {
            return Err(34);
        }
        self.word.extend_from_slice(value);
        if self.word.len() > bytes_needed(self.m.unwrap_or(0)) {
            Err(35)
        } else {
            Ok(())
        }
    }

    fn take_question(&mut self, value: &[u8]) -> Result<(), u32> {
        if value.len() != 12 {
            return Err(34);
        }
        let number = |i: usize| u32::from_be_bytes(value[4 * i..4 * i + 4].try_into().unwrap());
        self.questions
            .push(Question::new(number(0), number(1), number(2)));
        if self.questions.len() > MAX_QUESTIONS {
            Err(35)
        } else {
            Ok(())
        }
    }
}

/// "Then 2 and 6 as above", then a line for each question.
fn answer(file: File) -> Result<String, u32> {
    let m = file.m.unwrap_or(0);
    if file.word.len() < bytes_needed(m) {
        return Err(2);
    }
    let lineage = Lineage::new(unpack(&file.word, m)).ok_or(6u32)?;
    let mut lines = String::new();
    for &question in &file.questions {
        let answer = lineage.answer(question).expect("forest and walks agree");
        let [code, result, reads] = answer.numbers();
        lines += &format!("{code} {result} {reads}\n");
    }
    Ok(lines)
}
