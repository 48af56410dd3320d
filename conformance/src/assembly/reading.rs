//! Reading a line, character by character: its label and its words, or the first mistake that shows.

use super::clauses::Clauses;
use super::Kind;
use std::mem::take;

/// A word of a line; a name as it is written.
#[derive(Clone, PartialEq, Eq, Debug)]
pub enum Word {
    Name(String),
    Number(u16),
}

/// A line without its comment.
#[derive(Clone, PartialEq, Eq, Debug, Default)]
pub struct Line {
    pub label: Option<String>,
    /// The words behind the label.
    pub words: Vec<Word>,
}

/// What a byte outside comments is.
#[derive(Clone, Copy, PartialEq, Eq, Debug)]
pub enum ByteClass {
    /// A letter, a digit or an underscore.
    Word,
    Separator,
    Colon,
    /// None of those that can stand in a line.
    Invalid,
}

/// A word as far as it is read.
#[derive(Clone, PartialEq, Eq, Debug, Default)]
pub enum PartialWord {
    #[default]
    Nothing,
    Name(String),
    /// `0`, which `x` may follow.
    Zero,
    Decimal(u16),
    /// `0x`
    Prefix,
    Hex(u16),
}

/// A digit more at a number's end. "at the digit that makes it larger", "at a letter, digit or underscore that can't go
/// on with the number"
pub fn with_digit(value: u16, base: u32, byte: u8) -> Result<u16, Kind> {
    let digit = char::from(byte).to_digit(base).ok_or(Kind::NumberMalformed)?;
    u16::try_from(u32::from(value) * base + digit).map_err(|_| Kind::NumberTooLarge)
}

/// What ends a word, or stands where none is.
#[derive(Clone, Copy, PartialEq, Eq)]
enum End {
    Separator,
    Colon,
    Line,
}

/// A word ends here, or there is none: what shows, in the order of the table; otherwise the word, or the label, is
/// read.
fn end(clauses: &dyn Clauses, line: &mut Line, part: &mut PartialWord, end: End) -> Result<(), Kind> {
    let part = take(part);
    let fifth = part != PartialWord::Nothing && clauses.too_many(line.words.len() + 1, line.label.is_some(), true);
    let colon = end == End::Colon && !clauses.label_stands(line, &part);
    let finished = clauses.finished(part);
    let mut shown: Vec<Kind> = finished.as_ref().err().copied().into_iter().collect();
    shown.extend(fifth.then_some(Kind::TooManyWords));
    shown.extend(colon.then_some(Kind::Colon));
    if let Some(kind) = clauses.first(&shown) {
        return Err(kind);
    }
    line.words.extend(finished.ok().flatten());
    if end == End::Colon {
        if let Some(Word::Name(name)) = line.words.pop() {
            line.label = Some(name);
        }
    }
    Ok(())
}

/// A line's label and words, or its mistake of reading.
pub fn read(clauses: &dyn Clauses, bytes: &[u8]) -> Result<Line, Kind> {
    let (mut line, mut part) = (Line::default(), PartialWord::Nothing);
    for byte in clauses.without_comment(bytes) {
        match clauses.byte_class(*byte) {
            ByteClass::Invalid => return Err(Kind::Character),
            ByteClass::Word => {
                if clauses.too_many(line.words.len() + 1, line.label.is_some(), false) {
                    return Err(Kind::TooManyWords);
                }
                part = clauses.extended(part, *byte)?;
            }
            ByteClass::Separator => end(clauses, &mut line, &mut part, End::Separator)?,
            ByteClass::Colon => end(clauses, &mut line, &mut part, End::Colon)?,
        }
    }
    end(clauses, &mut line, &mut part, End::Line)?;
    Ok(line)
}
