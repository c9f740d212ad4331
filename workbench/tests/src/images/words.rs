//! Reads the words of a step.

use crate::playing::NoAnswer;
use edd_machine::Values;
use edd_plain_std::vec::Vec as PlainVec;
use edd_syntax::answer::Answer;
use edd_syntax::numbers::{ATTRIBUTES, Attr, AttrRef, ItemNo, KINDS, VarNo};
use std::str::FromStr;

/// Copies items into a list as the erased crates hold it.
pub fn listed<T: Clone>(items: &[T]) -> PlainVec<T> {
    PlainVec::from_real(items.to_vec())
}

/// Reads a number of any type.
pub fn number<N: FromStr>(word: &str) -> Result<N, NoAnswer> {
    word.parse()
        .map_err(|_| NoAnswer::Row("not a number in its range"))
}

/// Splits off the word before the first blank.
pub fn first_of(words: &str) -> (&str, &str) {
    words.split_once(' ').unwrap_or((words, ""))
}

/// Splits the words before the first colon from those behind it.
pub fn around_colon(words: &str) -> (&str, &str) {
    let (before, after) = words.split_once(':').unwrap_or((words, ""));
    (before.trim_end(), after.trim_start())
}

/// Reads numbers with blanks between them.
pub fn numbers_of(words: &str) -> Result<Vec<i64>, NoAnswer> {
    words.split_ascii_whitespace().map(number).collect()
}

/// Reads the numbers of a device, which may be no values of the image.
pub fn values_of(words: &str) -> Result<Values, NoAnswer> {
    let numbers = PlainVec::from_real(numbers_of(words)?);
    Ok(Values { numbers })
}

/// Reads an item, as `variable 0`.
pub fn item_of(words: &str) -> Result<ItemNo, NoAnswer> {
    let (word, index) = first_of(words);
    let kind = KINDS.into_iter().find(|kind| kind.word() == word);
    let kind = kind.ok_or(NoAnswer::Row("no such kind of items"))?;
    Ok(kind.item(number(index)?))
}

fn attribute_of(word: &str) -> Result<Attr, NoAnswer> {
    let attribute = ATTRIBUTES
        .into_iter()
        .find(|attribute| attribute.word() == word);
    attribute.ok_or(NoAnswer::Row("no such attribute"))
}

/// Reads an attribute of an item, as `VALIDITY 0 of variable 0`; the first number is its position.
pub fn reference_of(words: &str) -> Result<AttrRef, NoAnswer> {
    let halves = words.split_once(" of ");
    let (attribute, item) = halves.ok_or(NoAnswer::Row("not an attribute of an item"))?;
    let (word, position) = first_of(attribute);
    Ok(AttrRef {
        item: item_of(item)?,
        attr: attribute_of(word)?,
        sub: number(position)?,
    })
}

/// Reads a variable and the value that it is set to, as `0=6`.
fn set_of(word: &str) -> Result<(VarNo, i64), NoAnswer> {
    let halves = word.split_once('=');
    let (variable, value) = halves.ok_or(NoAnswer::Row("not a variable and its value"))?;
    Ok((VarNo(number(variable)?), number(value)?))
}

/// Reads an answer: `abort`, or a code and what is set before, as `10 0=6`.
fn answer_of(words: &str) -> Result<Answer, NoAnswer> {
    if words == "abort" {
        return Ok(Answer::Abort);
    }
    let (code, sets) = first_of(words);
    let sets: Result<_, _> = sets.split_ascii_whitespace().map(set_of).collect();
    Ok(Answer::Go {
        code: number(code)?,
        sets: PlainVec::from_real(sets?),
    })
}

/// Reads answers with semicolons between them.
pub fn answers_of(words: &str) -> Result<Vec<Answer>, NoAnswer> {
    let parts = words.split(';').map(str::trim);
    parts
        .filter(|part| !part.is_empty())
        .map(answer_of)
        .collect()
}

#[cfg(test)]
mod tests {
    use super::*;
    use edd_syntax::numbers::{ArrNo, MethNo};

    #[test]
    fn numbers_are_read_in_their_range() {
        assert_eq!(number::<i64>("-5"), Ok(-5));
        assert!(number::<u8>("256").is_err());
        assert_eq!(numbers_of(" 1  -2 "), Ok(vec![1, -2]));
        assert!(numbers_of("1 x").is_err());
    }

    #[test]
    fn attributes_are_read_with_their_position_and_item() {
        let found = reference_of("DEFINITION 3 of method 7").unwrap();
        assert_eq!((found.attr, found.sub), (Attr::Definition, 3));
        assert_eq!(found.item, ItemNo::Method(MethNo(7)));
        assert!(reference_of("DEFINITION 3").is_err());
        assert!(reference_of("ABC 3 of method 7").is_err());
        assert_eq!(item_of("array 1"), Ok(ItemNo::Array(ArrNo(1))));
        assert!(item_of("arrow 1").is_err());
    }

    #[test]
    fn answers_are_read_with_their_sets() {
        let answers = answers_of("abort; 10 0=6 1=-7;").unwrap();
        let [Answer::Abort, Answer::Go { code: 10, sets }] = answers.as_slice() else {
            panic!("other answers");
        };
        assert_eq!(sets.as_slice(), [(VarNo(0), 6), (VarNo(1), -7)]);
        assert!(answers_of("10 0").is_err());
        assert!(answers_of("go").is_err());
    }

    #[test]
    fn words_are_split_at_a_colon() {
        assert_eq!(around_colon("0 40 5 : 10; 20"), ("0 40 5", "10; 20"));
        assert_eq!(around_colon("0"), ("0", ""));
    }
}
