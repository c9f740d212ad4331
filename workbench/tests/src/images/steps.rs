//! Steps on an image, written as a text.
//!
//! - `steps`: a line is a call, and behind ` -> ` its answer. Lines that begin with a `#` are comments.

use super::session::Bench;
use super::words::{
    answers_of, around_colon, first_of, item_of, number, numbers_of, reference_of, values_of,
};
use crate::playing::NoAnswer;
use edd_loader::{Image, load};
use edd_machine::{Values, attribute, set_fault};
use edd_plain_std::alloc::Global;
use edd_port::play;
use edd_syntax::numbers::{ArrNo, MethNo, StrNo, VarNo};

/// Takes steps on an image, and returns each with its answer.
pub fn steps_on(bytes: &[u8], steps: &str) -> Result<String, NoAnswer> {
    let image = match load(Global, bytes) {
        Ok(image) => image,
        Err(fault) => return Ok(fault.to_string()),
    };
    let mut bench = Bench::default();
    let lines = steps
        .split('\n')
        .map(|line| line_on(&image, &mut bench, line));
    Ok(lines.collect::<Result<Vec<_>, _>>()?.join("\n"))
}

/// Returns a line with the answer to its step.
fn line_on<'i, 'b>(
    image: &'i Image<'b>,
    bench: &mut Bench<'i, 'b>,
    line: &str,
) -> Result<String, NoAnswer> {
    if line.is_empty() || line.starts_with('#') {
        return Ok(line.to_owned());
    }
    let (step, _) = line.split_once(" -> ").unwrap_or((line, ""));
    let answer = answer_to(image, bench, step)?;
    Ok(format!("{step} -> {answer}"))
}

fn answer_to<'i, 'b>(
    image: &'i Image<'b>,
    bench: &mut Bench<'i, 'b>,
    step: &str,
) -> Result<String, NoAnswer> {
    let (kind, words) = first_of(step);
    match kind {
        "counts" => Ok(format!("{:?}", image.counts())),
        "find" => Ok(format!("{:?}", image.find(words))),
        "name" => Ok(format!("{:?}", image.name(item_of(words)?))),
        "variable" => Ok(format!("{:?}", image.variable(VarNo(number(words)?)))),
        "text" => text(image, words),
        "element" => element(image, words),
        "values" => values(image, words),
        "value_of" => value_of(image, words),
        "set" => set(image, words),
        "read" => read(image, words),
        "play" => played(image, words),
        "start" => bench.start(image, words),
        _ => bench.step(kind, words),
    }
}

/// The text of a string for a language: `text NUMBER LANGUAGE`.
fn text(image: &Image<'_>, words: &str) -> Result<String, NoAnswer> {
    let (string, language) = first_of(words);
    Ok(format!(
        "{:?}",
        image.text(StrNo(number(string)?), language)
    ))
}

/// The variable of an element: `element ARRAY NUMBER`.
fn element(image: &Image<'_>, words: &str) -> Result<String, NoAnswer> {
    let (array, index) = first_of(words);
    Ok(format!(
        "{:?}",
        image.element(ArrNo(number(array)?), number(index)?)
    ))
}

/// Values of a device: `values NUMBERS`.
fn values(image: &Image<'_>, words: &str) -> Result<String, NoAnswer> {
    Ok(match Values::new(Global, image, &numbers_of(words)?) {
        Ok(values) => format!("{:?} {}", values.numbers, values.are_of(image)),
        Err(fault) => format!("{fault:?}"),
    })
}

/// The value of a variable in values of a device: `value_of VARIABLE NUMBERS`.
fn value_of(image: &Image<'_>, words: &str) -> Result<String, NoAnswer> {
    let (variable, numbers) = first_of(words);
    let variable = VarNo(number(variable)?);
    Ok(match Values::new(Global, image, &numbers_of(numbers)?) {
        Ok(values) => format!("{:?}", values.get(variable)),
        Err(fault) => format!("{fault:?}"),
    })
}

/// Why a variable can't be set: `set VARIABLE NUMBER`.
fn set(image: &Image<'_>, words: &str) -> Result<String, NoAnswer> {
    let (variable, value) = first_of(words);
    Ok(format!(
        "{:?}",
        set_fault(image, VarNo(number(variable)?), number(value)?)
    ))
}

/// The records of an attribute under values: `read ATTRIBUTE : NUMBERS`.
fn read(image: &Image<'_>, words: &str) -> Result<String, NoAnswer> {
    let (of, numbers) = around_colon(words);
    Ok(
        match attribute(Global, image, reference_of(of)?, &values_of(numbers)?) {
            Ok(records) => format!("{records:?}"),
            Err(fault) => format!("{fault:?}"),
        },
    )
}

/// A play: `play METHOD STEPS NUMBERS : ANSWERS`. Returns its requests, its ending and the values that
/// it leaves.
fn played(image: &Image<'_>, words: &str) -> Result<String, NoAnswer> {
    let (words, answers) = around_colon(words);
    let (method, words) = first_of(words);
    let (steps, numbers) = first_of(words);
    let (method, steps) = (MethNo(number(method)?), number(steps)?);
    let (values, answers) = (values_of(numbers)?, answers_of(answers)?);
    Ok(match play(Global, image, method, values, &answers, steps) {
        Ok(it) => format!("{:?} {:?} {:?}", it.requests, it.ending, it.values.numbers),
        Err(fault) => format!("{fault:?}"),
    })
}

#[cfg(test)]
mod tests {
    use super::super::worked::{LABEL, LOOP};
    use super::*;

    #[test]
    fn each_step_gets_its_answer() {
        let steps = "find p -> ?\n\n# a comment\nname variable 0";
        let wanted =
            "find p -> Some(Variable(VarNo(0)))\n\n# a comment\nname variable 0 -> Some(\"p\")";
        assert_eq!(steps_on(&LABEL, steps).as_deref(), Ok(wanted));
    }

    #[test]
    fn steps_of_a_session_need_one() {
        assert!(steps_on(&LOOP, "advance 3").is_err());
        let wanted = "start 0 -> started\nadvance 3 -> Spent after 3\nsingly 2 -> over too early";
        assert_eq!(
            steps_on(&LOOP, "start 0\nadvance 3\nsingly 2").as_deref(),
            Ok(wanted)
        );
    }

    #[test]
    fn other_bytes_are_refused() {
        assert_eq!(steps_on(b"EDI", "counts").as_deref(), Ok("101 SHORT"));
        assert!(steps_on(&LOOP, "start 0\nstop").is_err());
    }
}
