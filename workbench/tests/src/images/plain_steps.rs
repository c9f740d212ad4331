//! The calls over plain structs, as a program in C makes them.
//!
//! - `plain_steps`: steps on an image. A line is a call, and behind ` -> ` its answer. This file has the calls
//!   that need the image alone; `plain_sessions.rs` has those of a session.

use super::plain_sessions::{Bench, UNASKED, given_of};
use super::small::image_of;
use super::words::{around_colon, first_of, number, numbers_of};
use crate::playing::NoAnswer;
use edd_embed::{
    Given, ImageNumbers, PlainEnding, PlainMessage, PlainRecord, PlainRequest, PlainSession,
    PlainTurn, Setting, find_item, load_numbers, name_of, plain_of, play_into, read_into, ref_of,
    type_of,
};
use edd_instructions::Record;
use edd_loader::{Image, load};
use edd_plain_std::alloc::Global;
use edd_syntax::numbers::MethNo;

/// Takes the steps, and returns each with its answer.
pub fn answers(image: &str, steps: &str) -> Result<String, NoAnswer> {
    let bytes = image_of(image)?;
    let image = match load(Global, &bytes) {
        Ok(image) => image,
        Err(fault) => return Ok(fault.to_string()),
    };
    let mut bench = Bench::default();
    let lines = steps.lines().map(|line| {
        let (step, _) = line.split_once(" -> ").unwrap_or((line, ""));
        let answer = answer_to(&image, &mut bench, step)?;
        Ok(format!("{step} -> {answer}"))
    });
    Ok(lines.collect::<Result<Vec<_>, NoAnswer>>()?.join("\n"))
}

fn answer_to(image: &Image<'_>, bench: &mut Bench, step: &str) -> Result<String, NoAnswer> {
    let (kind, words) = first_of(step);
    match kind {
        "numbers" => Ok(format!("{:?}", load_numbers(Global, image.bytes()))),
        "front" => front(image, words),
        "name" => name(image, words),
        "find" => Ok(format!("{:?}", find_item(image, words.as_bytes()))),
        "type" => Ok(format!("{:?}", type_of(image, number(words)?))),
        "read" => read(image, words),
        "play" => played(image, words),
        "sizes" => Ok(format!("{SIZES:?}")),
        _ => bench.step(image, kind, words),
    }
}

/// Whether the image's numbers are those of its first bytes, and these as an image: `front LENGTH`.
fn front(image: &Image<'_>, words: &str) -> Result<String, NoAnswer> {
    let front = image.bytes().get(..number(words)?);
    let front = front.ok_or(NoAnswer::Row("a length behind the image"))?;
    Ok(match load_numbers(Global, image.bytes()) {
        Ok(numbers) => {
            let fault = load_numbers(Global, front).err();
            format!("{} {fault:?}", numbers.are_of(front))
        }
        Err(fault) => fault.to_string(),
    })
}

/// The name of an item, and whether it is a key: `name KIND NUMBER`.
fn name(image: &Image<'_>, words: &str) -> Result<String, NoAnswer> {
    let (kind, index) = first_of(words);
    Ok(match name_of(image, number(kind)?, number(index)?) {
        Some(name) => format!("{:?} {}", name.bytes, name.is_key),
        None => "None".to_owned(),
    })
}

/// The records of an attribute in room for so many: `read ROOM KIND NUMBER ATTRIBUTE : NUMBERS`.
fn read(image: &Image<'_>, words: &str) -> Result<String, NoAnswer> {
    let (words, numbers) = around_colon(words);
    let (count, words) = first_of(words);
    let (kind, words) = first_of(words);
    let (index, attribute) = first_of(words);
    let of = ref_of(number(kind)?, number(index)?, number(attribute)?, 0);
    let of = of.ok_or(NoAnswer::Row("no such attribute"))?;
    let mut room = vec![plain_of(Record::Number(2)); number(count)?];
    let ran = read_into(Global, image, of, &numbers_of(numbers)?, &mut room);
    Ok(format!("{ran:?} {room:?}"))
}

/// A play of the method 0 for 100 instructions, with room for so many requests and values, one
/// variable and one answer: `play REQUESTS VALUES VALUE : ANSWER`.
fn played(image: &Image<'_>, words: &str) -> Result<String, NoAnswer> {
    let (words, answer) = around_colon(words);
    let (asked, words) = first_of(words);
    let (left, value) = first_of(words);
    let mut requests = vec![UNASKED; number(asked)?];
    let mut after = vec![99; number(left)?];
    let (given, setting) = given_of(answer)?;
    let ran = play_into(
        Global,
        image,
        MethNo(0),
        &[number(value)?],
        &[given],
        &[setting],
        100,
        &mut requests,
        &mut after,
    );
    Ok(format!("{ran:?} {requests:?} {after:?}"))
}

/// The sizes of the structs, which are those of include/edd.h.
const SIZES: [usize; 9] = [
    size_of::<ImageNumbers>(),
    size_of::<PlainRecord>(),
    size_of::<PlainRequest>(),
    size_of::<PlainMessage>(),
    size_of::<Setting>(),
    size_of::<Given>(),
    size_of::<PlainEnding>(),
    size_of::<PlainTurn>(),
    size_of::<PlainSession>(),
];
