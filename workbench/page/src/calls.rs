//! The calls of the module.
use crate::Stop;
use crate::blocks::{Held, held, new_block};
use crate::desk::Desk;
use crate::{editing, json, places, states};
use edd_check::{Checked, Levels};
use edd_compiler::Fault;
use edd_dump::Dump;
use edd_explain::Explanation;
use edd_loader::LoadFault;
use edd_report::json_lines;
use std::alloc::{AllocError, Global};
use std::fmt;
use std::string::String;
use std::vec::Vec;

/// The statuses of calls: it gives something, a line that says why not, or nothing since there was no
/// memory, or no such block or desk.
const DONE: u32 = 0;
const REFUSED: u32 = 1;
const MEMORY: u32 = 2;
const UNKNOWN: u32 = 3;

/// Keeps what a call gives, and answers its status.
fn answer(held: &mut Held, given: Result<Vec<u8>, Stop>) -> u32 {
    let (out, status) = match given {
        Ok(bytes) => (bytes, DONE),
        Err(Stop::Refused(line)) => (line.into_bytes(), REFUSED),
        Err(Stop::Memory) => (Vec::new(Global), MEMORY),
        Err(Stop::Unknown) => (Vec::new(Global), UNKNOWN),
    };
    held.out = out;
    status
}

/// A call that is given a block.
fn with_bytes(block: u32, call: impl FnOnce(&[u8]) -> Result<Vec<u8>, Stop>) -> u32 {
    let held = held();
    let given = match held.blocks.get(block) {
        Ok(bytes) => call(bytes),
        Err(stop) => Err(stop),
    };
    answer(held, given)
}

/// A call that is given a desk.
fn with_desk(desk: u32, call: impl FnOnce(&mut Desk) -> Result<Vec<u8>, Stop>) -> u32 {
    let held = held();
    let given = match held.desks.get(desk) {
        Ok(desk) => call(desk),
        Err(stop) => Err(stop),
    };
    answer(held, given)
}

/// A call that is given a desk and the text of a block.
fn with_text(
    desk: u32,
    block: u32,
    call: impl FnOnce(&mut Desk, &str) -> Result<Vec<u8>, Stop>,
) -> u32 {
    let held = held();
    let given = match (held.desks.get(desk), held.blocks.get(block)) {
        (Ok(desk), Ok(bytes)) => call(desk, core::str::from_utf8(bytes).unwrap_or("\0")),
        _ => Err(Stop::Unknown),
    };
    answer(held, given)
}

/// The number of a block with room for so many bytes, or 0 where there is no memory.
#[cfg_attr(target_family = "wasm", unsafe(no_mangle))]
pub extern "C" fn alloc(size: usize) -> u32 {
    new_block(size).unwrap_or(0)
}

/// Where the bytes of a block are, or 0 where there is none of this number.
#[cfg_attr(target_family = "wasm", unsafe(no_mangle))]
pub extern "C" fn place(block: u32) -> *mut u8 {
    match held().blocks.get(block) {
        Ok(bytes) => bytes.as_mut_slice().as_mut_ptr(),
        Err(_) => core::ptr::null_mut(),
    }
}

/// Gives a block back.
#[cfg_attr(target_family = "wasm", unsafe(no_mangle))]
pub extern "C" fn free(block: u32) -> u32 {
    match held().blocks.remove(block) {
        Ok(_) => DONE,
        Err(_) => UNKNOWN,
    }
}

/// Where the bytes are that the last call gave.
#[cfg_attr(target_family = "wasm", unsafe(no_mangle))]
pub extern "C" fn out() -> *const u8 {
    held().out.as_slice().as_ptr()
}

/// How many bytes the last call gave.
#[cfg_attr(target_family = "wasm", unsafe(no_mangle))]
pub extern "C" fn out_size() -> usize {
    held().out.len()
}

fn check_text(text: &[u8]) -> Result<Vec<u8>, Stop> {
    let checked = Checked::of("source", text, &Levels::default());
    match json_lines(&checked.source, &checked.report) {
        Ok(lines) => Ok(Vec::from_real(lines.into_bytes())),
        Err(_) => Err(Stop::Memory),
    }
}

/// What is said of a text: a line of JSON for each finding.
#[cfg_attr(target_family = "wasm", unsafe(no_mangle))]
pub extern "C" fn check(text: u32) -> u32 {
    with_bytes(text, check_text)
}

/// The text in the layout of the project, with the same tokens and comments.
#[cfg_attr(target_family = "wasm", unsafe(no_mangle))]
pub extern "C" fn layout(text: u32) -> u32 {
    with_bytes(text, editing::layout)
}

/// The words that may stand at a byte of a text.
#[cfg_attr(target_family = "wasm", unsafe(no_mangle))]
pub extern "C" fn offered(text: u32, byte: u32) -> u32 {
    with_bytes(text, |text| editing::offered(text, byte as usize))
}

/// What is told of the word at a byte of a text, or `null`.
#[cfg_attr(target_family = "wasm", unsafe(no_mangle))]
pub extern "C" fn told(text: u32, byte: u32) -> u32 {
    with_bytes(text, |text| editing::told(text, byte as usize))
}

fn compile_text(text: &[u8]) -> Result<Vec<u8>, Stop> {
    let fault = match edd_compiler::compile(Global, text) {
        Ok(image) => return Ok(image),
        Err(Fault::Memory) => return Err(Stop::Memory),
        Err(fault) => fault,
    };
    match fault.refusal(Global, text) {
        Ok(line) => Err(Stop::Refused(line)),
        Err(AllocError) => Err(Stop::Memory),
    }
}

/// The image of a text, or why it is refused.
#[cfg_attr(target_family = "wasm", unsafe(no_mangle))]
pub extern "C" fn compile(text: u32) -> u32 {
    with_bytes(text, compile_text)
}

/// What an image begins with, and no source does.
const MAGIC: &[u8] = b"EDI1";

/// Whether a block begins as an image: 1 where it does.
#[cfg_attr(target_family = "wasm", unsafe(no_mangle))]
pub extern "C" fn is_image(bytes: u32) -> u32 {
    let held = held();
    u32::from(
        held.blocks
            .get(bytes)
            .is_ok_and(|bytes| bytes.starts_with(MAGIC)),
    )
}

fn load_image(image: &[u8]) -> Result<Vec<u8>, Stop> {
    match edd_loader::load(Global, image) {
        Ok(_) => Ok(Vec::new(Global)),
        Err(fault) => Err(Stop::of(&fault, matches!(fault, LoadFault::Memory))),
    }
}

/// Whether an image is one, or why it is refused.
#[cfg_attr(target_family = "wasm", unsafe(no_mangle))]
pub extern "C" fn load(image: u32) -> u32 {
    with_bytes(image, load_image)
}

fn dump_image(image: &[u8]) -> Result<Vec<u8>, Stop> {
    let mut lines = String::new(Global);
    match fmt::write(&mut lines, format_args!("{}", Dump::new(image))) {
        Ok(()) => Ok(lines.into_bytes()),
        // A text fails only for lack of memory.
        Err(fmt::Error) => Err(Stop::Memory),
    }
}

/// The lines of an image, and of bytes that are none what comes before their fault.
#[cfg_attr(target_family = "wasm", unsafe(no_mangle))]
pub extern "C" fn dump(image: u32) -> u32 {
    with_bytes(image, dump_image)
}

fn explained(found: &Explanation) -> Result<Vec<u8>, Stop> {
    json(&states::Explained::of(found)?)
}

/// What a number of a refusal means.
#[cfg_attr(target_family = "wasm", unsafe(no_mangle))]
pub extern "C" fn explain(number: u32) -> u32 {
    let given = match edd_explain::by_number(number) {
        Some(found) => explained(found),
        None => Err(Stop::Unknown),
    };
    answer(held(), given)
}

/// Whether a word is reserved: 1 where it is.
#[cfg_attr(target_family = "wasm", unsafe(no_mangle))]
pub extern "C" fn word(word: u32) -> u32 {
    let held = held();
    let is_reserved = held
        .blocks
        .get(word)
        .is_ok_and(|bytes| places::is_reserved(bytes));
    u32::from(is_reserved)
}

/// Where the source in a block declares the row of a line of `dump`, which is in another one.
#[cfg_attr(target_family = "wasm", unsafe(no_mangle))]
pub extern "C" fn find(text: u32, line: u32) -> u32 {
    let held = held();
    let line = match held.blocks.get(line) {
        Ok(bytes) => Vec::from_slice(Global, bytes).map_err(Stop::from),
        Err(stop) => Err(stop),
    };
    let given = match (line, held.blocks.get(text)) {
        (Ok(line), Ok(text)) => places::find(text, &line).and_then(|found| json(&found)),
        (Err(stop), _) | (_, Err(stop)) => Err(stop),
    };
    answer(held, given)
}

/// The number of a new desk with an image, a text of a language's code, and the text of a device,
/// where that isn't 0. It is 0 where there is none, and `status` says why.
#[cfg_attr(target_family = "wasm", unsafe(no_mangle))]
pub extern "C" fn open(image: u32, language: u32, device: u32) -> u32 {
    let held = held();
    let made = open_in(held, image, language, device);
    let (number, given) = match made {
        Ok(number) => (number, Ok(Vec::new(Global))),
        Err(stop) => (0, Err(stop)),
    };
    held.opened = answer(held, given);
    number
}

/// The status of the last `open`.
#[cfg_attr(target_family = "wasm", unsafe(no_mangle))]
pub extern "C" fn status() -> u32 {
    held().opened
}

fn copy_of(held: &mut Held, block: u32) -> Result<Vec<u8>, Stop> {
    Ok(Vec::from_slice(Global, held.blocks.get(block)?)?)
}

fn open_in(held: &mut Held, image: u32, language: u32, device: u32) -> Result<u32, Stop> {
    let image = copy_of(held, image)?;
    let language = copy_of(held, language)?;
    let device = match device {
        0 => None,
        block => Some(compile_text(held.blocks.get(block)?)?),
    };
    let desk = Desk::open(image, &language, device)?;
    held.desks.add(desk)
}

/// Where the user of a desk is.
#[cfg_attr(target_family = "wasm", unsafe(no_mangle))]
pub extern "C" fn state(desk: u32) -> u32 {
    with_desk(desk, |desk| json(&desk.state()?))
}

/// Takes a line, as `edd open` does.
#[cfg_attr(target_family = "wasm", unsafe(no_mangle))]
pub extern "C" fn take(desk: u32, line: u32) -> u32 {
    with_text(desk, line, |desk, line| json(&desk.take(line)?))
}

/// Lets the method go on for at most so many instructions.
#[cfg_attr(target_family = "wasm", unsafe(no_mangle))]
pub extern "C" fn go(desk: u32, steps: u32) -> u32 {
    with_desk(desk, |desk| json(&desk.go(steps)?))
}

/// Lets the device answer what the method asks, if it does.
#[cfg_attr(target_family = "wasm", unsafe(no_mangle))]
pub extern "C" fn reply(desk: u32) -> u32 {
    with_desk(desk, |desk| json(&desk.reply()?))
}

/// Shows the texts in another language from now on. The user is at the top then.
#[cfg_attr(target_family = "wasm", unsafe(no_mangle))]
pub extern "C" fn speak(desk: u32, language: u32) -> u32 {
    with_text(desk, language, |desk, language| {
        desk.speak(language)?;
        Ok(Vec::new(Global))
    })
}

/// The languages of the texts of a desk's image.
#[cfg_attr(target_family = "wasm", unsafe(no_mangle))]
pub extern "C" fn languages(desk: u32) -> u32 {
    with_desk(desk, |desk| json(&desk.languages()?))
}

/// The help of an entry of the menu.
#[cfg_attr(target_family = "wasm", unsafe(no_mangle))]
pub extern "C" fn help(desk: u32, number: u32) -> u32 {
    with_desk(desk, |desk| desk.help(number))
}

/// The variables of the device of a desk.
#[cfg_attr(target_family = "wasm", unsafe(no_mangle))]
pub extern "C" fn device(desk: u32) -> u32 {
    with_desk(desk, |desk| json(&desk.device_values()?))
}

/// The script of the last method: the values with which it started and all answers.
#[cfg_attr(target_family = "wasm", unsafe(no_mangle))]
pub extern "C" fn script(desk: u32) -> u32 {
    with_desk(desk, |desk| desk.script())
}

/// Ends a desk.
#[cfg_attr(target_family = "wasm", unsafe(no_mangle))]
pub extern "C" fn close(desk: u32) -> u32 {
    match held().desks.remove(desk) {
        Ok(_) => DONE,
        Err(_) => UNKNOWN,
    }
}
