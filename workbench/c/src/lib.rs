//! The calls of `edd.h` over the plain edition: what the proved library exports, with the pointers and
//! lengths of C made slices. What C owes is said in the header.
#![no_std]
#![allow(clippy::missing_safety_doc, clippy::too_many_arguments)]

mod memory;

use core::slice;
use edd_embed::statuses::{self, DONE, NO_ITEM, NO_SESSION, OTHER_IMAGE};
use edd_embed::{
    AttributeFault, Carrier, Given, ImageNumbers, ListFault, MessageFault, PlainEnding, PlainItem,
    PlainMessage, PlainRecord, PlainRequest, PlainSession, PlainTurn, PlainType, Setting,
};
use edd_syntax::numbers::MethNo;
use std::alloc::Global;

#[panic_handler]
fn stop(_: &core::panic::PanicInfo<'_>) -> ! {
    loop {
        core::hint::spin_loop();
    }
}

/// Named by parts of Rust's library for 32 bits that were made for unwinding; here nothing unwinds.
#[cfg(target_arch = "x86")]
#[unsafe(no_mangle)]
extern "C" fn rust_eh_personality() {}

/// The places of the fields of a session, as the tests of the header have them.
const _: () = {
    use core::mem::{offset_of, size_of};
    assert!(offset_of!(PlainSession, place) == 8 && offset_of!(PlainSession, operands) == 16);
    assert!(offset_of!(PlainSession, slots) == 528 && offset_of!(PlainSession, turn) == 808);
    assert!(offset_of!(PlainSession, abort_methods) == 784);
    assert!(offset_of!(PlainSession, method) == 800);
    assert!(offset_of!(PlainSession, operand_count) == 802);
    assert!(offset_of!(PlainSession, abort_count) == 804);
    assert!(offset_of!(PlainSession, is_aborting) == 806);
    assert!(offset_of!(PlainTurn, trap) == 16 && offset_of!(PlainTurn, turn) == 18);
    assert!(size_of::<PlainTurn>() == 20);
    assert!(offset_of!(PlainMessage, side) == 4 && size_of::<PlainMessage>() == 6);
};

/// A name or a text, as the header has it.
#[repr(C)]
pub struct Words {
    bytes: *const u8,
    length: usize,
    is_key: u8,
}

impl Words {
    fn of(words: edd_embed::Words<'_>) -> Words {
        Words {
            bytes: words.bytes.as_ptr(),
            length: words.bytes.len(),
            is_key: words.is_key,
        }
    }
}

/// # Safety
/// There are so many elements at the place.
unsafe fn list<'a, T>(place: *const T, count: usize) -> &'a [T] {
    if count == 0 {
        return &[];
    }
    // SAFETY: as the caller says.
    unsafe { slice::from_raw_parts(place, count) }
}

/// # Safety
/// There are so many elements at the place, and nothing else is read or written there meanwhile.
unsafe fn room<'a, T>(place: *mut T, count: usize) -> &'a mut [T] {
    if count == 0 {
        return &mut [];
    }
    // SAFETY: as the caller says.
    unsafe { slice::from_raw_parts_mut(place, count) }
}

#[unsafe(no_mangle)]
pub unsafe extern "C" fn edd_load(
    bytes: *const u8,
    length: usize,
    image: *mut ImageNumbers,
) -> u32 {
    // SAFETY: as the header asks.
    match edd_embed::load_numbers(Global, unsafe { list(bytes, length) }) {
        Ok(numbers) => {
            unsafe { image.write(numbers) };
            DONE
        }
        Err(fault) => statuses::load_status(fault),
    }
}

/// Does something with the image, if the numbers are those of the bytes.
macro_rules! with_image {
    ($bytes:ident, $length:ident, $image:ident) => {
        // SAFETY: as the header asks.
        match unsafe { (*$image).image(list($bytes, $length)) } {
            Some(image) => image,
            None => return OTHER_IMAGE,
        }
    };
}

/// Writes what was found.
macro_rules! given {
    ($found:expr, $place:ident) => {
        match $found {
            Some(found) => {
                // SAFETY: as the header asks.
                unsafe { $place.write(found) };
                DONE
            }
            None => NO_ITEM,
        }
    };
}

#[unsafe(no_mangle)]
pub unsafe extern "C" fn edd_find(
    bytes: *const u8,
    length: usize,
    image: *const ImageNumbers,
    name: *const u8,
    name_length: usize,
    item: *mut PlainItem,
) -> u32 {
    let image = with_image!(bytes, length, image);
    let name = unsafe { list(name, name_length) };
    given!(edd_embed::find_item(&image, name), item)
}

#[unsafe(no_mangle)]
pub unsafe extern "C" fn edd_name(
    bytes: *const u8,
    length: usize,
    image: *const ImageNumbers,
    kind: u8,
    number: u16,
    name: *mut Words,
) -> u32 {
    let image = with_image!(bytes, length, image);
    given!(
        edd_embed::name_of(&image, kind, number).map(Words::of),
        name
    )
}

#[unsafe(no_mangle)]
pub unsafe extern "C" fn edd_text(
    bytes: *const u8,
    length: usize,
    image: *const ImageNumbers,
    string: u16,
    code: *const u8,
    code_length: usize,
    text: *mut Words,
) -> u32 {
    let image = with_image!(bytes, length, image);
    let code = unsafe { list(code, code_length) };
    given!(
        edd_embed::text_for(&image, string, code).map(Words::of),
        text
    )
}

#[unsafe(no_mangle)]
pub unsafe extern "C" fn edd_variable(
    bytes: *const u8,
    length: usize,
    image: *const ImageNumbers,
    number: u16,
    found: *mut PlainType,
) -> u32 {
    let image = with_image!(bytes, length, image);
    given!(edd_embed::type_of(&image, number), found)
}

#[unsafe(no_mangle)]
pub unsafe extern "C" fn edd_element(
    bytes: *const u8,
    length: usize,
    image: *const ImageNumbers,
    array: u16,
    number: i64,
    variable: *mut u16,
) -> u32 {
    let image = with_image!(bytes, length, image);
    given!(edd_embed::element_of(&image, array, number), variable)
}

#[unsafe(no_mangle)]
pub unsafe extern "C" fn edd_attribute(
    bytes: *const u8,
    length: usize,
    image: *const ImageNumbers,
    kind: u8,
    number: u16,
    attribute: u8,
    sub: u16,
    values: *const i64,
    count: usize,
    records: *mut PlainRecord,
    records_room: usize,
    given: *mut usize,
) -> u32 {
    let image = with_image!(bytes, length, image);
    let Some(attr) = edd_embed::ref_of(kind, number, attribute, sub) else {
        return NO_ITEM;
    };
    // SAFETY: as the header asks.
    let (values, records) = unsafe { (list(values, count), room(records, records_room)) };
    match edd_embed::read_into(Global, &image, attr, values, records) {
        Ok(count) => {
            unsafe { given.write(count) };
            DONE
        }
        Err(fault) => {
            if let AttributeFault::Room(count) = fault {
                unsafe { given.write(count) };
            }
            statuses::attribute_status(fault)
        }
    }
}

/// Writes how many there are, or the number that is told with the fault.
///
/// # Safety
/// There is a number at the place.
unsafe fn say(result: Result<usize, MessageFault>, given: *mut usize) -> u32 {
    match result {
        Ok(count) => {
            // SAFETY: as the caller says.
            unsafe { given.write(count) };
            DONE
        }
        Err(fault) => {
            // SAFETY: as the caller says.
            unsafe { given.write(statuses::told(fault, given.read())) };
            statuses::message_status(fault)
        }
    }
}

#[unsafe(no_mangle)]
pub unsafe extern "C" fn edd_encode(
    bytes: *const u8,
    length: usize,
    image: *const ImageNumbers,
    message: *const PlainMessage,
    values: *const i64,
    count: usize,
    octets: *mut u8,
    octets_room: usize,
    given: *mut usize,
) -> u32 {
    let image = with_image!(bytes, length, image);
    // SAFETY: as the header asks.
    let Some(message) = edd_embed::message_of(unsafe { *message }) else {
        return NO_ITEM;
    };
    let (values, octets) = unsafe { (list(values, count), room(octets, octets_room)) };
    let encoded = edd_embed::encode_into(Global, &image, message, values, octets);
    unsafe { say(encoded, given) }
}

#[unsafe(no_mangle)]
pub unsafe extern "C" fn edd_decode(
    bytes: *const u8,
    length: usize,
    image: *const ImageNumbers,
    message: *const PlainMessage,
    values: *const i64,
    count: usize,
    octets: *const u8,
    octet_count: usize,
    settings: *mut Setting,
    settings_room: usize,
    given: *mut usize,
) -> u32 {
    let image = with_image!(bytes, length, image);
    // SAFETY: as the header asks.
    let Some(message) = edd_embed::message_of(unsafe { *message }) else {
        return NO_ITEM;
    };
    let (values, octets) = unsafe { (list(values, count), list(octets, octet_count)) };
    let settings = unsafe { room(settings, settings_room) };
    let decoded = edd_embed::decode_into(Global, &image, message, values, octets, settings);
    unsafe { say(decoded, given) }
}

/// Writes the message that was found, and how many there are.
///
/// # Safety
/// There is a message at the one place and a number at the other.
unsafe fn list_one(
    result: Result<Carrier, ListFault>,
    message: *mut PlainMessage,
    given: *mut usize,
) -> u32 {
    match result {
        Ok(found) => {
            // SAFETY: as the caller says.
            unsafe { given.write(found.count) };
            given!(found.message, message)
        }
        Err(fault) => statuses::list_status(fault),
    }
}

#[unsafe(no_mangle)]
pub unsafe extern "C" fn edd_reader(
    bytes: *const u8,
    length: usize,
    image: *const ImageNumbers,
    variable: u16,
    values: *const i64,
    count: usize,
    number: usize,
    message: *mut PlainMessage,
    given: *mut usize,
) -> u32 {
    let image = with_image!(bytes, length, image);
    // SAFETY: as the header asks.
    let values = unsafe { list(values, count) };
    let found = edd_embed::reader_at(Global, &image, variable, values, number);
    unsafe { list_one(found, message, given) }
}

#[unsafe(no_mangle)]
pub unsafe extern "C" fn edd_writer(
    bytes: *const u8,
    length: usize,
    image: *const ImageNumbers,
    variable: u16,
    values: *const i64,
    count: usize,
    number: usize,
    message: *mut PlainMessage,
    given: *mut usize,
) -> u32 {
    let image = with_image!(bytes, length, image);
    // SAFETY: as the header asks.
    let values = unsafe { list(values, count) };
    let found = edd_embed::writer_at(Global, &image, variable, values, number);
    unsafe { list_one(found, message, given) }
}

#[unsafe(no_mangle)]
pub unsafe extern "C" fn edd_play(
    bytes: *const u8,
    length: usize,
    image: *const ImageNumbers,
    method: u16,
    values: *const i64,
    count: usize,
    answers: *const Given,
    answer_count: usize,
    settings: *const Setting,
    setting_count: usize,
    steps: u64,
    requests: *mut PlainRequest,
    requests_room: usize,
    after: *mut i64,
    after_room: usize,
    ending: *mut PlainEnding,
) -> u32 {
    let image = with_image!(bytes, length, image);
    // SAFETY: as the header asks.
    let (values, answers) = unsafe { (list(values, count), list(answers, answer_count)) };
    let settings = unsafe { list(settings, setting_count) };
    let (requests, after) = unsafe { (room(requests, requests_room), room(after, after_room)) };
    let method = MethNo(method);
    match edd_embed::play_into(
        Global, &image, method, values, answers, settings, steps, requests, after,
    ) {
        Ok(shown) => {
            // SAFETY: as the header asks.
            unsafe { ending.write(shown) };
            DONE
        }
        Err(why) => statuses::refusal_status(why),
    }
}

#[unsafe(no_mangle)]
pub unsafe extern "C" fn edd_start(
    bytes: *const u8,
    length: usize,
    image: *const ImageNumbers,
    method: u16,
    values: *const i64,
    count: usize,
    session: *mut PlainSession,
) -> u32 {
    let image = with_image!(bytes, length, image);
    // SAFETY: as the header asks.
    let (values, session) = unsafe { (list(values, count), &mut *session) };
    match edd_embed::start_session(&image, MethNo(method), values, session) {
        Ok(()) => DONE,
        Err(fault) => statuses::start_status(fault),
    }
}

#[unsafe(no_mangle)]
pub unsafe extern "C" fn edd_advance(
    bytes: *const u8,
    length: usize,
    image: *const ImageNumbers,
    session: *mut PlainSession,
    values: *mut i64,
    count: usize,
    budget: u32,
    turn: *mut PlainTurn,
) -> u32 {
    let image = with_image!(bytes, length, image);
    // SAFETY: as the header asks.
    let (session, values) = unsafe { (&mut *session, room(values, count)) };
    match edd_embed::advance_session(&image, session, values, budget) {
        Some(shown) => {
            // SAFETY: as the header asks.
            unsafe { turn.write(shown) };
            DONE
        }
        None => NO_SESSION,
    }
}

#[unsafe(no_mangle)]
pub unsafe extern "C" fn edd_reply(
    bytes: *const u8,
    length: usize,
    image: *const ImageNumbers,
    session: *mut PlainSession,
    values: *mut i64,
    count: usize,
    answer: *const Given,
    settings: *const Setting,
    setting_count: usize,
) -> u32 {
    let image = with_image!(bytes, length, image);
    // SAFETY: as the header asks.
    let (session, values) = unsafe { (&mut *session, room(values, count)) };
    let (answer, settings) = unsafe { (*answer, list(settings, setting_count)) };
    match edd_embed::answer_session(&image, session, values, answer, settings) {
        Ok(()) => DONE,
        Err(why) => statuses::session_status(why),
    }
}

#[unsafe(no_mangle)]
pub unsafe extern "C" fn edd_where(session: *const PlainSession, turn: *mut PlainTurn) -> u32 {
    // SAFETY: as the header asks.
    match edd_embed::turn_session(unsafe { &*session }) {
        Some(shown) => {
            unsafe { turn.write(shown) };
            DONE
        }
        None => NO_SESSION,
    }
}
