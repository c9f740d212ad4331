//! Sessions: methods that run.
use crate::{give, values_of};
use core::slice;
use edd_loader::Image;
use edd_port::{Session, Turn};
use edd_syntax::answer::Answer;
use edd_syntax::numbers::{ItemNo, VarNo};
use heap::boxed::Box;
use std::alloc::Global;
use std::vec::Vec;

use crate::heap;

type Run = Session<'static, 'static>;

/// Starts a method by its name under values; the place is 0 where it can't be.
#[unsafe(no_mangle)]
pub unsafe extern "C" fn start(
    image: *const Image<'static>,
    name: *const u8,
    length: usize,
    numbers: *const i64,
    count: usize,
) -> *mut Run {
    // SAFETY: `load_image` gave the image, and the caller has put the name and the numbers there.
    let (image, name, values) = unsafe {
        (
            &*image,
            slice::from_raw_parts(name, length),
            values_of(&*image, numbers, count),
        )
    };
    let method = match core::str::from_utf8(name)
        .ok()
        .and_then(|name| image.find(name))
    {
        Some(ItemNo::Method(method)) => method,
        _ => return core::ptr::null_mut(),
    };
    match values.map(|values| Session::start(image, method, values)) {
        Some(Ok(session)) => Box::into_raw(Box::new(session)),
        _ => core::ptr::null_mut(),
    }
}

/// Goes on for at most so many instructions: 0 where the method asks, for what is at `out`, 1 where it
/// ended, 2 aborted, 3 trapped, and 4 where all instructions were executed.
#[unsafe(no_mangle)]
pub unsafe extern "C" fn advance(run: *mut Run, budget: u32) -> u32 {
    // SAFETY: `start` gave it.
    match unsafe { &mut *run }.advance(budget) {
        Turn::Asks(request) => {
            give(heap::format!("{request:?}").as_bytes());
            0
        }
        Turn::Ended => 1,
        Turn::Aborted => 2,
        Turn::Trapped(_) => 3,
        Turn::Spent => 4,
    }
}

/// Answers the pending request by a code, without sets.
#[unsafe(no_mangle)]
pub unsafe extern "C" fn answer(run: *mut Run, code: i32) -> bool {
    let answer = Answer::Go {
        code,
        sets: Vec::new(Global),
    };
    // SAFETY: `start` gave it.
    unsafe { &mut *run }.answer(&answer).is_ok()
}

/// The value of a variable, 0 where there is none of this number.
#[unsafe(no_mangle)]
pub unsafe extern "C" fn value(run: *const Run, number: u16) -> i64 {
    // SAFETY: `start` gave it.
    unsafe { &*run }.values().get(VarNo(number)).unwrap_or(0)
}

/// Ends a session.
#[unsafe(no_mangle)]
pub unsafe extern "C" fn end(run: *mut Run) {
    // SAFETY: `start` gave it, and it is not used again.
    drop(unsafe { Box::from_raw(run) });
}
