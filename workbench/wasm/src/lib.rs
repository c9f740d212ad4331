//! The compiler, the loader, sessions and the display as one module of WebAssembly, which imports
//! nothing. Bytes go in by `take`, which gives room for them, and come out at `out`.
//!
//! The module trusts who calls it: a place or a length that it did not give breaks it, as in C.
#![no_std]
#![allow(clippy::missing_safety_doc)]
extern crate alloc as heap;

mod memory;
mod sessions;

use core::cell::UnsafeCell;
use core::slice;
use edd_loader::{Image, load};
use edd_machine::Values;
use heap::boxed::Box;
use heap::vec::Vec as RealVec;
use std::alloc::Global;
use std::vec::Vec;

#[panic_handler]
fn stop(_: &core::panic::PanicInfo<'_>) -> ! {
    core::arch::wasm32::unreachable()
}

struct Out(UnsafeCell<RealVec<u8>>);

// SAFETY: a module without shared memory has one thread.
unsafe impl Sync for Out {}

static OUT: Out = Out(UnsafeCell::new(RealVec::new()));

/// Keeps what a call gives, and says how many bytes it is.
fn give(bytes: &[u8]) -> u32 {
    // SAFETY: nothing else holds the list.
    let out = unsafe { &mut *OUT.0.get() };
    out.clear();
    out.extend_from_slice(bytes);
    bytes.len() as u32
}

/// The place of what the last call gave.
#[unsafe(no_mangle)]
pub extern "C" fn out() -> *const u8 {
    // SAFETY: nothing else holds the list.
    unsafe { (*OUT.0.get()).as_ptr() }
}

/// Room for so many bytes, aligned for numbers of 64 bits.
#[unsafe(no_mangle)]
pub extern "C" fn take(size: usize) -> *mut u8 {
    let words: Box<[u64]> = heap::vec![0; size.div_ceil(8).max(1)].into_boxed_slice();
    Box::into_raw(words).cast()
}

/// Gives room back, of the size that was asked for.
#[unsafe(no_mangle)]
pub unsafe extern "C" fn release(place: *mut u8, size: usize) {
    let words = core::ptr::slice_from_raw_parts_mut(place.cast::<u64>(), size.div_ceil(8).max(1));
    // SAFETY: `take` gave it with this size.
    drop(unsafe { Box::from_raw(words) });
}

/// Compiles a text: 0 and the image, or 1 and the refusal, at `out`. Its length is in the high half.
#[unsafe(no_mangle)]
pub unsafe extern "C" fn compile(text: *const u8, length: usize) -> u64 {
    // SAFETY: the caller has put so many bytes there.
    let text = unsafe { slice::from_raw_parts(text, length) };
    match edd_compiler::compile(Global, text) {
        Ok(image) => u64::from(give(&image)) << 32,
        Err(fault) => {
            let length = match fault.refusal(Global, text) {
                Ok(line) => give(line.as_bytes()),
                Err(_) => give(b"no memory"),
            };
            u64::from(length) << 32 | 1
        }
    }
}

/// Loads an image, whose bytes stay as they are until the end. Where it is refused the place is 0, and
/// why is at `out`, in `reason` bytes.
#[unsafe(no_mangle)]
pub unsafe extern "C" fn load_image(bytes: *const u8, length: usize) -> *mut Image<'static> {
    // SAFETY: the caller has put so many bytes there, and leaves them.
    let bytes = unsafe { slice::from_raw_parts(bytes, length) };
    match load(Global, bytes) {
        Ok(image) => Box::into_raw(Box::new(image)),
        Err(fault) => {
            give(heap::format!("{fault}").as_bytes());
            core::ptr::null_mut()
        }
    }
}

/// How many bytes are at `out`.
#[unsafe(no_mangle)]
pub extern "C" fn reason() -> usize {
    // SAFETY: nothing else holds the list.
    unsafe { (*OUT.0.get()).len() }
}

/// How many variables an image has.
#[unsafe(no_mangle)]
pub unsafe extern "C" fn variables(image: *const Image<'static>) -> u32 {
    // SAFETY: `load_image` gave it.
    u32::from(unsafe { &*image }.counts().variables)
}

/// The values of all variables, where these numbers are that.
///
/// # Safety
/// There are so many numbers at the place.
unsafe fn values_of(image: &Image<'_>, numbers: *const i64, count: usize) -> Option<Values> {
    // SAFETY: the caller has put so many numbers there.
    Values::new(Global, image, unsafe {
        slice::from_raw_parts(numbers, count)
    })
    .ok()
}

/// Shows an image under values: how many bytes of lines are at `out`, 0 where it can't be shown.
#[unsafe(no_mangle)]
pub unsafe extern "C" fn show(
    image: *const Image<'static>,
    numbers: *const i64,
    count: usize,
) -> u32 {
    // SAFETY: `load_image` gave the image, and the caller has put the numbers there.
    let (image, values) = unsafe { (&*image, values_of(&*image, numbers, count)) };
    let mut lines: Vec<u8> = Vec::new(Global);
    match values {
        Some(values) if edd_display::show(Global, image, &values, "en", &mut lines).is_ok() => {
            give(&lines)
        }
        _ => 0,
    }
}
