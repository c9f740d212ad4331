//! A communicator without a system: it loads an image, reads its attributes, and runs a method whose
//! requests it answers. It shows that the loader, the machine and sessions need core and alloc alone,
//! and how large they are.
#![no_std]
#![no_main]

mod memory;

use core::slice;
use edd_loader::load;
use edd_machine::{Values, attribute};
use edd_port::{Session, Turn};
use edd_syntax::answer::Answer;
use edd_syntax::numbers::{Attr, AttrRef, ItemNo, MethNo};
use std::alloc::Global;
use std::vec::Vec;

/// How many instructions are executed between two looks at anything else.
const BUDGET: u32 = 100;

const REFUSED: i32 = -1;

#[panic_handler]
fn stop(_: &core::panic::PanicInfo<'_>) -> ! {
    loop {
        core::hint::spin_loop();
    }
}

/// Runs a method of the image at this place, and answers each request with the code 0: how many
/// requests there were, or less than 0.
///
/// # Safety
/// There are so many bytes at the place.
#[unsafe(no_mangle)]
pub unsafe extern "C" fn run(image: *const u8, length: usize, method: u16) -> i32 {
    // SAFETY: as the caller says.
    let bytes = unsafe { slice::from_raw_parts(image, length) };
    let Ok(image) = load(Global, bytes) else {
        return REFUSED;
    };
    let Ok(zeros) = Vec::from_elem(Global, 0, usize::from(image.counts().variables)) else {
        return REFUSED;
    };
    let Ok(values) = Values::new(Global, &image, &zeros) else {
        return REFUSED;
    };
    let label = AttrRef {
        item: ItemNo::Method(MethNo(method)),
        attr: Attr::Label,
        sub: 0,
    };
    if attribute(Global, &image, label, &values).is_err() {
        return REFUSED;
    }
    match Session::start(&image, MethNo(method), values) {
        Ok(session) => answered(session),
        Err(_) => REFUSED,
    }
}

fn answered(mut session: Session<'_, '_>) -> i32 {
    let mut requests = 0;
    loop {
        match session.advance(BUDGET) {
            Turn::Asks(_) => {
                requests += 1;
                let answer = Answer::Go {
                    code: 0,
                    sets: Vec::new(Global),
                };
                if session.answer(&answer).is_err() {
                    return REFUSED;
                }
            }
            Turn::Spent => {}
            Turn::Ended => return requests,
            Turn::Aborted | Turn::Trapped(_) => return REFUSED,
        }
    }
}
