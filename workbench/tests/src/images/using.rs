//! Uses an image in every way, whoever wrote it.

use super::hosts::Device;
use edd_display::show;
use edd_loader::Image;
use edd_machine::Values;
use edd_plain_std::alloc::Global;
use edd_plain_std::vec::Vec as PlainVec;
use edd_port::{Drive, Session, StartFault, Turn, drive};
use edd_syntax::numbers::{MethNo, StrNo};

/// The limit on the instructions of a run.
const STEPS: u64 = 1000;

/// The values of a device on which each variable is 0.
fn zeros(image: &Image<'_>) -> Option<Values> {
    let numbers = vec![0; image.counts().variables.into()];
    Values::new(Global, image, &numbers).ok()
}

/// Returns whether it is shown, with each attribute.
fn is_shown(image: &Image<'_>) -> bool {
    let Some(values) = zeros(image) else {
        return false;
    };
    let mut out = PlainVec::new(Global);
    show(Global, image, &values, "de", &mut out).is_ok()
        && out.starts_with(b"identification ")
        && out.ends_with(b"\n")
}

fn has_texts(image: &Image<'_>) -> bool {
    (0..image.counts().strings).all(|number| image.text(StrNo(number), "de").is_some())
}

/// Returns whether a session stops within its instructions, or goes on after just so many.
fn ends(session: &mut Session<'_, '_>) -> bool {
    match drive(session, &mut Device::default(), STEPS) {
        Drive::Done(Turn::Spent) => session.taken() == STEPS,
        Drive::Done(Turn::Ended | Turn::Aborted | Turn::Trapped(_)) => session.taken() <= STEPS,
        _ => false,
    }
}

/// Returns whether a method runs, if it has a body.
fn is_run(image: &Image<'_>, method: MethNo) -> bool {
    let Some(values) = zeros(image) else {
        return false;
    };
    match Session::start(image, method, values) {
        Ok(mut session) => ends(&mut session),
        Err((fault, _)) => fault == StartFault::NoItem,
    }
}

/// Returns whether the image is shown where each variable is 0, each of its strings has a text, and
/// each of its methods runs.
pub fn is_usable(image: &Image<'_>) -> bool {
    is_shown(image)
        && has_texts(image)
        && (0..image.counts().methods).all(|number| is_run(image, MethNo(number)))
}

#[cfg(test)]
mod tests {
    use super::super::worked::{ABORTING, ARRAY, LABEL, LOOP};
    use super::*;
    use edd_loader::load;

    #[test]
    fn the_worked_images_are_usable() {
        for bytes in [&LOOP[..], &LABEL, &ARRAY, &ABORTING] {
            assert!(is_usable(&load(Global, bytes).unwrap()));
        }
    }
}
