//! Steps the machine.
//!
//! - `three_steps`: the place, the variable, the status and the last output of method 0 after at most three
//!   steps. The variable begins with 9.

use super::small::image_of;
use crate::playing::NoAnswer;
use edd_instructions::Status;
use edd_loader::{Image, load};
use edd_machine::{Machine, Values, ValuesFault, find_body};
use edd_plain_std::alloc::Global;
use edd_syntax::numbers::{MethNo, VarNo};

const STEPS: usize = 3;

fn after(image: &Image<'_>) -> Result<String, ValuesFault> {
    let mut values = Values::new(Global, image, &[9])?;
    let Some(unit) = find_body(image, MethNo(0)) else {
        return Ok("no body".to_owned());
    };
    let mut machine = Machine::open(unit);
    for _ in 0..STEPS {
        if machine.status == Status::Running {
            machine.step(image, &mut values.numbers);
        }
    }
    let x = values.get(VarNo(0));
    let (place, status, emitted) = (machine.place, machine.status, machine.emitted);
    Ok(format!("{place} {x:?} {status:?} {emitted:?}"))
}

pub fn after_three(image: &str) -> Result<String, NoAnswer> {
    let bytes = image_of(image)?;
    Ok(match load(Global, &bytes) {
        Ok(image) => after(&image).unwrap_or_else(|fault| fault.to_string()),
        Err(fault) => fault.to_string(),
    })
}
