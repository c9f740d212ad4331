//! What was set and answered, as the lines of a script.
use std::prelude::v1::*;

use edd_loader::Image;
use edd_machine::Values;
use edd_panel::Happened;
use edd_syntax::answer::Answer;
use edd_syntax::numbers::{ItemNo, VarNo};
use std::alloc::AllocError;

fn name_of<'b>(image: &Image<'b>, variable: VarNo) -> &'b str {
    image.name(ItemNo::Variable(variable)).unwrap_or("")
}

/// Appends the line that sets a variable.
pub fn push_set(
    script: &mut String,
    image: &Image<'_>,
    variable: VarNo,
    number: i64,
) -> Result<(), AllocError> {
    let name = name_of(image, variable);
    write!(script, "set {name} {number}\n")
}

/// Appends the line of an answer.
pub fn push_answer(
    script: &mut String,
    image: &Image<'_>,
    answer: &Answer,
) -> Result<(), AllocError> {
    let Answer::Go { code, sets } = answer else {
        return script.push_str("abort\n");
    };
    write!(script, "answer {code}")?;
    for (variable, number) in sets {
        let name = name_of(image, *variable);
        write!(script, " {name}={number}")?;
    }
    script.push('\n')
}

/// Appends the lines of the values that are not 0, with which a script begins.
pub fn push_start(
    script: &mut String,
    image: &Image<'_>,
    values: &Values,
) -> Result<(), AllocError> {
    for number in 0..image.counts().variables {
        let variable = VarNo(number);
        if let Some(value) = values.get(variable)
            && value != 0
        {
            push_set(script, image, variable, value)?;
        }
    }
    Ok(())
}

/// Appends what a command has set or answered.
pub fn push_done(
    script: &mut String,
    image: &Image<'_>,
    happened: &Happened,
) -> Result<(), AllocError> {
    match happened {
        Happened::Edited(variable, number) => push_set(script, image, *variable, *number),
        Happened::Answered(answer) => push_answer(script, image, answer),
        _ => Ok(()),
    }
}
