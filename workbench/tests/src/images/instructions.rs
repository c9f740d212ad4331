//! Decodes and encodes instructions.
//!
//! - `decoded`: the instruction at a place of code, as `00 at 0`, and the place behind it.
//! - `encoded`: the bytes of an instruction, or of code in which a jump is filled in last.

use super::small::code_of;
use super::words::number;
use crate::playing::NoAnswer;
use edd_instructions::{Emitter, Instruction, Jump, decode, encode, head};
use edd_plain_std::alloc::{AllocError, Global};

pub fn decoded(text: &str) -> Result<String, NoAnswer> {
    let halves = text.split_once(" at ");
    let (code, place) = halves.ok_or(NoAnswer::Row("not code and a place"))?;
    Ok(format!("{:?}", decode(&code_of(code)?, number(place)?)))
}

/// Emits code with a jump to its end, whose target is filled in last.
fn with_hole() -> Result<Vec<u8>, AllocError> {
    let mut code = Emitter::new(Global);
    code.emit(&[0x07, 0x06])?;
    let hole = code.hole(&[0x30])?;
    let end = code.place();
    code.emit(&[0x00])?;
    code.patch(hole, end);
    Ok(code.finish().into_real())
}

pub fn encoded(text: &str) -> Result<String, NoAnswer> {
    let bytes = match text {
        "a hole" => with_hole()?,
        "the head of IfLabel(-2)" => head(Jump::IfLabel(-2)).to_vec(),
        "Case with the label -2 and the target 258" => {
            let (label, target) = (-2, 258);
            encode(Instruction::Case { label, target }).to_vec()
        }
        "End" => encode(Instruction::End).to_vec(),
        _ => return Err(NoAnswer::Row("no such instruction")),
    };
    Ok(format!("{bytes:?}"))
}
