//! Signs of other languages that are two here.

use super::Slip;

/// What two signs that are joined are meant as.
pub(crate) fn slip_of_signs(joined: &str) -> Option<Slip> {
    let slip = match joined {
        "=<" => Slip::LessOrEqualIsWritten,
        "=>" => Slip::GreaterOrEqualIsWritten,
        "<>" | "=!" => Slip::NotEqualIsWritten,
        "**" => Slip::NoPower,
        ">>>" => Slip::ShiftRightIsWritten,
        "^^" => Slip::NoLogicalXor,
        "->" | "::" => Slip::MemberIsWritten,
        "===" => Slip::EqualIsWritten,
        "<<<" => Slip::ShiftLeftIsWritten,
        "&&&" => Slip::AndIsWritten,
        "|||" => Slip::OrIsWritten,
        _ => return None,
    };
    Some(slip)
}

/// Whether two signs with a space between them are meant as one.
pub(crate) fn are_one_sign(before: &str, sign: &str) -> bool {
    match sign {
        "&" | "|" | "<" | ">" => before == sign,
        "=" => matches!(before, "<" | ">" | "=" | "!" | "+" | "-" | "*" | "/"),
        _ => false,
    }
}
