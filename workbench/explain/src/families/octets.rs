//! Why octets are not those of a message.

use crate::Explanation;

pub(crate) const TABLE: &[Explanation] = &[
    Explanation::new(
        220,
        "TOO_FEW_OCTETS",
        "There are fewer octets than the message has: the first number says how many came, and the
second how many the message has under the values at hand.",
    )
    .wrong_where(
        "for REPLY { response_code, pressure }, of one octet and two",
        "edd octets pump.edd read_pressure --reply \"00 01\"",
    )
    .right("edd octets pump.edd read_pressure --reply \"00 01 2C\""),
    Explanation::new(
        221,
        "TOO_MANY_OCTETS",
        "There are more octets than the message has: the first number says how many came, and the
second how many the message has under the values at hand.

The response code and the device status of the protocol are octets of the message only where the
description lists variables for them.",
    )
    .wrong_where(
        "for REPLY { pressure }, of two octets, with two octets of the protocol before them",
        "edd octets pump.edd read_pressure --reply \"00 40 01 2C\"",
    )
    .right("edd octets pump.edd read_pressure --reply \"01 2C\""),
    Explanation::new(
        222,
        "WRONG_CONSTANT",
        "The octet at this place, which counts from 0, is that of a constant of the message, and came
with another value. Most often the octets are those of another command or transaction.",
    )
    .wrong_where(
        "for REPLY { 7, pressure }",
        "edd octets pump.edd read_pressure --reply \"08 01 2C\"",
    )
    .right("edd octets pump.edd read_pressure --reply \"07 01 2C\""),
    Explanation::new(
        223,
        "EXCESS_BITS",
        "The mask of this variable has more bits than the variable, and one of the bits beyond it came
as 1. They are sent as 0. Where the device has a use for them, the variable needs more octets.",
    )
    .wrong_where(
        "for a variable of one octet, REPLY { level <0x0FFF> } and octets 01 2C",
        "VARIABLE level { TYPE UNSIGNED_INTEGER (1); }",
    )
    .right("VARIABLE level { TYPE UNSIGNED_INTEGER (2); }"),
];
