//! Why a simulated device has no answer.

use crate::Explanation;

pub(crate) const TABLE: &[Explanation] = &[
    Explanation::new(
        270,
        "DEVICE_ASKS",
        "A method of the simulated device asks: it shows a message, waits, sends a command or asks
for a value. A device answers and has nobody to ask, so its methods only compute.",
    )
    .wrong_where("in the source of a device", r#"METHOD second { DEFINITION { PUT_MESSAGE("a second"); position++; } }"#)
    .right("METHOD second { DEFINITION { position++; } }"),
    Explanation::new(
        271,
        "DEVICE_TRAPS",
        "An expression in a method of the simulated device has no value, as after DIV_ZERO, which
210 to 213 explain.",
    )
    .wrong_where("in the source of a device where span may be 0", "METHOD command_3_0 { DEFINITION { percent = 100 * pressure / span; } }")
    .right("METHOD command_3_0 { DEFINITION { percent = span == 0 ? 0 : 100 * pressure / span; } }"),
    Explanation::new(
        272,
        "DEVICE_ABORTS",
        "A method of the simulated device aborts. A device that refuses a command says so by its
code.",
    )
    .wrong_where("in the source of a device", "METHOD command_7_0 { DEFINITION { if (locked) abort(); } }")
    .right("METHOD command_7_0 { DEFINITION { if (locked) response_code = 16; } }"),
    Explanation::new(
        273,
        "DEVICE_RUNS_ON",
        "The methods of the simulated device did not come to their end within 1,000,000
instructions, which is what they have for one request. In a DELAY the method second has
them for all seconds together.",
    )
    .wrong_where("in the source of a device", "METHOD command_3_0 { DEFINITION { while (position < target) { position = target; target++; } } }")
    .right("METHOD command_3_0 { DEFINITION { if (position < target) position = target; } }"),
    Explanation::new(
        274,
        "NO_COMMAND",
        "A method sent a command of this number. The instrument has no command with this NUMBER,
and its device has no method for it either. Of edd octets: the description has no command with
this name or NUMBER.",
    )
    .right_where("for send_command(43), in the source of the device", "METHOD command_43_0 { DEFINITION { zero = raw_pressure; } }"),
    Explanation::new(
        275,
        "NO_TRANSACTION",
        "A method sent a transaction of a command. The instrument's command of the first number has
no transaction of the second, and its device has no method for it either. send_command(3)
is send_command_trans(3, 0), and a transaction that is written without a number is that
of the number 0. Of edd octets: the command has no transaction of this number.",
    ),
    Explanation::new(
        276,
        "NO_MESSAGE",
        "What the command's REQUEST or REPLY carries depends on an expression that has no value
under the instrument's values, as after DIV_ZERO, which 210 to 213 explain.",
    ),
    Explanation::new(
        277,
        "DEVICE_RANGE",
        "The value that a message carries for the variable is out of the range that the other side
has for it: the instrument and its device have the variable with another type or size.",
    )
    .wrong_where("where the instrument has VARIABLE pressure { TYPE INTEGER (2); }", "VARIABLE pressure { TYPE INTEGER (4); }")
    .right_where("in the source of the device", "VARIABLE pressure { TYPE INTEGER (2); }"),
    Explanation::new(
        278,
        "DEVICE_CODE",
        "The simulated device's variable response_code is over 2147483647, which is the greatest
code of an answer.",
    )
    .wrong_where("in the source of a device", "VARIABLE response_code { TYPE UNSIGNED_INTEGER (4); }
METHOD command_7_0 { DEFINITION { response_code = -1; } }")
    .right("VARIABLE response_code { TYPE UNSIGNED_INTEGER; }
METHOD command_7_0 { DEFINITION { response_code = 16; } }"),
];
