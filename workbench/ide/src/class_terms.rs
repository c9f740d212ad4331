//! What the words of CLASS sort by.

/// The classes that have a meaning of their own, each with what it says of a variable or a method.
const CLASS_TERMS: [(&str, &str); 31] = [
    ("ALARM", "It belongs to an alarm, as a limit does."),
    (
        "ANALOG_INPUT",
        "It belongs to an input block of analog values.",
    ),
    (
        "ANALOG_OUTPUT",
        "It belongs to an output block of analog values.",
    ),
    (
        "COMPUTATION",
        "It belongs to a block that computes values from others.",
    ),
    ("CONSTANT", "Its value never changes."),
    (
        "CONTAINED",
        "It describes the device or one of its blocks, and is no input and no output.",
    ),
    (
        "CORRECTION",
        "It belongs to a block that corrects measured values.",
    ),
    ("DEVICE", "It describes the device itself."),
    ("DIAGNOSTIC", "It tells how well the device is."),
    (
        "DIGITAL_INPUT",
        "It belongs to an input block of digital values.",
    ),
    (
        "DIGITAL_OUTPUT",
        "It belongs to an output block of digital values.",
    ),
    (
        "DISCRETE",
        "It belongs to a block of values that have a few states.",
    ),
    (
        "DISCRETE_INPUT",
        "It belongs to an input block of values that have a few states.",
    ),
    (
        "DISCRETE_OUTPUT",
        "It belongs to an output block of values that have a few states.",
    ),
    (
        "DYNAMIC",
        "The device changes its value by itself, so that a host reads it again and again.",
    ),
    ("FACTORY", "It is for the maker of the device."),
    (
        "FREQUENCY_INPUT",
        "It belongs to an input block of frequencies.",
    ),
    (
        "FREQUENCY_OUTPUT",
        "It belongs to an output block of frequencies.",
    ),
    ("HART", "It belongs to the connection by HART."),
    ("INPUT", "It is an input of a block."),
    (
        "LOCAL",
        "Its value is the host's, and is not kept in the device.",
    ),
    ("LOCAL_DISPLAY", "It belongs to the display at the device."),
    ("MAINTENANCE", "It is for maintenance."),
    (
        "OPERATE",
        "It is for those who run the process, as a set point is.",
    ),
    ("OPTIONAL", "Not every device of the type has it."),
    ("OUTPUT", "It is an output of a block."),
    ("SERVICE", "It is for service at the device."),
    ("SPECIALIST", "It is for specialists."),
    ("TEMPORARY", "Its value is kept for a time only."),
    ("TUNE", "It tunes what a block does."),
    ("USER_INTERFACE", "It belongs to what is shown to the user."),
];

/// What a class says of a variable or a method, in a sentence.
pub(crate) fn class_sentence(word: &str) -> Option<&'static str> {
    let term = CLASS_TERMS.iter().find(|(class, _)| *class == word);
    term.map(|(_, sentence)| *sentence)
}

#[cfg(test)]
mod tests {
    use super::*;
    use edd_lints::CLASSES;

    #[test]
    fn each_class_has_its_sentence() {
        let words = CLASS_TERMS.map(|(word, _)| word);
        assert_eq!(words, CLASSES);
        assert!(CLASS_TERMS.iter().all(|(_, told)| told.ends_with('.')));
    }
}
