//! Why a call is refused, with the numbers and kinds of the core.

use std::fmt;

// An enum of faults, each with its number and kind, and its way from the core's. The core's fault
// for want of memory ends the program.
macro_rules! faults {
    (
        $(#[$meta:meta])*
        $name:ident, from $core:ty $([$memory:ident])? {
            $($(#[$doc:meta])* $variant:ident = $number:literal $kind:literal,)+
        }
    ) => {
        $(#[$meta])*
        #[derive(Clone, Copy, Debug, PartialEq, Eq, Hash)]
        pub enum $name {
            $($(#[$doc])* $variant,)+
        }

        impl $name {
            /// The number of the fault, as docs/REFUSALS.md lists it.
            pub fn number(self) -> u16 {
                match self {
                    $($name::$variant => $number,)+
                }
            }

            /// The kind of the fault: the word that stands behind its number.
            pub fn name(self) -> &'static str {
                match self {
                    $($name::$variant => $kind,)+
                }
            }

            pub(crate) fn from_core(fault: $core) -> $name {
                type Core = $core;
                match fault {
                    $(Core::$variant => $name::$variant,)+
                    $(Core::$memory => crate::memory::refused::<$name>(),)?
                }
            }
        }

        impl fmt::Display for $name {
            fn fmt(&self, f: &mut fmt::Formatter<'_>) -> fmt::Result {
                write!(f, "{} {}", self.number(), self.name())
            }
        }

        impl std::error::Error for $name {}
    };
}

faults! {
    /// The first rule of images that bytes break. docs/IMAGE.md lists the rules.
    LoadFault, from edd_loader::LoadFault [Memory] {
        /// There are fewer bytes than a header has.
        Short = 101 "SHORT",
        /// The bytes do not begin with `EDI1`.
        Magic = 102 "MAGIC",
        /// The version of the layout is unknown.
        Version = 103 "VERSION",
        /// The lengths in the header are not those of the bytes.
        Length = 104 "LENGTH",
        /// A row holds what it may not hold.
        Row = 105 "ROW",
        /// A name is none.
        Name = 106 "NAME",
        /// A string is none.
        Text = 107 "TEXT",
        /// Code is no chain of instructions.
        Instruction = 108 "INSTRUCTION",
        /// A jump leads to no instruction.
        Jump = 109 "JUMP",
        /// The operands of an instruction do not fit.
        Depth = 110 "DEPTH",
        /// An instruction names what does not exist.
        Reference = 111 "REFERENCE",
    }
}

faults! {
    /// Why numbers are no values of a device.
    ValuesFault, from edd_machine::ValuesFault [Memory] {
        /// There are not as many numbers as variables.
        Count = 201 "COUNT",
        /// A number is out of the range of its variable.
        Range = 202 "RANGE",
    }
}

faults! {
    /// Why a variable cannot be set to a value.
    SetFault, from edd_machine::SetFault {
        /// There is no such variable.
        BadVariable = 206 "BAD_VARIABLE",
        /// The value is out of the range of the variable.
        OutOfRange = 207 "OUT_OF_RANGE",
    }
}

faults! {
    /// Why an attribute is not read.
    ReadFault, from edd_machine::ReadFault [Memory] {
        /// There is no such item, or it cannot have this attribute.
        NoItem = 203 "NO_ITEM",
        /// The values are those of another image.
        WrongValues = 204 "WRONG_VALUES",
        /// An expression divides by 0.
        DivZero = 210 "DIV_ZERO",
        /// An expression divides the least number by -1.
        DivOverflow = 211 "DIV_OVERFLOW",
        /// An expression shifts by less than 0, or by the width or more.
        BadShift = 212 "BAD_SHIFT",
        /// An array has no element of the number.
        NoElement = 213 "NO_ELEMENT",
    }
}

faults! {
    /// Why a method is not started.
    StartFault, from edd_port::StartFault {
        /// There is no such method, or it has no body.
        NoItem = 203 "NO_ITEM",
        /// The values are those of another image.
        WrongValues = 204 "WRONG_VALUES",
    }
}

faults! {
    /// Why an answer is refused.
    AnswerFault, from edd_port::AnswerFault {
        /// No request is pending.
        NotAsking = 205 "NOT_ASKING",
        /// The answer sets a variable that does not exist.
        BadVariable = 206 "BAD_VARIABLE",
        /// The answer sets a variable to a value out of its range.
        OutOfRange = 207 "OUT_OF_RANGE",
    }
}

faults! {
    /// Why a method is not played.
    PlayFault, from edd_port::PlayFault [Memory] {
        /// There is no such method, or it has no body.
        NoItem = 203 "NO_ITEM",
        /// The values are those of another image.
        WrongValues = 204 "WRONG_VALUES",
        /// An answer sets a variable that does not exist.
        BadVariable = 206 "BAD_VARIABLE",
        /// An answer sets a variable to a value out of its range.
        OutOfRange = 207 "OUT_OF_RANGE",
    }
}

faults! {
    /// Why a panel refuses a number.
    EditFault, from edd_panel::EditFault {
        /// HANDLING lacks WRITE, or the entry is READ_ONLY.
        ReadOnly = 280 "READ_ONLY",
        /// The number is less than MIN_VALUE or greater than MAX_VALUE.
        OutOfLimits = 281 "OUT_OF_LIMITS",
        /// The type and the size of the variable do not hold the number.
        OutOfType = 282 "OUT_OF_TYPE",
        /// No enumerator has the number.
        NoEnumerator = 283 "NO_ENUMERATOR",
        /// No enumerator has one of the bits that change.
        NoBit = 284 "NO_BIT",
        /// An expression that decides about the number traps.
        Trapped = 285 "TRAPPED",
        /// The list has no such choice.
        NoChoice = 286 "NO_CHOICE",
        /// A code has 32 bits.
        BadCode = 287 "BAD_CODE",
    }
}

#[cfg(test)]
mod tests {
    use super::*;

    // Each fault of the core prints as the one that stands for it here.
    macro_rules! print_alike {
        ($name:ident from $core:ty { $($variant:ident)+ }) => {{
            type Core = $core;
            $(assert_eq!(
                Core::$variant.to_string(),
                $name::from_core(Core::$variant).to_string(),
            );)+
        }};
    }

    #[test]
    fn faults_print_as_those_of_the_core() {
        print_alike!(LoadFault from edd_loader::LoadFault {
            Short Magic Version Length Row Name Text Instruction Jump Depth Reference
        });
        print_alike!(ValuesFault from edd_machine::ValuesFault { Count Range });
        print_alike!(SetFault from edd_machine::SetFault { BadVariable OutOfRange });
        print_alike!(ReadFault from edd_machine::ReadFault {
            NoItem WrongValues DivZero DivOverflow BadShift NoElement
        });
        print_alike!(StartFault from edd_port::StartFault { NoItem WrongValues });
        print_alike!(AnswerFault from edd_port::AnswerFault { NotAsking BadVariable OutOfRange });
        print_alike!(PlayFault from edd_port::PlayFault {
            NoItem WrongValues BadVariable OutOfRange
        });
        print_alike!(EditFault from edd_panel::EditFault {
            ReadOnly OutOfLimits OutOfType NoEnumerator NoBit Trapped NoChoice BadCode
        });
    }
}
