//! Methods as a careful maker writes them.

#![expect(clippy::arithmetic_side_effects, reason = "small numbers of a test")]

use super::text;
use proptest::collection::vec;
use proptest::prelude::*;
use std::fmt;

/// A part of a body.
#[derive(Clone, Copy, Debug)]
enum Step {
    /// Reads, and stops where that fails.
    Read,
    /// The same with the code in a local.
    ReadWithCode,
    SetMode(u8),
    SetSetting(i32),
    Ask,
    Choose(u8),
    CountInputs,
    FindGreatest,
    WaitWithLimit(u8),
    PollUntilDone,
    Switch,
    Ranges(i32),
    Bits,
    Messages,
    Average,
    Nested,
}

/// A method.
#[derive(Clone, Debug)]
pub(crate) struct Method {
    restores: bool,
    saves: bool,
    steps: Vec<Step>,
}

fn step() -> impl Strategy<Value = Step> {
    prop_oneof![
        Just(Step::Read),
        Just(Step::ReadWithCode),
        (0..2u8).prop_map(Step::SetMode),
        (1..30i32).prop_map(Step::SetSetting),
        Just(Step::Ask),
        (2..5u8).prop_map(Step::Choose),
        Just(Step::CountInputs),
        Just(Step::FindGreatest),
        (2..9u8).prop_map(Step::WaitWithLimit),
        Just(Step::PollUntilDone),
        Just(Step::Switch),
        (1..90i32).prop_map(Step::Ranges),
        Just(Step::Bits),
        Just(Step::Messages),
        Just(Step::Average),
        Just(Step::Nested),
    ]
}

/// Any method.
pub(crate) fn method() -> impl Strategy<Value = Method> {
    (any::<bool>(), any::<bool>(), vec(step(), 1..6)).prop_map(|(restores, saves, steps)| Method {
        restores,
        saves,
        steps,
    })
}

impl Step {
    fn write(
        self,
        number: usize,
        inputs: usize,
        modes: u8,
        f: &mut fmt::Formatter<'_>,
    ) -> fmt::Result {
        match self {
            Step::Read => writeln!(f, "    if (send_command(1) != 0)\n        abort();"),
            Step::ReadWithCode => writeln!(
                f,
                "    {{\n        int code_{number};\n        code_{number} = send_command_trans(130, 1);\n        \
                 if (code_{number} == 16) {{\n            ACKNOWLEDGE(\"|en|It is locked|de|Es ist gesperrt\");\n            \
                 abort();\n        }}\n    }}"
            ),
            Step::SetMode(mode) => {
                writeln!(f, "    mode = {mode};\n    send_command_trans(130, 0);")
            }
            Step::SetSetting(by) => writeln!(
                f,
                "    setting_0 = setting_0 + {by};\n    if (send_command_trans(130, 0) != 0)\n        PUT_MESSAGE(\"|en|Not written|de|Nicht geschrieben\");"
            ),
            Step::Ask => writeln!(
                f,
                "    GET_DEV_VAR_VALUE(\"|en|What is measured?|de|Was wird gemessen?\", entered);"
            ),
            Step::Choose(choices) => {
                let english = (0..choices)
                    .map(|n| format!("Way {n}"))
                    .collect::<Vec<_>>()
                    .join(";");
                let german = (0..choices)
                    .map(|n| format!("Weg {n}"))
                    .collect::<Vec<_>>()
                    .join(";");
                writeln!(
                    f,
                    "    switch (SELECT_FROM_LIST(\"|en|Which way?|de|Welcher Weg?\", \"|en|{english}|de|{german}\")) {{\n        \
                     case 0:\n            send_command(1);\n            break;\n        case 1:\n            return;\n        \
                     default:\n            save_values();\n    }}"
                )
            }
            Step::CountInputs => writeln!(
                f,
                "    {{\n        int i, over = 0;\n        for (i = 1; i <= {inputs}; i++)\n            if (inputs[i] > entered)\n                \
                 over++;\n        if (over > 0)\n            PUT_MESSAGE(\"|en|Too high|de|Zu hoch\");\n    }}"
            ),
            Step::FindGreatest => writeln!(
                f,
                "    {{\n        int i, best = 1;\n        for (i = {inputs}; i > 1; i--) {{\n            \
                 if (inputs[i] > inputs[best])\n                best = i;\n        }}\n        \
                 entered = best;\n    }}"
            ),
            Step::WaitWithLimit(seconds) => writeln!(
                f,
                "    {{\n        int turns = 0;\n        while (turns < {seconds} && measured_0 > entered) {{\n            \
                 DELAY(2, \"|en|Please wait|de|Bitte warten\");\n            send_command(1);\n            turns++;\n        }}\n    }}"
            ),
            Step::PollUntilDone => writeln!(
                f,
                "    do {{\n        DELAY(1, \"|en|Please wait|de|Bitte warten\");\n        if (send_command(1) == 8)\n            break;\n    }} while (state & 1);"
            ),
            Step::Switch => {
                writeln!(
                    f,
                    "    switch (mode) {{\n        case 0:\n            entered = 1;\n            break;"
                )?;
                if 2 < modes {
                    writeln!(
                        f,
                        "        case 2:\n            entered = 3;\n            break;"
                    )?;
                }
                writeln!(f, "        default:\n            entered = 2;\n    }}")
            }
            Step::Ranges(limit) => writeln!(
                f,
                "    if (measured_0 < -{limit} || measured_0 > {limit}) {{\n        \
                 ACKNOWLEDGE({});\n        return;\n    }}",
                text(3, 7)
            ),
            Step::Bits => writeln!(
                f,
                "    if ((state & 1) == 0 && mode == 1)\n        PUT_MESSAGE(\"|en|All is well|de|Alles in Ordnung\");\n    \
                 else if (state & 1)\n        PUT_MESSAGE(\"|en|There is a fault|de|Es gibt einen Fehler\");"
            ),
            Step::Messages => writeln!(
                f,
                "    PUT_MESSAGE(\"|en|The method begins\"\n                \"|de|Die Methode beginnt\");"
            ),
            Step::Average => writeln!(
                f,
                "    {{\n        long sum;\n        sum = measured_0 + entered;\n        sum = sum * 10 / 2;\n        \
                 if (sum != 0)\n            entered = entered + 1000 / sum;\n    }}"
            ),
            Step::Nested => writeln!(
                f,
                "    if (mode == 1) {{\n        if (measured_0 > 5 && measured_0 < 50)\n            entered = measured_0;\n        \
                 else if (measured_0 >= 50) {{\n            entered = 50;\n            send_command(1);\n        }}\n    }}"
            ),
        }
    }
}

impl Method {
    /// Writes the method of a number.
    pub(crate) fn write(
        &self,
        number: usize,
        inputs: usize,
        modes: u8,
        f: &mut fmt::Formatter<'_>,
    ) -> fmt::Result {
        writeln!(
            f,
            "METHOD method_{number} {{\n    LABEL {};",
            text(number + 1, number + 40)
        )?;
        writeln!(f, "    DEFINITION {{")?;
        if self.restores {
            writeln!(f, "    add_abort_method(restore);")?;
        }
        for (number, step) in self.steps.iter().enumerate() {
            step.write(number, inputs, modes, f)?;
        }
        if self.saves {
            writeln!(f, "    save_values();")?;
        }
        writeln!(f, "    }}\n}}")
    }
}
