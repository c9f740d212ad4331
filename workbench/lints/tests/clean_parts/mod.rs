//! Parts of descriptions as a careful maker writes them: measured values, settings, choices, bits,
//! the commands that carry them, menus and methods.

#![expect(
    clippy::arithmetic_side_effects,
    clippy::indexing_slicing,
    reason = "small numbers of a test"
)]

mod methods;

use methods::{Method, method};
use proptest::collection::vec;
use proptest::prelude::*;
use std::fmt;

/// Words of labels in two languages.
const WORDS: [(&str, &str); 8] = [
    ("Level", "Stand"),
    ("Lower limit", "Untergrenze"),
    ("Damping", "Dämpfung"),
    ("Pressure", "Druck"),
    ("Alarm delay", "Alarmverzögerung"),
    ("Sensor", "Fühler"),
    ("Cut-off", "Schleichmenge"),
    ("Temperature", "Temperatur"),
];

const UNITS: [&str; 5] = ["mm", "%", "0.1 °C", "l/min", "mbar"];

const FORMATS: [&str; 4] = ["5d", "4d", "04X", "-6d"];

/// A setting: a number with limits that can be written.
#[derive(Clone, Debug)]
pub(crate) struct Setting {
    size: u32,
    low: i32,
    width: i32,
    default: i32,
    unit: Option<usize>,
    format: Option<usize>,
    help: bool,
    form: Form,
}

/// How its limits are written.
#[derive(Clone, Copy, Debug)]
enum Form {
    Plain,
    /// The greatest value depends on the mode.
    UnderCondition,
    /// It is computed of the setting before.
    Computed,
    /// It may be entered only in some modes.
    Locked,
    /// It is there only in some modes.
    Optional,
}

/// A device description.
#[derive(Clone, Debug)]
pub(crate) struct Device {
    measured: Vec<(usize, bool)>,
    settings: Vec<Setting>,
    modes: u8,
    bits: u8,
    has_parts: bool,
    has_sensor_menu: bool,
    methods: Vec<Method>,
}

fn setting() -> impl Strategy<Value = Setting> {
    let form = prop_oneof![
        4 => Just(Form::Plain),
        1 => Just(Form::UnderCondition),
        1 => Just(Form::Computed),
        1 => Just(Form::Locked),
        1 => Just(Form::Optional),
    ];
    let numbers = (
        prop_oneof![Just(2u32), Just(4u32)],
        -500..500i32,
        40..900i32,
        0..20i32,
    );
    let texts = (
        proptest::option::of(0..UNITS.len()),
        proptest::option::of(0..FORMATS.len()),
        any::<bool>(),
    );
    (numbers, texts, form).prop_map(
        |((size, low, width, default), (unit, format, help), form)| Setting {
            size,
            low,
            width,
            default,
            unit,
            format,
            help,
            form,
        },
    )
}

/// Any description of a device.
pub(crate) fn device() -> impl Strategy<Value = Device> {
    let variables = (
        vec((0..UNITS.len(), any::<bool>()), 2..5),
        vec(setting(), 1..5),
        2..5u8,
        1..6u8,
    );
    let rest = (any::<bool>(), any::<bool>(), vec(method(), 0..6));
    (variables, rest).prop_map(
        |((measured, settings, modes, bits), (has_parts, has_sensor_menu, methods))| Device {
            measured,
            settings,
            modes,
            bits,
            has_parts,
            has_sensor_menu,
            methods,
        },
    )
}

/// A text in both languages, with a number that tells it from others.
pub(crate) fn text(word: usize, number: usize) -> String {
    let (english, german) = WORDS[word % WORDS.len()];
    format!("\"|en|{english} {number}|de|{german} {number}\"")
}

impl Setting {
    fn write(&self, number: usize, f: &mut fmt::Formatter<'_>) -> fmt::Result {
        let (low, high) = (self.low, self.low + self.width);
        writeln!(f, "VARIABLE setting_{number} {{")?;
        writeln!(f, "    LABEL {};", text(number + 3, number))?;
        if self.help {
            writeln!(
                f,
                "    HELP \"|en|Set before the start|de|Vor dem Start einstellen\";"
            )?;
        }
        if let Some(unit) = self.unit {
            writeln!(f, "    CONSTANT_UNIT \"{}\";", UNITS[unit])?;
        }
        match self.form {
            Form::Locked => {
                writeln!(
                    f,
                    "    HANDLING IF (mode == 1) {{ READ; }} ELSE {{ READ & WRITE; }}"
                )?;
            }
            Form::Optional => {
                writeln!(
                    f,
                    "    VALIDITY IF (mode != 0) {{ TRUE; }} ELSE {{ FALSE; }}"
                )?;
            }
            _ => {}
        }
        let most = match self.form {
            Form::UnderCondition => {
                format!("IF (mode == 1) {{ {high}; }} ELSE {{ {}; }}", high + 50)
            }
            Form::Computed if 0 < number => format!("{high} + setting_{} / 2;", number - 1),
            _ => format!("{high};"),
        };
        let format = self
            .format
            .map(|format| format!(" EDIT_FORMAT \"{}\";", FORMATS[format]));
        writeln!(
            f,
            "    TYPE INTEGER ({}) {{ DEFAULT_VALUE {}; MIN_VALUE {low}; MAX_VALUE {most}{} }}\n}}",
            self.size,
            low + self.default,
            format.unwrap_or_default()
        )
    }
}

impl Device {
    fn write_variables(&self, f: &mut fmt::Formatter<'_>) -> fmt::Result {
        for (number, (unit, is_wide)) in self.measured.iter().enumerate() {
            let size = if *is_wide { " (2)" } else { "" };
            writeln!(
                f,
                "VARIABLE measured_{number} {{ LABEL {}; CLASS DYNAMIC & INPUT; HANDLING READ; \
                 CONSTANT_UNIT \"{}\"; TYPE INTEGER{size}; }}",
                text(number, number),
                UNITS[*unit]
            )?;
        }
        for (number, setting) in self.settings.iter().enumerate() {
            setting.write(number, f)?;
        }
        write!(
            f,
            "VARIABLE mode {{ LABEL \"|en|Mode|de|Modus\"; TYPE ENUMERATED {{"
        )?;
        let names = [
            ("Off", "Aus"),
            ("Automatic", "Automatik"),
            ("Manual", "Hand"),
            ("Hold", "Halten"),
        ];
        for (number, (english, german)) in names.iter().enumerate().take(usize::from(self.modes)) {
            write!(f, " {{ {number}, \"|en|{english}|de|{german}\" }}")?;
        }
        write!(
            f,
            " }} }}\nVARIABLE state {{ LABEL \"|en|State|de|Zustand\"; CLASS DYNAMIC & DIAGNOSTIC; "
        )?;
        write!(f, "HANDLING READ; TYPE BIT_ENUMERATED {{")?;
        for bit in 0..self.bits {
            let value = 1 << bit;
            write!(f, " {{ {value}, \"|en|Fault {bit}|de|Fehler {bit}\" }}")?;
        }
        writeln!(f, " }} }}")?;
        writeln!(
            f,
            "VARIABLE entered {{ LABEL \"|en|Reference|de|Referenz\"; CLASS LOCAL; TYPE INTEGER (2) {{ MIN_VALUE 1; MAX_VALUE 5000; }} }}"
        )
    }

    fn write_parts(&self, f: &mut fmt::Formatter<'_>) -> fmt::Result {
        write!(
            f,
            "ARRAY OF VARIABLE inputs {{ LABEL \"|en|Inputs|de|Eingänge\"; ELEMENTS {{"
        )?;
        for number in 0..self.measured.len() {
            write!(
                f,
                " {}, measured_{number}, {};",
                number + 1,
                text(number, number + 20)
            )?;
        }
        writeln!(f, " }} }}")?;
        if self.has_parts {
            writeln!(
                f,
                "COLLECTION OF VARIABLE parts {{ LABEL \"|en|Parts|de|Teile\"; \
                 MEMBERS {{ first, setting_0, \"|en|First|de|Erster\"; chosen, mode; }} }}"
            )?;
        }
        Ok(())
    }

    fn write_commands(&self, f: &mut fmt::Formatter<'_>) -> fmt::Result {
        write!(
            f,
            "COMMAND read_all {{ NUMBER 1; OPERATION READ; TRANSACTION {{ REPLY {{ state, mode"
        )?;
        for number in 0..self.measured.len() {
            write!(f, ", measured_{number}")?;
        }
        writeln!(
            f,
            " }} }} RESPONSE_CODES {{ 0, SUCCESS, \"|en|Done|de|Erledigt\"; 8, MISC_WARNING, \"|en|Starts|de|Startet\"; }} }}"
        )?;
        write!(
            f,
            "COMMAND write_all {{ NUMBER 130; OPERATION WRITE; TRANSACTION 0 {{ REQUEST {{ mode"
        )?;
        for number in 0..self.settings.len() {
            write!(f, ", setting_{number}")?;
        }
        writeln!(
            f,
            " }} REPLY {{ mode }} }} TRANSACTION 1 {{ REQUEST {{ 1 }} }}"
        )?;
        writeln!(
            f,
            "    RESPONSE_CODES {{ 0, SUCCESS, \"|en|Done|de|Erledigt\"; 16, MODE_ERROR, \"|en|Locked|de|Gesperrt\"; }} }}"
        )
    }

    fn write_menus(&self, f: &mut fmt::Formatter<'_>) -> fmt::Result {
        write!(
            f,
            "MENU main {{ LABEL \"|en|Main|de|Haupt\"; ITEMS {{ state (READ_ONLY), mode"
        )?;
        for number in 0..self.measured.len() {
            write!(f, ", measured_{number} (READ_ONLY DISPLAY_VALUE)")?;
        }
        write!(f, ", \"|en|Settings|de|Einstellungen\"")?;
        for number in 0..self.settings.len() {
            write!(f, ", setting_{number}")?;
        }
        write!(
            f,
            ", IF (state & 1) {{ \"|en|Look at the sensor|de|Den Fühler ansehen\" }}"
        )?;
        if self.has_parts {
            write!(f, ", parts_menu")?;
        }
        if self.has_sensor_menu {
            write!(f, ", inner")?;
        }
        for number in 0..self.methods.len() {
            write!(f, ", method_{number}")?;
        }
        writeln!(f, " }} }}")?;
        if self.has_parts {
            writeln!(
                f,
                "MENU parts_menu {{ LABEL \"|en|Parts|de|Teile\"; \
                 ITEMS {{ parts.first, parts.chosen (READ_ONLY) }} }}"
            )?;
        }
        if self.has_sensor_menu {
            writeln!(
                f,
                "MENU inner {{ LABEL \"|en|Sensor|de|Fühler\"; VALIDITY IF (mode == 1) {{ TRUE; }} \
                 ELSE {{ FALSE; }} ITEMS {{ measured_0, setting_0 }} }}"
            )?;
        }
        Ok(())
    }
}

impl fmt::Display for Device {
    fn fmt(&self, f: &mut fmt::Formatter<'_>) -> fmt::Result {
        writeln!(
            f,
            "MANUFACTURER 17, DEVICE_TYPE 90, DEVICE_REVISION 1, DD_REVISION 1"
        )?;
        self.write_variables(f)?;
        self.write_parts(f)?;
        self.write_commands(f)?;
        self.write_menus(f)?;
        for (number, method) in self.methods.iter().enumerate() {
            method.write(number, self.measured.len(), self.modes, f)?;
        }
        writeln!(
            f,
            "METHOD use_all {{ LABEL \"|en|Compare|de|Vergleichen\"; DEFINITION {{"
        )?;
        writeln!(f, "    if (inputs[1] > entered) send_command(1);\n}} }}")?;
        writeln!(
            f,
            "METHOD restore {{ LABEL \"|en|Restore|de|Wiederherstellen\"; VALIDITY FALSE; DEFINITION {{"
        )?;
        writeln!(f, "    mode = 0;\n    send_command_trans(130, 0);\n}} }}")
    }
}
