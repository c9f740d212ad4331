//! Units: those that a text names beside the one of its variable, and values of two units that are
//! compared, added or limited by each other.

use crate::context::Context;
use crate::expressions::operands::referred;
use crate::expressions::walk::Walk;
use crate::instrument::{Variable, variable_of};
use crate::kind::{ConditionKind, VariableKind};
use crate::limits::sum_of;
use crate::lists::{is_total, values_in};
use crate::source::{TokenIndex, index};
use crate::texts::variants::Variants;
use crate::traits::quoted;
use crate::types::number_parts;
use crate::warning::Findings;
use crate::words::Vocabulary;
use edd_instructions::Sort;
use edd_syntax::cond::Cond;
use edd_syntax::expr::Expr;
use edd_syntax::item::{Attribute, Item};
use edd_syntax::numbers::TextAttribute;
use edd_syntax::reference::Target;
use edd_syntax::text::Text;
use std::sync::LazyLock;

/// What is measured in a unit.
#[derive(Clone, Copy, PartialEq, Eq)]
enum Dimension {
    Length,
    Time,
    Pressure,
    Temperature,
    Current,
    Voltage,
    Resistance,
    Power,
    Frequency,
    Mass,
    Volume,
    Flow,
    Speed,
    Share,
}

/// A unit with its signs and names.
struct Row {
    dimension: Dimension,
    names: &'static [&'static str],
}

const fn row(dimension: Dimension, names: &'static [&'static str]) -> Row {
    Row { dimension, names }
}

const UNITS: &[Row] = &[
    row(Dimension::Length, &["µm", "um", "micrometres"]),
    row(
        Dimension::Length,
        &[
            "mm",
            "millimetres",
            "millimeters",
            "Millimetern",
            "Millimeter",
        ],
    ),
    row(
        Dimension::Length,
        &[
            "cm",
            "centimetres",
            "centimeters",
            "Zentimetern",
            "Zentimeter",
        ],
    ),
    row(Dimension::Length, &["dm", "decimetres", "Dezimetern"]),
    row(Dimension::Length, &["m", "metres", "meters", "Metern"]),
    row(
        Dimension::Length,
        &["km", "kilometres", "kilometers", "Kilometern"],
    ),
    row(Dimension::Length, &["in", "inch", "inches", "Zoll"]),
    row(Dimension::Length, &["ft", "feet"]),
    row(
        Dimension::Time,
        &["µs", "us", "microseconds", "Mikrosekunden"],
    ),
    row(Dimension::Time, &["ms", "milliseconds", "Millisekunden"]),
    row(Dimension::Time, &["s", "sec", "seconds", "Sekunden"]),
    row(Dimension::Time, &["min", "minutes", "Minuten"]),
    row(Dimension::Time, &["h", "hours", "Stunden"]),
    row(Dimension::Time, &["d", "days", "Tage", "Tagen"]),
    row(Dimension::Pressure, &["Pa", "pascal", "Pascal"]),
    row(
        Dimension::Pressure,
        &["hPa", "mbar", "millibar", "Millibar"],
    ),
    row(Dimension::Pressure, &["kPa", "kilopascal", "Kilopascal"]),
    row(Dimension::Pressure, &["bar"]),
    row(Dimension::Pressure, &["MPa", "megapascal"]),
    row(Dimension::Pressure, &["psi"]),
    row(Dimension::Temperature, &["°C", "degC"]),
    row(Dimension::Temperature, &["°F", "degF"]),
    row(Dimension::Temperature, &["K", "kelvin", "Kelvin"]),
    row(Dimension::Current, &["µA", "uA", "microamperes"]),
    row(Dimension::Current, &["mA", "milliamperes", "Milliampere"]),
    row(Dimension::Current, &["A", "amperes", "Ampere"]),
    row(Dimension::Voltage, &["µV", "uV"]),
    row(Dimension::Voltage, &["mV", "millivolts", "Millivolt"]),
    row(Dimension::Voltage, &["V", "volts", "Volt"]),
    row(Dimension::Voltage, &["kV", "kilovolts"]),
    row(Dimension::Resistance, &["Ohm", "ohm", "ohms", "Ω"]),
    row(Dimension::Resistance, &["kOhm", "kohm", "kΩ"]),
    row(Dimension::Power, &["mW"]),
    row(Dimension::Power, &["W", "watts", "Watt"]),
    row(Dimension::Power, &["kW", "kilowatts", "Kilowatt"]),
    row(Dimension::Frequency, &["Hz", "hertz", "Hertz"]),
    row(Dimension::Frequency, &["kHz", "kilohertz"]),
    row(Dimension::Frequency, &["MHz", "megahertz"]),
    row(Dimension::Mass, &["mg"]),
    row(Dimension::Mass, &["g", "grams", "Gramm"]),
    row(Dimension::Mass, &["kg", "kilograms", "Kilogramm"]),
    row(Dimension::Mass, &["t", "tonnes", "Tonnen"]),
    row(
        Dimension::Volume,
        &["ml", "millilitres", "milliliters", "Millilitern"],
    ),
    row(
        Dimension::Volume,
        &["l", "L", "litres", "liters", "Litern", "Liter"],
    ),
    row(Dimension::Volume, &["hl", "hectolitres", "Hektolitern"]),
    row(Dimension::Volume, &["m3", "m³"]),
    row(Dimension::Flow, &["l/s"]),
    row(Dimension::Flow, &["l/min"]),
    row(Dimension::Flow, &["l/h"]),
    row(Dimension::Flow, &["m3/s", "m³/s"]),
    row(Dimension::Flow, &["m3/h", "m³/h"]),
    row(Dimension::Speed, &["mm/s"]),
    row(Dimension::Speed, &["m/s"]),
    row(Dimension::Speed, &["km/h"]),
    row(Dimension::Share, &["%", "percent", "Prozent"]),
];

/// A unit, by its place in the table, and how it is written.
#[derive(Clone, Copy)]
pub(crate) struct Unit {
    row: usize,
    name: &'static str,
}

// A unit has several names.
impl PartialEq for Unit {
    fn eq(&self, other: &Unit) -> bool {
        self.row == other.row
    }
}

/// The units by their signs and names.
static NAMED: LazyLock<Vocabulary<Unit>> = LazyLock::new(|| {
    let rows = UNITS.iter().enumerate();
    Vocabulary::of(rows.flat_map(|(row, known)| {
        let names = known.names.iter().copied();
        names.map(move |name| (name, Unit { row, name }))
    }))
});

impl Unit {
    /// The unit that a text is.
    pub(crate) fn of(text: &str) -> Option<Unit> {
        NAMED.get_exactly(text)
    }

    pub(crate) fn name(self) -> &'static str {
        self.name
    }

    /// Whether both are units of the same, as mm and m are.
    pub(crate) fn is_comparable(self, other: Unit) -> bool {
        let dimension = |unit: Unit| UNITS.get(unit.row).map(|row| row.dimension);
        dimension(self) == dimension(other)
    }
}

/// What comes before the unit of a value.
const IN: &str = " in ";

fn words_of(variant: &[u8]) -> &str {
    str::from_utf8(variant).unwrap_or_default()
}

// The units of a text in all branches and languages, where all of them are known.
fn units_in(units: &Cond<Target, Text>) -> Option<Vec<Unit>> {
    if !is_total(units) {
        return None;
    }
    let mut all = Vec::new();
    for listed in values_in(units) {
        for variant in Variants::of(quoted(listed.value)?.as_bytes()) {
            all.push(Unit::of(words_of(variant.words).trim())?);
        }
    }
    Some(all)
}

/// The units of a variable in all branches and languages; none where one of them is not known.
pub(crate) fn units_of(variable: &Item<Target>) -> Vec<Unit> {
    let units = variable.attributes.iter().find_map(|one| match one {
        Attribute::OneText(_, TextAttribute::ConstantUnit, unit) => Some(unit),
        _ => None,
    });
    units.and_then(units_in).unwrap_or_default()
}

// The units that the end of a label names, as `(mbar)`, `[mbar]` and `in mbar` do. Single capital letters
// and `min` may say something else.
fn named_by_label(label: &str) -> Option<Unit> {
    let label = label.trim();
    let braced = label
        .strip_suffix(')')
        .and_then(|label| label.rsplit_once('('))
        .or_else(|| label.strip_suffix(']')?.rsplit_once('['))
        .map(|(_, inside)| inside);
    let name = braced.or_else(|| label.rsplit_once(" in ").map(|(_, last)| last))?;
    let is_letter = name.len() == 1 && name.chars().all(char::is_uppercase);
    Unit::of(name.trim()).filter(|_| !is_letter && name != "min")
}

// What is behind each ` in ` of a text, up to the next one.
fn behind_in(text: &str) -> impl Iterator<Item = &str> {
    // Blanks are looked for by themselves: they are found faster than a word.
    let mut places = text.bytes().enumerate().filter(|(_, byte)| *byte == b' ');
    let mut next = move |start: usize| {
        places.find_map(|(at, _)| {
            let behind = text.get(at..)?.strip_prefix(IN)?;
            (start <= at).then_some((at, behind))
        })
    };
    let mut found = next(0);
    std::iter::from_fn(move || {
        let (at, behind) = found.take()?;
        found = next(at.saturating_add(IN.len()));
        let length = found.map(|(end, _)| end.saturating_sub(at).saturating_sub(IN.len()));
        behind.get(..length.unwrap_or(behind.len()))
    })
}

// The unit that a help names as that of the value, as `in seconds`.
fn named_by_help(help: &str) -> Option<Unit> {
    let mut parts = behind_in(help).filter_map(|behind| {
        let end = behind.find([' ', '.', ',', ';', ')', ':', '\\']);
        let (name, rest) = behind.split_at_checked(end.unwrap_or(behind.len()))?;
        let is_ended = rest.is_empty() || !rest.starts_with(' ');
        Unit::of(name).filter(|_| is_ended && 1 < name.len() && name != "in")
    });
    let first = parts.next()?;
    parts.next().is_none().then_some(first)
}

/// Checks whether the LABEL and the HELP of a variable name another unit than its own.
pub(crate) fn check_named_units(variable: &Variable<'_>, findings: &mut Findings<'_>) {
    let units = &variable.units;
    if units.is_empty() {
        return;
    }
    for attribute in &variable.item.attributes {
        let Attribute::OneText(at, which, text) = attribute else {
            continue;
        };
        let named: fn(&str) -> Option<Unit> = match which {
            TextAttribute::Label => named_by_label,
            TextAttribute::Help => named_by_help,
            TextAttribute::ConstantUnit => continue,
        };
        for listed in values_in(text) {
            let text = quoted(listed.value).unwrap_or_default();
            let mut all =
                Variants::of(text.as_bytes()).filter_map(|one| named(words_of(one.words)));
            let other = all.find(|unit| {
                !units.contains(unit) && units.iter().any(|own| own.is_comparable(*unit))
            });
            if let Some((other, own)) = other.zip(units.first()) {
                let kind = VariableKind::NamedUnit(other.name, own.name);
                findings.add(index(*at), kind);
            }
        }
    }
}

// The unit of what a reference refers to.
fn unit_of_target(target: Target, walk: &Walk<'_, '_>) -> Option<Unit> {
    let variable = walk.context.instrument.variable(variable_of(target)?)?;
    variable.unit()
}

/// Checks two plain values that are compared, added, or stored in each other.
pub(crate) fn check_two_units(
    first: Target,
    second: &Expr<Target>,
    at: TokenIndex,
    walk: &mut Walk<'_, '_>,
) {
    let Some(second) = referred(second).filter(|second| variable_of(*second).is_some()) else {
        return;
    };
    let units = unit_of_target(first, walk).zip(unit_of_target(second, walk));
    if let Some((one, other)) = units.filter(|(one, other)| one != other) {
        let kind = ConditionKind::TwoUnits(one.name, other.name);
        walk.findings.add(at, kind);
    }
}

/// Checks the limits of a variable that are another one of another unit.
pub(crate) fn check_limit_units(
    variable: &Variable<'_>,
    context: &Context<'_>,
    findings: &mut Findings<'_>,
) {
    let Some(own) = variable.unit() else {
        return;
    };
    for part in number_parts(variable.parts()) {
        let mut others = values_in(part.value).filter_map(|listed| {
            let (target, _) = sum_of(listed.value, Sort::Attribute, &context.instrument)?;
            context.instrument.variable(variable_of(target)?)?.unit()
        });
        if let Some(other) = others.find(|other| *other != own) {
            let kind = ConditionKind::TwoUnits(own.name, other.name);
            findings.add(part.at, kind);
        }
    }
}
