//! Names that say the opposite of what they name: labels, members that are exchanged, and commands that
//! do not carry what they are called after.

use crate::context::Context;
use crate::exchanges::Exchange;
use crate::instrument::{Instrument, Variable, variable_of};
use crate::kind::{CommandKind, NumberRole, VariableKind};
use crate::limits::sum_of;
use crate::lists::enumerators_of;
use crate::source::{TokenIndex, index};
use crate::texts::variants::Variants;
use crate::traits::quoted;
use crate::types::number_parts;
use crate::usage::operation_of;
use crate::warning::Findings;
use crate::words::{Vocabulary, words_of};
use edd_instructions::Sort;
use edd_syntax::cond::Cond;
use edd_syntax::item::{Attribute, Item, ItemKind};
use edd_syntax::numbers::{ItemNo, NumberOption, TextAttribute, VarNo};
use edd_syntax::reference::Target;
use edd_syntax::types::Operation;
use std::collections::HashSet;
use std::sync::LazyLock;

/// Words of which those of one side say the opposite of those of the other.
const OPPOSITES: &[[&[&str]; 2]] = &[
    [
        &["lower", "low", "lo", "min", "minimum", "least", "lowest"],
        &[
            "upper", "high", "hi", "max", "maximum", "greatest", "highest",
        ],
    ],
    [&["begin", "start", "first"], &["end", "last"]],
    [&["left"], &["right"]],
    [&["input", "inlet"], &["output", "outlet"]],
    [&["top"], &["bottom"]],
    [&["front"], &["rear", "back"]],
    [&["open", "opening"], &["close", "closed", "closing"]],
    [&["enable", "enabled"], &["disable", "disabled"]],
    [&["empty"], &["full"]],
    [&["hot"], &["cold"]],
];

/// The verbs of commands that read, and of those that write.
const READS: [&str; 4] = ["read", "get", "rd", "load"];
const WRITES: [&str; 4] = ["write", "set", "wr", "put"];

/// The row of each of these words, and its side.
static SIDES: LazyLock<Vocabulary<(u32, usize)>> = LazyLock::new(|| {
    let rows = (0..).zip(OPPOSITES);
    let sides = rows.flat_map(|(row, [first, second])| {
        let first = first.iter().map(move |word| (*word, (row, 0)));
        first.chain(second.iter().map(move |word| (*word, (row, 1))))
    });
    Vocabulary::of(sides)
});

/// How many of the rows are about ends of a range.
const ENDS: usize = 2;

/// On which sides of which rows a text has words, as bits.
#[derive(Clone, Copy, Default)]
struct Sides {
    on: [u32; 2],
}

impl Sides {
    fn of(text: &str) -> Sides {
        let mut sides = Sides::default();
        for word in words_of(text) {
            if let Some((row, side)) = SIDES.get(word)
                && let Some(on) = sides.on.get_mut(side)
            {
                *on |= 1_u32.wrapping_shl(row);
            }
        }
        sides
    }

    // The rows of which the text has words of one side alone.
    fn single(self) -> [u32; 2] {
        let [first, second] = self.on;
        [first & !second, second & !first]
    }

    // The side of a row of which the text has words, where it has none of the other one.
    fn side(self, row: usize) -> Option<usize> {
        let row = u32::try_from(row).ok()?;
        let is_on = |bits: u32| bits.checked_shr(row).is_some_and(|bits| bits & 1 == 1);
        self.single().into_iter().position(is_on)
    }

    // The first row on which two texts are on different sides, where they are on none on the same.
    fn opposite(self, other: Sides) -> Option<usize> {
        let ([a, b], [c, d]) = (self.single(), other.single());
        let (alike, opposite) = ((a & c) | (b & d), (a & d) | (b & c));
        let is_opposite = alike == 0 && opposite != 0;
        is_opposite.then(|| usize::try_from(opposite.trailing_zeros()).ok())?
    }
}

// The word of a row that a text has, the first of the list.
fn word_in(text: &str, row: usize) -> Option<&'static str> {
    let mut listed = OPPOSITES.get(row)?.iter().copied().flatten().copied();
    listed.find(|listed| words_of(text).any(|word| word.eq_ignore_ascii_case(listed)))
}

// Two words by which two names say the opposite, where they say nothing alike.
fn opposite(one: &str, other: &str) -> Option<(&'static str, &'static str)> {
    let row = Sides::of(one).opposite(Sides::of(other))?;
    Some((word_in(one, row)?, word_in(other, row)?))
}

// The English words of a text.
fn english(text: &str) -> &str {
    let first = Variants::of(text.as_bytes()).find(|variant| variant.code.starts_with(b"en"));
    first.map_or("", |one| str::from_utf8(one.words).unwrap_or_default())
}

fn check_label(item: &Item<Target>, sides: Sides, findings: &mut Findings<'_>) {
    if sides.single() == [0; 2] {
        return;
    }
    for attribute in &item.attributes {
        if let Attribute::OneText(at, TextAttribute::Label, Cond::Value(text)) = attribute
            && let Some(text) = quoted(text)
            && let Some((word, own)) = opposite(english(text), item.name())
        {
            findings.add(index(*at), VariableKind::OppositeLabel(word, own));
        }
    }
}

// A MIN_VALUE of the lower one of two that is the upper one, or a MAX_VALUE of the upper one that is the lower
// one, by their names.
fn check_ends(
    variable: &Variable<'_>,
    sides: Sides,
    context: &Context<'_>,
    findings: &mut Findings<'_>,
) {
    let own = (0..ENDS).find_map(|row| Some((row, sides.side(row)?)));
    let Some((row, side)) = own else {
        return;
    };
    for part in number_parts(variable.parts()) {
        let is_wrong_end = matches!(
            (side, part.which),
            (0, NumberOption::MinValue) | (1, NumberOption::MaxValue)
        );
        let Cond::Value(e) = part.value else {
            continue;
        };
        let sum = sum_of(e, Sort::Attribute, &context.instrument);
        let other = sum.and_then(|(target, _)| context.instrument.variable(variable_of(target)?));
        let Some(other) = other.filter(|_| is_wrong_end) else {
            continue;
        };
        let against = Sides::of(other.name()).side(row);
        if against.is_some_and(|against| against != side) {
            let kind = VariableKind::OppositeLimit(
                NumberRole::Option(part.which),
                other.name().to_owned(),
            );
            findings.add(part.at, kind);
        }
    }
}

/// A name of a list, and the item that it stands for.
struct Named<'t> {
    at: TokenIndex,
    name: &'t str,
    item: &'t str,
}

fn named_in<'t>(item: &'t Item<Target>, context: &Context<'t>) -> Vec<Named<'t>> {
    let items = context.instrument.items;
    let name_of = |target: Target| {
        let Target::Item(item) = target else {
            return None;
        };
        items
            .get(context.instrument.place_of(item)?)
            .map(Item::name)
    };
    let members = item.attributes.iter().filter_map(|one| match one {
        Attribute::Members(_, members) => Some(members.iter()),
        _ => None,
    });
    let named = members.flatten().filter_map(|member| {
        Some(Named {
            at: index(member.at),
            name: member.name.as_str(),
            item: name_of(member.item)?,
        })
    });
    named.collect()
}

/// The stem of a name and the number at its end.
pub(crate) fn numbered(name: &str) -> Option<(&str, u32)> {
    let stem = name.trim_end_matches(|sign: char| sign.is_ascii_digit());
    let digits = name.get(stem.len()..)?;
    let is_plain = digits == "0" || !digits.starts_with('0');
    Some((stem, digits.parse().ok()?)).filter(|_| is_plain)
}

/// Checks enumerators with numbers in their texts: two that have each other's, where all others have their own.
fn check_enumerators(variable: &Variable<'_>, findings: &mut Findings<'_>) {
    let mut entries = Vec::new();
    for listed in enumerators_of(variable.parts()) {
        let number = u32::try_from(listed.value.value).ok();
        let text = quoted(&listed.value.text).map(english).unwrap_or_default();
        let Some(number) = number.filter(|_| numbered(text).is_some()) else {
            return;
        };
        entries.push((index(listed.value.at), number, text));
    }
    check_numbers(&entries, findings);
}

// Two entries of which each has the number of the other, where all others have their own.
fn check_numbers(entries: &[(TokenIndex, u32, &str)], findings: &mut Findings<'_>) {
    let mut wrong = Vec::new();
    let mut stems = Vec::new();
    for (at, own, item) in entries {
        let Some((stem, number)) = numbered(item) else {
            return;
        };
        if number != *own {
            wrong.push((*at, *own, number, *item));
        }
        if stems.last() != Some(&stem) {
            stems.push(stem);
        }
        if 2 < wrong.len() || 1 < stems.len() {
            return;
        }
    }
    if let [(at, own, number, item), (_, other, back, second)] = *wrong
        && own == back
        && number == other
    {
        let kind = VariableKind::ExchangedMembers(item.to_owned(), second.to_owned());
        findings.add(at, kind);
    }
}

fn check_members<'d>(item: &Item<Target>, context: &Context<'d>, findings: &mut Findings<'_>) {
    let mut entries = Vec::new();
    for named in named_in(item, context) {
        if opposite(named.name, named.item).is_some() {
            let kind = VariableKind::OppositeMember(named.name.to_owned(), named.item.to_owned());
            findings.add(named.at, kind);
        }
        if let Some((_, number)) = numbered(named.name) {
            entries.push((named.at, number, named.item));
        }
    }
    check_numbers(&entries, findings);
}

fn check_elements<'d>(item: &Item<Target>, context: &Context<'d>, findings: &mut Findings<'_>) {
    for attribute in &item.attributes {
        if let Attribute::Elements(_, elements) = attribute {
            let entries = elements.iter().filter_map(|element| {
                let variable = variable_of(element.variable)?;
                let name = context.instrument.variable(variable)?.name();
                Some((index(element.at), element.number, name))
            });
            check_numbers(&entries.collect::<Vec<_>>(), findings);
        }
    }
}

// The variable that the name of a command has behind its verb.
fn called_after(command: &Item<Target>) -> Option<&str> {
    let (verb, rest) = command.name().split_once('_')?;
    let verbs = match operation_of(command)? {
        Operation::Read => READS,
        Operation::Write => WRITES,
        Operation::Command => return None,
    };
    verbs.contains(&verb).then_some(rest)
}

/// The variables after which commands are called that write.
pub(crate) struct Names {
    written: HashSet<u16>,
}

impl Names {
    pub(crate) fn of(instrument: &Instrument<'_>) -> Names {
        let commands = instrument.items.iter();
        let written = commands
            .filter(|item| item.sort == ItemKind::Command)
            .filter(|item| operation_of(item) == Some(Operation::Write))
            .filter_map(|item| instrument.variable_named(called_after(item)?));
        Names {
            written: written.collect(),
        }
    }

    // A command that replies with what another command is called after, and not with what it sends itself.
    fn check_reply(&self, all: &[Exchange], own: u16, findings: &mut Findings<'_>) {
        for exchange in all {
            let is_other = exchange.sent.contains(own) && !exchange.received.contains(own);
            if let [other] = exchange.received.numbers()
                && is_other
                && self.written.contains(other)
                && !exchange.sent.contains(*other)
            {
                findings.add(exchange.at, CommandKind::OtherReply);
            }
        }
    }

    // A command that carries others than the variable that its name has.
    fn check_command(
        &self,
        command: &Item<Target>,
        all: &[Exchange],
        context: &Context<'_>,
        findings: &mut Findings<'_>,
    ) {
        let Some(name) = called_after(command) else {
            return;
        };
        let Some(variable) = context.instrument.variable_named(name) else {
            return;
        };
        let messages = || all.iter().flat_map(|one| [&one.sent, &one.received]);
        let has_some = messages().any(|message| !message.numbers().is_empty());
        if has_some && !messages().any(|message| message.contains(variable)) {
            let kind = VariableKind::OtherVariable(command.name().to_owned(), name.to_owned());
            findings.add(index(command.at), kind);
        }
        self.check_reply(all, variable, findings);
    }
}

// A command whose verb says the opposite of its OPERATION.
fn check_verb(command: &Item<Target>, findings: &mut Findings<'_>) {
    let verb = command.name().split('_').next().unwrap_or_default();
    let (operation, other) = match operation_of(command) {
        Some(Operation::Read) if verb == "write" => ("READ", "write"),
        Some(Operation::Write) if verb == "read" => ("WRITE", "read"),
        _ => return,
    };
    let at = command.attributes.iter().find_map(|one| match one {
        Attribute::Operation(at, _) => Some(index(*at)),
        _ => None,
    });
    if let Some(at) = at {
        findings.add(at, VariableKind::OppositeOperation(operation, other));
    }
}

/// Checks what the names of a variable and of its enumerators say.
pub(crate) fn check_variable_names(
    variable: &Variable<'_>,
    context: &Context<'_>,
    findings: &mut Findings<'_>,
) {
    let sides = Sides::of(variable.name());
    check_label(variable.item, sides, findings);
    check_ends(variable, sides, context, findings);
    if 1 < variable.enumerators.len() {
        check_enumerators(variable, findings);
    }
}

/// Checks what the name of a command says of what it does and carries.
pub(crate) fn check_command_names(
    command: &Item<Target>,
    exchanges: &[Exchange],
    context: &Context<'_>,
    findings: &mut Findings<'_>,
) {
    check_verb(command, findings);
    context
        .names
        .check_command(command, exchanges, context, findings);
}

/// Checks what the names in a list of items say.
pub(crate) fn check_listed_names<'d>(
    item: &Item<Target>,
    context: &Context<'d>,
    findings: &mut Findings<'d>,
) {
    match item.sort {
        ItemKind::Collection(_) => check_members(item, context, findings),
        ItemKind::Array => check_elements(item, context, findings),
        _ => {}
    }
}

/// The variable of a number, as a target.
pub(crate) fn target_of(variable: u16) -> Target {
    Target::Item(ItemNo::Variable(VarNo(variable)))
}
