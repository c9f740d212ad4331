//! Commands that read or write nothing, transactions that can't be told apart, response codes, and
//! variables that no command carries.

use crate::commands::code_places;
use crate::context::Context;
use crate::instrument::Variable;
use crate::kind::{CommandKind, TextKind, VariableKind};
use crate::lists::values_of;
use crate::source::{TokenIndex, index};
use crate::texts::variants::Variants;
use crate::traits::{classes_of, is_spare, quoted};
use crate::usage::{Usage, carried, operation_of};
use crate::warning::Findings;
use crate::words::Phrases;
use edd_syntax::cond::Cond;
use edd_syntax::item::{Attribute, DataItem, Item, ResponseCode, TransactionPart};
use edd_syntax::reference::Target;
use edd_syntax::types::{Handling, Operation, ResponseClass};
use std::collections::HashMap;
use std::sync::LazyLock;

/// The greatest number of a command that two octets hold.
const MOST: u32 = 65_535;

/// The lists of a transaction.
struct Transaction<'t> {
    at: TokenIndex,
    number: Option<u32>,
    /// Whether a condition is around something that it sends.
    is_conditional: bool,
    request: Vec<&'t DataItem<Target>>,
    reply: Vec<&'t DataItem<Target>>,
}

fn transactions_of(command: &Item<Target>) -> Vec<Transaction<'_>> {
    let attributes = command.attributes.iter();
    let all = attributes.filter_map(|attribute| match attribute {
        Attribute::Transaction { at, number, parts } => {
            let mut transaction = Transaction {
                at: index(*at),
                number: *number,
                is_conditional: false,
                request: Vec::new(),
                reply: Vec::new(),
            };
            for part in parts {
                if let TransactionPart::Request(_, items) = part {
                    transaction.is_conditional |=
                        items.iter().any(|item| !matches!(item, Cond::Value(_)));
                }
                let (list, items) = match part {
                    TransactionPart::Request(_, items) => (&mut transaction.request, items),
                    TransactionPart::Reply(_, items) => (&mut transaction.reply, items),
                };
                list.extend(values_of(items).iter().map(|listed| listed.value));
            }
            Some(transaction)
        }
        _ => None,
    });
    all.collect()
}

fn has_variable(items: &[&DataItem<Target>]) -> bool {
    items.iter().any(|item| carried(item).is_some())
}

// A transaction without a number counts as 0.
fn check_numbers(transactions: &[Transaction<'_>], findings: &mut Findings<'_>) {
    let mut seen = HashMap::new();
    for transaction in transactions {
        let number = transaction.number.unwrap_or(0);
        let earlier = seen.insert(number, transaction);
        if let Some(earlier) =
            earlier.filter(|one| one.number.is_none() || transaction.number.is_none())
        {
            findings.add_beside(
                transaction.at,
                CommandKind::AmbiguousTransaction,
                earlier.at,
            );
        }
    }
}

// What a transaction sends, where that is under no condition and has a constant, as transactions have
// that are told apart by what they send.
fn sent(transaction: &Transaction<'_>) -> Option<Vec<Sent>> {
    let is_constant = |item: &&DataItem<Target>| matches!(item, DataItem::Constant { .. });
    let counts = !transaction.is_conditional && transaction.request.iter().any(is_constant);
    let all = transaction.request.iter().map(|item| match item {
        DataItem::Constant { value, .. } => Some(Sent::Constant(i64::from(*value))),
        DataItem::Variable { mask, .. } => Some(Sent::Variable(carried(item)?, *mask)),
    });
    counts.then(|| all.collect()).flatten()
}

/// What a message has at a place: a constant, or a variable with its mask.
#[derive(PartialEq, Eq, Hash)]
enum Sent {
    Constant(i64),
    Variable(u16, Option<u32>),
}

// Transactions that send the same.
fn check_requests(transactions: &[Transaction<'_>], findings: &mut Findings<'_>) {
    let mut seen = HashMap::new();
    for transaction in transactions {
        let Some(sent) = sent(transaction) else {
            continue;
        };
        if let Some(earlier) = seen.insert(sent, transaction.at) {
            findings.add_beside(transaction.at, CommandKind::EqualRequests, earlier);
        }
    }
}

// A reply of a READ of which nothing is kept, and variables in it that nobody may read.
fn check_kept(transaction: &Transaction<'_>, context: &Context<'_>, findings: &mut Findings<'_>) {
    let mut is_info = has_variable(&transaction.reply);
    for item in &transaction.reply {
        let DataItem::Variable { at, qualifiers, .. } = item else {
            continue;
        };
        is_info &= qualifiers.info && !qualifiers.index;
        let variable = carried(item).and_then(|number| context.instrument.variable(number));
        if let Some(variable) = variable.filter(|one| one.is_write_only && !qualifiers.info) {
            let name = variable.name().to_owned();
            findings.add(index(*at), CommandKind::ReadsUnreadable(name));
        }
    }
    if is_info {
        findings.add(transaction.at, CommandKind::KeepsNothing);
    }
}

// Variables that a WRITE command sets, and that nothing else lets a technician or a method set.
fn check_written(
    transaction: &Transaction<'_>,
    context: &Context<'_>,
    findings: &mut Findings<'_>,
) {
    for item in &transaction.request {
        let DataItem::Variable {
            at,
            mask: None,
            qualifiers,
            ..
        } = item
        else {
            continue;
        };
        let is_plain = !qualifiers.info && !qualifiers.index;
        let number =
            carried(item).filter(|number| is_plain && !context.usage.set.contains(*number));
        let variable = number.and_then(|number| context.instrument.variable(number));
        if let Some(variable) = variable.filter(|variable| variable.is_read_only) {
            let name = variable.name().to_owned();
            findings.add(index(*at), CommandKind::WrittenReadOnly(name));
        }
    }
}

/// What the text of a code says where something went wrong, and where nothing did.
const ERRORS: [&str; 16] = [
    "error",
    "failed",
    "failure",
    "refused",
    "rejected",
    "too large",
    "too small",
    "too high",
    "too low",
    "locked",
    "busy",
    "invalid",
    "not allowed",
    "denied",
    "overflow",
    "protected",
];
const SUCCESSES: [&str; 5] = ["ok", "success", "done", "accepted", "no error"];

static FAILED: LazyLock<Phrases> = LazyLock::new(|| Phrases::of(&ERRORS));

// A class that says the opposite of what its text says.
fn opposite_class(code: &ResponseCode) -> Option<CommandKind> {
    let text = quoted(&code.text)?;
    let first = Variants::of(text.as_bytes()).next()?;
    let words = str::from_utf8(first.words).ok()?.trim();
    match code.class {
        ResponseClass::Success => {
            let error = FAILED.find(words)?;
            let words = words.to_lowercase();
            let denials = ["no ", "not ", "without", "un"];
            let is_denied = denials.iter().any(|word| words.contains(word));
            let is_told = error.contains("not ") || !is_denied;
            is_told.then_some(CommandKind::OppositeClass(error))
        }
        ResponseClass::DataEntryError
        | ResponseClass::ModeError
        | ResponseClass::ProcessError
        | ResponseClass::MiscError
            if code.number != 0 =>
        {
            let mut successes = SUCCESSES.iter().copied();
            let success = successes.find(|word| words.eq_ignore_ascii_case(word));
            success.map(CommandKind::SuccessfulError)
        }
        _ => None,
    }
}

/// The text of a response code, and how many come before it.
type Said<'t> = (&'t str, usize);

// Checks the codes that are there with the class and the text of an earlier one.
fn check_repeated_texts(
    codes: &[ResponseCode],
    places: &[TokenIndex],
    findings: &mut Findings<'_>,
) {
    let texts = codes.iter().map(|code| quoted(&code.text));
    let said = texts
        .zip(0..)
        .filter_map(|(text, place)| Some((text?, place)));
    let mut said: Vec<Said<'_>> = said.filter(|(text, _)| !text.is_empty()).collect();
    said.sort_unstable();
    let same = said.chunk_by(|(one, _), (other, _)| one == other);
    for group in same.filter(|group| 1 < group.len()) {
        if group.first().is_some_and(|(text, _)| is_spare(text)) {
            continue;
        }
        let mut known: Vec<&ResponseCode> = Vec::new();
        for (_, place) in group {
            let Some((code, at)) = codes.get(*place).zip(places.get(*place)) else {
                continue;
            };
            match known.iter().find(|one| one.class == code.class) {
                Some(one) if one.number != code.number => {
                    findings.add(*at, CommandKind::RepeatedCodeText(one.number));
                }
                Some(_) => {}
                None => known.push(code),
            }
        }
    }
}

fn check_codes(
    at: TokenIndex,
    codes: &[ResponseCode],
    context: &Context<'_>,
    findings: &mut Findings<'_>,
) {
    if codes.is_empty() {
        findings.add(at, CommandKind::NoResponseCodes);
    }
    let places = code_places(at, codes, context);
    check_repeated_texts(codes, &places, findings);
    let mut before = None;
    for (code, at) in codes.iter().zip(places) {
        if let Some(kind) = opposite_class(code) {
            findings.add(at, kind);
        }
        if code.number == 0 && code.class != ResponseClass::Success {
            findings.add(at, CommandKind::FailingZero);
        }
        if quoted(&code.text).is_some_and(str::is_empty) {
            findings.add(at, TextKind::EmptyText);
        }
        if before.is_some_and(|before| code.number < before) {
            findings.add(at, CommandKind::UnorderedResponseCode(code.number));
        }
        before = Some(code.number);
    }
}

/// Checks what a command reads and writes.
pub(crate) fn check_traffic(
    command: &Item<Target>,
    context: &Context<'_>,
    findings: &mut Findings<'_>,
) {
    let transactions = transactions_of(command);
    check_numbers(&transactions, findings);
    check_requests(&transactions, findings);
    match operation_of(command) {
        Some(Operation::Read) => {
            let silent =
                |one: &&Transaction<'_>| has_variable(&one.request) && one.reply.is_empty();
            for transaction in transactions.iter().filter(silent) {
                findings.add(transaction.at, CommandKind::ReadsNothing);
            }
            for transaction in &transactions {
                check_kept(transaction, context, findings);
            }
        }
        Some(Operation::Write) => {
            let sends = transactions.iter().any(|one| !one.request.is_empty());
            let receives = transactions.iter().any(|one| has_variable(&one.reply));
            if !sends && receives {
                findings.add(index(command.at), CommandKind::WritesNothing);
            }
            for transaction in &transactions {
                check_written(transaction, context, findings);
            }
        }
        _ => {}
    }
    for attribute in &command.attributes {
        let at = index(attribute.at());
        match attribute {
            Attribute::ResponseCodes(_, codes) => check_codes(at, codes, context, findings),
            Attribute::Number(_, number) if MOST < *number => {
                findings.add(at, CommandKind::WideNumber(*number));
            }
            _ => {}
        }
    }
}

fn may_be_written(variable: &Variable<'_>) -> bool {
    variable.item.attributes.iter().all(|attribute| {
        !matches!(attribute, Attribute::Handling(_, handling)
            if !matches!(handling, Cond::Value(Handling::Write | Handling::ReadWrite)))
    })
}

// Whether a variable that is read from the device is said to be one that can be written, and nothing sends it.
// What an expression reads may be entered for that alone.
fn is_unsent(number: u16, variable: &Variable<'_>, usage: &Usage) -> bool {
    let is_written = variable.item.attributes.iter().any(|attribute| {
        matches!(
            attribute,
            Attribute::Handling(_, Cond::Value(Handling::Write | Handling::ReadWrite))
        )
    });
    is_written
        && usage.has_write_command
        && usage.read.contains(number)
        && !usage.requested.contains(number)
        && !usage.mentioned.contains(number)
}

/// Checks which variables no command carries, though they are such as commands carry.
pub(crate) fn check_carried(context: &Context<'_>, findings: &mut Findings<'_>) {
    let usage = &context.usage;
    for (number, variable) in (0u16..).zip(context.instrument.variables()) {
        let classes = classes_of(variable);
        let at = index(variable.item.at);
        let name = || variable.name().to_owned();
        if classes.contains("CONSTANT") && usage.set.contains(number) {
            findings.add(at, VariableKind::SetConstant(name()));
        }
        if usage.set.contains(number) || classes.contains("LOCAL") {
            continue;
        }
        let is_dynamic = classes.contains("DYNAMIC");
        let is_carried = usage.requested.contains(number) || usage.replied.contains(number);
        let is_used = usage.shown.contains(number) || usage.mentioned.contains(number);
        let is_read = usage.received.contains(number) || !usage.has_read_command;
        if is_dynamic && !is_read && is_used {
            findings.add(at, VariableKind::UnreadDynamic(name()));
        } else if is_unsent(number, variable, usage) && !is_dynamic && !classes.contains("CONSTANT")
        {
            findings.add(at, VariableKind::Unsent(name()));
        } else if !is_carried
            && usage.has_write_command
            && usage.offered.contains(number)
            && !usage.mentioned.contains(number)
            && may_be_written(variable)
        {
            findings.add(at, VariableKind::Ineffective(name()));
        }
    }
}
