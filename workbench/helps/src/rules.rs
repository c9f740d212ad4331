//! What is said of a description that breaks rules.

mod arguments;
mod description;
mod duplicates;
mod enumerators;
mod foreign;
mod members;
mod name_help;
mod names;
mod other_types;
mod sentences;

pub use description::Description;
pub use duplicates::Unnamed;
pub use foreign::Foreign;
pub use members::OtherKinds;
pub use name_help::NameHelp;
pub use other_types::OtherType;
pub use sentences::RuleHelp;

use crate::{Advice, Finding};
use edd_breaches::RuleFault;
use edd_findings::Found;
use edd_source::{Confidence, Span};
use edd_syntax::limits::Limit;
use edd_syntax::operators::{Builtin, RequestKind};
use edd_syntax::symbols::Keyword;

/// What is said of a rule that is broken.
pub fn explain_breach(description: &Description<'_>, found: &Found) -> Finding {
    let mut finding = Finding::at(found.place.map(|place| Span {
        start: place.start,
        end: place.end,
    }));
    let at = found
        .at
        .map(|at| usize::try_from(at.0).unwrap_or(usize::MAX));
    say_own(description, &found.rule, at, &mut finding);
    let earlier = found
        .earlier
        .map(|at| usize::try_from(at.0).unwrap_or(usize::MAX));
    match earlier {
        Some(earlier) => say_beside(description, &found.rule, earlier, &mut finding),
        None => {
            if let (RuleFault::WrongKind(name), Some(at)) = (&found.rule, at) {
                names::say_kind(description, name, at, &mut finding);
            }
        }
    }
    finding
}

// Says what depends on what is there.
fn say_own(
    description: &Description<'_>,
    rule: &RuleFault,
    at: Option<usize>,
    finding: &mut Finding,
) {
    let word = at.map_or("", |at| description.word(at));
    match rule {
        RuleFault::MissingAttribute { word, .. } => {
            if let Some(item) = at.and_then(|at| description.item_at(at)) {
                let kind = item.kind();
                finding.say(RuleHelp::Needs { kind, word });
            }
        }
        RuleFault::OtherType { word, .. } => say_type(description, word, finding),
        RuleFault::Mismatch { .. } => {
            finding.say(help_of_mismatch(word));
            if let Some(at) = at {
                say_hidden(description, at, finding);
            }
        }
        RuleFault::BreakOutside { .. } => finding.say(if word == Keyword::Continue.spelling() {
            RuleHelp::ContinueOutside
        } else {
            RuleHelp::BreakOutside
        }),
        RuleFault::UnknownName(name) => {
            if let Some(at) = at {
                names::say_unknown(description, name, at, finding);
            }
        }
        RuleFault::TooMany(limit) => finding.say(RuleHelp::Limit(*limit)),
        RuleFault::FloatVariable(_) => finding.say(RuleHelp::FloatVariable),
        RuleFault::BadSize(_) => finding.say(RuleHelp::Size),
        RuleFault::FloatValue { .. } => finding.say(help_of_float(description, at)),
        RuleFault::ConstRange { .. } => finding.say(RuleHelp::Constant),
        _ => {}
    }
}

// What is said of a number that is not whole.
fn help_of_float(description: &Description<'_>, at: Option<usize>) -> RuleHelp {
    let function = at.and_then(|at| arguments::called_around(description, at));
    match function {
        Some(Builtin::Ask(RequestKind::Delay)) => RuleHelp::WholeSeconds,
        _ => RuleHelp::FloatValue,
    }
}

// Says of an argument that is to be a variable of the device, and is a local with its name, where that
// is declared.
fn say_hidden(description: &Description<'_>, at: usize, finding: &mut Finding) {
    let Some((number, name)) = arguments::local_for_variable(description, at) else {
        return;
    };
    let name = name.to_owned();
    finding.say_at(description.span(number), NameHelp::HidesVariable { name });
}

// Says which type may be meant by a word, or by it and the one after it.
fn say_type(description: &Description<'_>, word: &str, finding: &mut Finding) {
    let place = finding.span.and_then(|span| description.number_at(span));
    let split = place.and_then(|at| description.split_around(at, OtherType::is_type));
    if let Some(split) = split
        && let Some(meant) = OtherType::spelled(&split.joined)
    {
        finding.span = Some(split.span);
        let fix = finding.replacement(meant, Confidence::Guess);
        return finding.propose(RuleHelp::Type(OtherType::Meant(meant)), fix);
    }
    let help = OtherType::of(word);
    let fix = match help {
        OtherType::Meant(meant) => finding.replacement(meant, Confidence::Guess),
        _ => None,
    };
    finding.propose(RuleHelp::Type(help), fix);
}

// What helps at a function with other arguments, at the brace of an enumerator, or at an option.
fn help_of_mismatch(word: &str) -> RuleHelp {
    match Builtin::named(word) {
        Some(function @ (Builtin::Abort | Builtin::ProcessAbort)) => {
            RuleHelp::StandsAlone { function }
        }
        Some(Builtin::Ask(RequestKind::SelectFromList)) => RuleHelp::ChoicesInOneText,
        Some(function) => RuleHelp::Takes { function },
        None if word == "{" => RuleHelp::NoEnumerators,
        None => RuleHelp::NoOption {
            word: word.to_owned(),
        },
    }
}

// Says what speaks of the earlier one of two.
fn say_beside(
    description: &Description<'_>,
    rule: &RuleFault,
    earlier: usize,
    finding: &mut Finding,
) {
    let name = description.word(earlier).to_owned();
    let advice: Advice = match rule {
        RuleFault::DuplicateCase { .. } => RuleHelp::CaseIsThere.into(),
        RuleFault::DuplicateElement { .. } => RuleHelp::NumberIsThere.into(),
        RuleFault::WrongKind(name) => NameHelp::IsLocal {
            name: name.as_str().to_owned(),
        }
        .into(),
        RuleFault::TooMany(limit) => {
            let kind = description.item_at(earlier).map(|item| item.kind());
            match limit {
                Limit::Items => RuleHelp::FirstTooMany { kind, name }.into(),
                _ => RuleHelp::HasMore { kind, name }.into(),
            }
        }
        _ => RuleHelp::IsThere { name }.into(),
    };
    finding.say_at(description.span(earlier), advice);
}
