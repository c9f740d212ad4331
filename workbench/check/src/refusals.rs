//! All that is said of a text that is refused. The compiler's refusal comes first.

use crate::breaches::{explain_breaches, explain_rest};
use crate::core::{refused, tokens_of};
use edd_compiler::Fault;
use edd_findings::Found;
use edd_helps::{Finding, Later, RuleHelp, TextFault, explain as explain_fault, recover};
use edd_lexer::line_of;
use edd_lexer::token::Token;
use edd_report::{Diagnostic, Refusal, Report};
use edd_source::Span;
use edd_syntax::numbers::TokenNo;

/// What an image begins with, and no source does.
const MAGIC: &[u8] = b"EDI1";

/// What is said of a text that is refused for a fault, and breaks these rules.
pub(crate) fn explain(text: &[u8], fault: Fault, breaches: &[Found]) -> Report {
    let tokens = match fault {
        Fault::Lex(_) => Vec::new(),
        _ => tokens_of(text),
    };
    let place = match &fault {
        Fault::Parse(fault) => fault.place(),
        Fault::Rule(fault) => fault.place(),
        _ => None,
    };
    let line = place.map(|at| line_of(text, &tokens, at));
    let refusal = Refusal::of_fault(&fault, line).unwrap_or_else(|| refused::<Refusal>());
    match fault {
        Fault::Lex(fault) => explain_text(text, &tokens, &TextFault::Lex(fault), refusal),
        Fault::Parse(fault) => explain_text(text, &tokens, &TextFault::Parse(fault), refusal),
        Fault::Rule(fault) => explain_breaches(text, &tokens, &fault, breaches, refusal),
        Fault::TooManyStrings | Fault::Memory => {
            let mut report = Report::default();
            report.show(beyond_limit(refusal));
            report
        }
    }
}

/// A refusal that belongs to no token.
pub(crate) fn beyond_limit(refusal: Refusal) -> Diagnostic {
    let mut finding = Finding::default();
    finding.say(RuleHelp::SeeLimits);
    Diagnostic::refused(refusal, finding)
}

// What is said of a text that has no tokens, or whose tokens spell no unit.
fn explain_text(text: &[u8], tokens: &[Token], fault: &TextFault, refusal: Refusal) -> Report {
    let mut report = Report::default();
    let explained = explain_fault(text, tokens, fault);
    if text.starts_with(MAGIC) {
        report.show(image_for_source(refusal, explained.finding.span));
        return report;
    }
    report.show(Diagnostic::refused(refusal, explained.finding.clone()));
    if let Some(from) = explained.resumes_at {
        let found = recover(text, (fault, &explained.finding), from, report.room());
        report.pass(found.more);
        let (broken, has_lost) = (found.broken, found.has_lost);
        for later in found.later {
            report.show(later_diagnostic(later));
        }
        explain_rest(text, &broken, has_lost, &mut report);
    }
    report
}

// What is said of an image: what is to be done with it, in place of what helps in a source.
fn image_for_source(refusal: Refusal, span: Option<Span>) -> Diagnostic {
    let mut finding = Finding::at(span);
    finding.say(RuleHelp::ImageForSource);
    Diagnostic::refused(refusal, finding)
}

// The fault of a later item.
fn later_diagnostic(later: Later) -> Diagnostic {
    let refusal = match &later.fault {
        TextFault::Lex(fault) => Refusal::of_text(fault, later.line),
        TextFault::Parse(fault) => Refusal::of_grammar(fault, later.line),
    };
    let refusal = refusal.unwrap_or_else(|| refused::<Refusal>());
    Diagnostic::refused(refusal, later.finding)
}

/// The number of a token.
pub(crate) fn number_of(at: TokenNo) -> usize {
    usize::try_from(at.0).unwrap_or(usize::MAX)
}
