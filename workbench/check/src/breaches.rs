//! All rules that a description breaks, but for those that say once more what is said already.

use crate::core::{judge, refused, tokens_of, unit_of};
use crate::refusals::{beyond_limit, number_of};
use crate::sound::Sound;
use edd_breaches::RuleFault;
use edd_compiler::Fault;
use edd_findings::{Found, Verdict};
use edd_helps::{Advice, Description, Finding, NameHelp, OtherKinds, Unnamed, explain_breach};
use edd_lexer::line_of;
use edd_lexer::token::Token;
use edd_report::{Diagnostic, Refusal, Report};
use edd_source::Span;
use edd_syntax::limits::Limit;
use std::collections::HashMap;

/// What is said of a text that breaks these rules, of which `fault` is the compiler's.
pub(crate) fn explain_breaches(
    text: &[u8],
    tokens: &[Token],
    fault: &RuleFault,
    breaches: &[Found],
    refusal: Refusal,
) -> Report {
    let mut report = Report::default();
    if breaches.is_empty() || is_untold(fault) {
        report.show(beyond_limit(refusal));
    }
    let Some(unit) = unit_of(text, tokens) else {
        return report;
    };
    let description = Description::of(text, tokens, &unit);
    show_breaches(text, &description, breaches.iter(), &mut report);
    report
}

/// Adds the rules that are broken in what is left of a text whose broken parts are taken for blanks, as
/// far as they do not follow from these. Where whole items are lost, nothing is known of names.
pub(crate) fn explain_rest(text: &[u8], broken: &[Span], has_lost: bool, report: &mut Report) {
    let rest = blanked(text, broken);
    let Verdict::Refused(verdict) = judge(&rest) else {
        return;
    };
    let (fault, _, breaches) = verdict.into_parts();
    if !matches!(fault, Fault::Rule(_)) {
        return;
    }
    let tokens = tokens_of(&rest);
    let Some(unit) = unit_of(&rest, &tokens) else {
        return;
    };
    let description = Description::of(&rest, &tokens, &unit);
    let sound = Sound::of(text, &tokens, broken, has_lost);
    let known = breaches
        .iter()
        .filter(|found| sound.may_tell(&description, found));
    show_breaches(&rest, &description, known, report);
}

// Shows breaches, but for those that say once more what is said already.
fn show_breaches<'f>(
    text: &[u8],
    description: &Description<'_>,
    breaches: impl Iterator<Item = &'f Found> + Clone,
    report: &mut Report,
) {
    let mut told = Told::of(description, breaches.clone());
    for found in breaches {
        if told.has(description, found) {
            continue;
        }
        if report.room() == 0 {
            report.pass(1);
            continue;
        }
        let mut finding = explain_breach(description, found);
        told.add(description, found, &mut finding);
        let at = found.rule.place();
        let line = at.map(|at| line_of(text, description.tokens(), at));
        let refusal = Refusal::of_rule(&found.rule, line);
        let refusal = refusal.unwrap_or_else(|| refused::<Refusal>());
        report.show(Diagnostic::refused(refusal, finding));
    }
}

// A text in which some bytes are taken for blanks.
fn blanked(text: &[u8], broken: &[Span]) -> Vec<u8> {
    let mut rest = text.to_vec();
    for span in broken {
        let bytes = rest.get_mut(span.range()).unwrap_or_default();
        for byte in bytes.iter_mut().filter(|byte| **byte != b'\n') {
            *byte = b' ';
        }
    }
    rest
}

// Whether a fault is none of the breaches that are listed.
fn is_untold(fault: &RuleFault) -> bool {
    matches!(
        fault,
        RuleFault::TooMany(Limit::Nodes) | RuleFault::TooMany(Limit::Strings)
    )
}

/// What was told and is not told again.
struct Told<'f> {
    /// The names that mean nothing, with the item around each; none where one change mends all uses.
    names: HashMap<&'f str, Option<usize>>,
    kinds: OtherKinds,
    /// The name that an item has to have in place of that of another one.
    unnamed: Option<Unnamed<'f>>,
    /// What the change that was proposed last replaces: what stands in it is the same mistake.
    changed: Span,
    /// Whether these are several words that stand for one.
    is_joined: bool,
}

impl<'f> Told<'f> {
    // Nothing of these breaches.
    fn of(
        description: &Description<'_>,
        breaches: impl Iterator<Item = &'f Found> + Clone,
    ) -> Told<'f> {
        Told {
            names: HashMap::new(),
            kinds: OtherKinds::of(description, breaches.clone()),
            unnamed: Unnamed::of(description, breaches),
            changed: Span::before(0),
            is_joined: false,
        }
    }

    // Whether a breach is said already.
    fn has(&self, description: &Description<'_>, found: &Found) -> bool {
        if matches!(found.rule, RuleFault::Mismatch { .. }) {
            return self.is_of_changed(description, found);
        }
        let RuleFault::UnknownName(name) = &found.rule else {
            return self.kinds.has_told(description, found);
        };
        let is_unnamed = self.unnamed.is_some_and(|it| it.is_told_by(found));
        if is_unnamed || self.is_changed(found) {
            return true;
        }
        self.names
            .get(name.as_str())
            .is_some_and(|item| item.is_none() || *item == item_of(description, found))
    }

    // Whether the change that was proposed last has the place of a breach.
    fn is_changed(&self, found: &Found) -> bool {
        found
            .place
            .is_some_and(|place| self.changed.start <= place.start && place.end <= self.changed.end)
    }

    // Whether a call has other arguments since several words in them stand for one name.
    fn is_of_changed(&self, description: &Description<'_>, found: &Found) -> bool {
        let call = found.at.filter(|_| self.is_joined);
        let arguments = call.and_then(|at| description.arguments(number_of(at)));
        arguments
            .is_some_and(|span| span.start <= self.changed.start && self.changed.end <= span.end)
    }

    // Notes what is said of a breach, or has it be said for others too.
    fn add(&mut self, description: &Description<'_>, found: &'f Found, finding: &mut Finding) {
        if let RuleFault::UnknownName(name) = &found.rule {
            let item = item_of(description, found).filter(|_| !has_near(finding));
            self.names.insert(name.as_str(), item);
        }
        self.kinds.tell(description, found, finding);
        if let Some(unnamed) = self.unnamed {
            unnamed.tell(description, found, finding);
        }
        let fixes = finding.helps.iter().filter_map(|help| help.fix.as_ref());
        if let Some(edit) = fixes.flat_map(|fix| &fix.edits).next() {
            self.changed = edit.span;
            self.is_joined = found.place.is_some_and(|place| place.end < edit.span.end);
        }
    }
}

// The number of the item around a breach.
fn item_of(description: &Description<'_>, found: &Found) -> Option<usize> {
    Some(description.around(number_of(found.at?))?.0)
}

// Whether a near name is told, as where it is misspelled at its declaration.
fn has_near(finding: &Finding) -> bool {
    finding.helps.iter().any(|help| {
        matches!(
            help.advice,
            Advice::Name(NameHelp::Meant { .. } | NameHelp::EitherMeant { .. })
        )
    })
}
