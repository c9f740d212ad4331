//! Edits that mend what is wrong.

use crate::Document;
use edd_check::{Levels, check};
use edd_report::{Diagnostic, Kind, Report};
use edd_source::{Confidence, Edit, Fix, Span};
use std::borrow::Cow;

/// Once so many edits are found, no further finding is looked at.
const MOST_TRIED: usize = 8;

/// An edit that mends something.
#[derive(Clone, Debug)]
pub struct QuickFix<'d> {
    /// What it mends.
    pub diagnostic: &'d Diagnostic,
    /// What it does, for a reader.
    pub title: String,
    /// The edit.
    pub fix: Cow<'d, Fix>,
}

impl Document {
    /// The edits that mend what is wrong in a part of the text, or next to it. Each was tried: with it
    /// the text compiles further, or has fewer warnings.
    pub fn quick_fixes(&self, asked: Span) -> Vec<QuickFix<'_>> {
        let mut fixes = Vec::new();
        for found in self.report().shown.iter().filter(|it| is_at(it, asked)) {
            if fixes.len() >= MOST_TRIED {
                break;
            }
            let helps = found.helps.iter().filter_map(|help| {
                Some(QuickFix {
                    diagnostic: found,
                    title: help.advice.to_string(),
                    fix: Cow::Borrowed(help.fix.as_ref()?),
                })
            });
            fixes.extend(helps);
            if let Kind::Warned(warning) = &found.kind {
                fixes.extend(warning.fixes.iter().map(|fix| self.warning_fix(found, fix)));
                fixes.extend(self.allowance(found));
            }
        }
        fixes.retain(|it| self.is_mended_by(&it.fix));
        fixes
    }

    /// All edits together that are surely meant; none where they mend nothing.
    pub fn fix_all(&self) -> Option<Fix> {
        let sure = self.report().shown.iter().filter_map(|found| {
            let mut fixes = found.fixes();
            fixes.find(|fix| fix.confidence == Confidence::Sure)
        });
        let mut edits: Vec<&Edit> = sure.flat_map(|fix| &fix.edits).collect();
        edits.sort_by_key(|edit| edit.span);
        edits.dedup();
        let mut end = 0;
        edits.retain(|edit| {
            let is_apart = end <= edit.span.start;
            end = end.max(edit.span.end);
            is_apart
        });
        let fix = Fix {
            edits: edits.into_iter().cloned().collect(),
            confidence: Confidence::Sure,
        };
        (!fix.edits.is_empty() && self.is_mended_by(&fix)).then_some(fix)
    }

    fn warning_fix<'d>(&'d self, diagnostic: &'d Diagnostic, fix: &'d Fix) -> QuickFix<'d> {
        let titles: Vec<_> = fix.edits.iter().map(|edit| self.edit_title(edit)).collect();
        QuickFix {
            diagnostic,
            title: titles.join(", "),
            fix: Cow::Borrowed(fix),
        }
    }

    fn edit_title(&self, edit: &Edit) -> String {
        let old = edit.span.text(self.text()).unwrap_or_default().trim();
        let new = edit.text.trim();
        match (old.is_empty(), new.is_empty()) {
            (true, _) => format!("insert {new}"),
            (false, true) => format!("remove {old}"),
            (false, false) => format!("replace {old} by {new}"),
        }
    }

    /// A comment at the end of the line that allows a warning there.
    fn allowance<'d>(&self, diagnostic: &'d Diagnostic) -> Option<QuickFix<'d>> {
        let name = diagnostic.lint()?;
        let start = diagnostic.span?.start;
        let behind = self.text().get(start..)?;
        let length = behind.find(['\r', '\n']).unwrap_or(behind.len());
        let end = Span::before(start.saturating_add(length));
        let comment = format!(" // edd: allow {name}");
        Some(QuickFix {
            diagnostic,
            title: format!("allow {name} here"),
            fix: Cow::Owned(Fix::replace(end, comment, Confidence::Guess)),
        })
    }

    /// Whether the text compiles further with a change, or has fewer warnings.
    fn is_mended_by(&self, fix: &Fix) -> bool {
        let changed = fix.apply(self.bytes());
        changed.is_some_and(|text| is_better(self.report(), &check(&text, &Levels::default())))
    }
}

/// Whether a diagnostic has its place in the bytes that are asked about, or next to them.
fn is_at(found: &Diagnostic, asked: Span) -> bool {
    let is_near = |place: Span| place.start <= asked.end && asked.start <= place.end;
    found.span.is_some_and(is_near)
}

fn count(report: &Report) -> usize {
    report.shown.len().saturating_add(report.more)
}

fn first_place(report: &Report) -> usize {
    let first = report.shown.first();
    first.map_or(usize::MAX, |found| found.span.map_or(0, |it| it.start))
}

/// Whether a text is better than another one was: it compiles further, or has fewer warnings.
fn is_better(before: &Report, after: &Report) -> bool {
    let is_shorter = count(after) < count(before);
    if !before.is_refused {
        return !after.is_refused && is_shorter;
    }
    let is_later = first_place(before) < first_place(after);
    !after.is_refused || is_shorter || is_later
}
