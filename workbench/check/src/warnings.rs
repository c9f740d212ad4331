//! The lints: what is almost certainly a mistake in a text that is accepted.
//!
//! This is the one module that knows who finds the warnings.

use edd_helps::{Advice, Help};
use edd_lexer::token::Token;
use edd_lints::{Levels, Related, Role};
use edd_report::{Diagnostic, Kind, Report, Warning};
use edd_syntax::checked::Checked;

/// What the lints find in a text with these tokens and this description.
pub(crate) fn find(text: &[u8], tokens: &[Token], checked: &Checked, levels: &Levels) -> Report {
    let mut report = Report::default();
    for warning in edd_lints::find(text, tokens, checked, levels) {
        report.is_denied |= warning.is_denied;
        if report.room() == 0 {
            report.pass(1);
        } else {
            report.show(diagnostic(warning));
        }
    }
    report
}

fn diagnostic(warning: edd_lints::Warning) -> Diagnostic {
    let places = warning
        .related
        .into_iter()
        .map(|Related { span, role }| Help {
            span: Some(span),
            advice: match role {
                Role::Other => Advice::OtherPlace,
            },
            fix: None,
        });
    Diagnostic {
        span: Some(warning.span),
        helps: places.collect(),
        kind: Kind::Warned(Warning {
            kind: warning.kind,
            is_denied: warning.is_denied,
            fixes: warning.fixes,
        }),
    }
}
