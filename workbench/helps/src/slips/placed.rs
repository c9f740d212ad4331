//! A slip at its place, and the fix that it says.

use super::Slip;
use edd_source::{Confidence, Fix, Span};

/// What is wrong, and where that is.
#[derive(Clone, Copy, Debug)]
pub(crate) struct Placed {
    pub(crate) place: Span,
    pub(crate) slip: Slip,
}

impl Placed {
    /// The change that the slip says, where it says one.
    pub(crate) fn fix(self) -> Option<Fix> {
        let Placed { place, slip } = self;
        let here = Span::before(place.start);
        let (span, text, confidence) = match slip {
            Slip::SemicolonHere => (here, ";", Confidence::Sure),
            Slip::BracketHere => (here, "]", Confidence::Sure),
            Slip::ParenthesisHere => (here, ")", Confidence::Sure),
            Slip::BraceBeforeElse => (here, "} ", Confidence::Guess),
            Slip::CommaForPoint => (place, ",", Confidence::Guess),
            Slip::SemicolonForComma => (place, ";", Confidence::Guess),
            Slip::SemicolonLeftOut => (place, "", Confidence::Sure),
            Slip::WordLeftOut | Slip::ThenLeftOut | Slip::CapitalThenLeftOut => {
                (place, "", Confidence::Guess)
            }
            Slip::DefaultForElse => (place, "default", Confidence::Guess),
            Slip::EnumeratorNotClosed => (here, " }", Confidence::Sure),
            Slip::QualifiersNotClosed => (here, ")", Confidence::Sure),
            Slip::QualifiersSideBySide => (place, "", Confidence::Guess),
            Slip::DefaultMeant => (place, "default", Confidence::Guess),
            Slip::CaseMeant => (place, "case", Confidence::Guess),
            Slip::IntMeant => (place, "int", Confidence::Guess),
            Slip::WordTwice => (place, "", Confidence::Guess),
            Slip::DoLeftOut => (place, "", Confidence::Guess),
            Slip::IfMeant => (place, "if", Confidence::Sure),
            Slip::WhileMeant => (place, "while", Confidence::Sure),
            Slip::ForMeant => (place, "for", Confidence::Sure),
            Slip::SwitchMeant => (place, "switch", Confidence::Sure),
            _ => return None,
        };
        Some(Fix::replace(span, text, confidence))
    }
}
