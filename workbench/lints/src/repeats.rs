//! Numbers that are there twice.

use crate::kind::{CommandKind, ConditionKind, Kind, VariableKind};
use crate::source::TokenIndex;
use crate::warning::Findings;
use std::collections::HashMap;

/// What has a number.
#[derive(Clone, Copy)]
pub(crate) enum Numbered {
    Enumerator,
    ResponseCode,
    Transaction,
    Case,
}

impl Numbered {
    fn repeated(self, number: i64) -> Kind {
        match self {
            Numbered::Enumerator => VariableKind::RepeatedEnumerator(number).into(),
            Numbered::ResponseCode => CommandKind::RepeatedResponseCode(number).into(),
            Numbered::Transaction => CommandKind::RepeatedTransaction(number).into(),
            Numbered::Case => ConditionKind::RepeatedCase(number).into(),
        }
    }
}

/// The numbers of a list so far, with the place of each.
pub(crate) struct Numbers {
    what: Numbered,
    places: HashMap<i64, TokenIndex>,
}

impl Numbers {
    pub(crate) fn new(what: Numbered) -> Numbers {
        Numbers {
            what,
            places: HashMap::new(),
        }
    }

    /// Adds a number, with a warning where the list has it already.
    pub(crate) fn add(&mut self, number: i64, at: TokenIndex, findings: &mut Findings<'_>) {
        match self.places.get(&number) {
            Some(earlier) => findings.add_beside(at, self.what.repeated(number), *earlier),
            None => {
                self.places.insert(number, at);
            }
        }
    }
}
