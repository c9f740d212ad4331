//! What an editor shows beside numbers: the texts of enumerators and the names of commands.

use crate::Document;
use crate::signature::call_before;
use crate::walk::Item;
use edd_source::Span;
use edd_syntax::operators::{Builtin, RequestKind};
use std::collections::HashMap;

/// What is shown behind a number.
#[derive(Clone, Debug, PartialEq, Eq)]
pub struct InlayHint {
    /// The byte behind the number.
    pub place: usize,
    /// The text of the enumerator, or the name of the command.
    pub label: String,
}

impl Document {
    /// What is shown behind the numbers in a part of the text.
    ///
    /// ```
    /// use edd_ide::{Document, Span};
    ///
    /// let text = "COMMAND reset { NUMBER 42; } METHOD m { DEFINITION { send_command(42); } }";
    /// let hints = Document::new(text).inlay_hints(Span { start: 0, end: text.len() });
    /// assert_eq!((hints.len(), hints[0].place, hints[0].label.as_str()), (1, 68, "reset"));
    /// ```
    pub fn inlay_hints(&self, asked: Span) -> Vec<InlayHint> {
        let first = self.token_from(asked.start);
        let tokens = (first..self.tokens().len())
            .take_while(|token| self.span(*token).is_some_and(|it| it.start < asked.end));
        let commands = self.commands_by_number();
        tokens
            .filter_map(|token| self.inlay_hint(token, &commands))
            .collect()
    }

    fn inlay_hint(&self, token: usize, commands: &HashMap<u32, &Item>) -> Option<InlayHint> {
        let number = self.integer(token)?;
        let label = match self.compared_with(token) {
            Some(variable) => self.enumerator_text(variable, number)?,
            None => {
                let command = commands.get(&number)?;
                let is_named = self.is_command_argument(token);
                is_named.then(|| self.word(command.name).to_owned())?
            }
        };
        Some(InlayHint {
            place: self.span(token)?.end,
            label,
        })
    }

    /// The text of a value of an enumerated variable.
    fn enumerator_text(&self, variable: &Item, number: u32) -> Option<String> {
        let mut values = self.enumerators(variable);
        let found = values.find(|value| self.integer(value.token) == Some(number))?;
        Some(found.name)
    }

    /// Whether a token begins the argument of a call that is the number of a command.
    fn is_command_argument(&self, token: usize) -> bool {
        let open = token.saturating_sub(1);
        let call = call_before(self, token).filter(|call| call.open == open);
        call.is_some_and(|call| names_command(call.function))
    }
}

/// Whether the first argument of a function is the number of a command.
pub(crate) fn names_command(function: Builtin) -> bool {
    matches!(
        function,
        Builtin::Ask(RequestKind::SendCommand | RequestKind::SendCommandTrans)
    )
}
