//! The requests about a document.

mod actions;
mod calling;
mod completing;
mod lenses;
mod outlining;
mod places;
mod renaming;
mod selecting;
mod texts;
mod tokens;

use crate::answers::Answer;
use crate::messages::{ErrorCode, ResponseError};
use crate::params::Params;
use crate::view::View;
use edd_ide::{Document, Project};
use edd_source::Span;
pub(crate) use outlining::workspace_symbols;
pub(crate) use tokens::TOKEN_TYPES;

/// What becomes of a request.
type Outcome = Result<Answer, ResponseError>;

/// A request about a document that is open.
#[derive(Debug)]
pub(crate) struct Query<'a> {
    pub(crate) params: Params,
    pub(crate) view: View<'a>,
}

impl<'a> Query<'a> {
    fn document(&self) -> &'a Document {
        &self.view.open.document
    }

    /// The files that belong together.
    fn project(&self) -> Project<'a> {
        self.view.others.project()
    }

    fn path(&self) -> &'a str {
        &self.view.open.path
    }

    /// The byte at which the cursor is.
    fn byte(&self) -> Result<usize, ResponseError> {
        let position = self.params.place();
        let position = position.ok_or_else(|| bad_params("no position is named"))?;
        Ok(self.view.byte(position))
    }
}

impl Query<'_> {
    /// The bytes that are asked about.
    fn span(&self) -> Result<Span, ResponseError> {
        let range = self.params.range;
        let range = range.ok_or_else(|| bad_params("no range is named"))?;
        Ok(self.view.span(range))
    }
}

fn bad_params(words: &'static str) -> ResponseError {
    ResponseError::new(ErrorCode::InvalidParams, words)
}

/// Answers a request about a document.
pub(crate) fn answer<'a>(
    method: &str,
    query: impl FnOnce() -> Result<Query<'a>, ResponseError>,
) -> Outcome {
    let answer: fn(&Query<'_>) -> Outcome = match method {
        "textDocument/hover" => texts::hover,
        "textDocument/definition" => places::definition,
        "textDocument/references" => places::references,
        "textDocument/documentHighlight" => places::highlights,
        "textDocument/prepareRename" => renaming::prepare,
        "textDocument/rename" => renaming::rename,
        "textDocument/documentSymbol" => outlining::symbols,
        "textDocument/foldingRange" => outlining::folds,
        "textDocument/completion" => completing::completions,
        "textDocument/signatureHelp" => texts::signature,
        "textDocument/formatting" => texts::format,
        "textDocument/rangeFormatting" => texts::format_range,
        "textDocument/onTypeFormatting" => texts::format_typed,
        "textDocument/semanticTokens/full" => tokens::tokens,
        "textDocument/semanticTokens/full/delta" => tokens::changed_tokens,
        "textDocument/selectionRange" => selecting::selections,
        "textDocument/inlayHint" => selecting::hints,
        "textDocument/diagnostic" => actions::diagnostics,
        "textDocument/codeAction" => actions::actions,
        "textDocument/codeLens" => lenses::lenses,
        "textDocument/prepareCallHierarchy" => calling::prepare,
        "callHierarchy/incomingCalls" => calling::incoming,
        "callHierarchy/outgoingCalls" => calling::outgoing,
        _ => {
            let (code, words) = (ErrorCode::MethodNotFound, "no such method");
            return Err(ResponseError::new(code, words));
        }
    };
    answer(&query()?)
}
