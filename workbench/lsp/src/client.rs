//! What an editor says of itself.

use crate::answers::{
    Capabilities, CodeActionProvider, CodeLensProvider, DiagnosticProvider, FullTokens, Greeting,
    Legend, OnTypeFormattingProvider, RenameProvider, SemanticTokensProvider, ServerInfo,
    Synchronization, Triggers,
};
use crate::positions::Encoding;
use crate::requests::TOKEN_TYPES;
use serde_json::Value;

/// The kind of the edits that mend something.
pub(crate) const QUICK_FIX: &str = "quickfix";

/// The kind of the edit that mends all that can be mended surely.
pub(crate) const FIX_ALL: &str = "source.fixAll";

/// What an editor can. One that has said nothing can nothing.
#[derive(Clone, Copy, Debug, Default)]
pub(crate) struct Client {
    pub(crate) encoding: Encoding,
    /// It shows other places beside what is wrong.
    pub(crate) has_related: bool,
    /// It shows a tree of what is declared.
    pub(crate) has_tree: bool,
    /// It asks for the place before the new name.
    pub(crate) prepares_renames: bool,
    /// It takes a parameter as two numbers.
    pub(crate) has_offsets: bool,
    /// It takes an edit that mends something.
    pub(crate) has_actions: bool,
    /// It takes snippets as completions.
    pub(crate) has_snippets: bool,
    /// It asks for what is wrong, and is told nothing of it unasked.
    pub(crate) pulls: bool,
    /// It shows what can be clicked above lines.
    pub(crate) has_lenses: bool,
}

impl Client {
    /// What the parameters of `initialize` say.
    pub(crate) fn of(params: &Value) -> Client {
        let at = |path: &str| params.pointer(&format!("/capabilities/{path}"));
        let is_true = |path: &str| at(path).and_then(Value::as_bool) == Some(true);
        let in_text = |path: &str| is_true(&format!("textDocument/{path}"));
        let encodings = at("general/positionEncodings").and_then(Value::as_array);
        let has_bytes = encodings.is_some_and(|list| list.iter().any(|it| it == "utf-8"));
        Client {
            encoding: if has_bytes {
                Encoding::Utf8
            } else {
                Encoding::Utf16
            },
            has_related: in_text("publishDiagnostics/relatedInformation"),
            has_tree: in_text("documentSymbol/hierarchicalDocumentSymbolSupport"),
            prepares_renames: in_text("rename/prepareSupport"),
            has_offsets: in_text(
                "signatureHelp/signatureInformation/parameterInformation/labelOffsetSupport",
            ),
            has_snippets: in_text("completion/completionItem/snippetSupport"),
            pulls: at("textDocument/diagnostic").is_some(),
            has_lenses: at("textDocument/codeLens").is_some(),
            has_actions: at("textDocument/codeAction/codeActionLiteralSupport").is_some(),
        }
    }

    /// What the server can for the editor.
    pub(crate) fn greeting(self) -> Greeting {
        Greeting {
            capabilities: self.capabilities(),
            server_info: ServerInfo { name: "edd" },
        }
    }

    fn capabilities(self) -> Capabilities {
        Capabilities {
            position_encoding: match self.encoding {
                Encoding::Utf8 => "utf-8",
                Encoding::Utf16 => "utf-16",
            },
            text_document_sync: Synchronization {
                open_close: true,
                change: 2,
                save: false,
            },
            hover_provider: true,
            definition_provider: true,
            references_provider: true,
            document_highlight_provider: true,
            document_symbol_provider: true,
            folding_range_provider: true,
            document_formatting_provider: true,
            document_range_formatting_provider: true,
            document_on_type_formatting_provider: OnTypeFormattingProvider {
                first_trigger_character: "}",
                more_trigger_character: &[";", "\n"],
            },
            selection_range_provider: true,
            inlay_hint_provider: true,
            workspace_symbol_provider: true,
            call_hierarchy_provider: true,
            semantic_tokens_provider: SemanticTokensProvider {
                legend: Legend {
                    token_types: &TOKEN_TYPES,
                    token_modifiers: &["declaration"],
                },
                full: FullTokens { delta: true },
            },
            completion_provider: Triggers {
                trigger_characters: &[".", "[", "|"],
            },
            signature_help_provider: Triggers {
                trigger_characters: &["(", ","],
            },
            rename_provider: if self.prepares_renames {
                RenameProvider::Options {
                    prepare_provider: true,
                }
            } else {
                RenameProvider::Simple(true)
            },
            code_action_provider: self.has_actions.then_some(CodeActionProvider {
                code_action_kinds: &[QUICK_FIX, FIX_ALL],
            }),
            diagnostic_provider: self.pulls.then_some(DiagnosticProvider {
                inter_file_dependencies: true,
                workspace_diagnostics: false,
            }),
            code_lens_provider: self.has_lenses.then_some(CodeLensProvider {
                resolve_provider: false,
            }),
        }
    }
}
