//! What the server sends, with the names of the Language Server Protocol 3.17, which documents the
//! members.
#![expect(missing_docs, reason = "the members are those of the protocol")]

use crate::positions::{Position, Range};
use serde::Serialize;
use std::collections::BTreeMap;

/// The answer to a request.
#[derive(Clone, Debug, Serialize)]
#[serde(untagged)]
pub enum Answer {
    Nothing,
    Greeting(Box<Greeting>),
    Hover(Hover),
    Location(Location),
    Locations(Vec<Location>),
    Highlights(Vec<Highlight>),
    Renamed(Renamed),
    Edit(WorkspaceEdit),
    Edits(Vec<TextEdit>),
    Outline(Vec<DocumentSymbol>),
    Symbols(Vec<SymbolInformation>),
    Folds(Vec<FoldingRange>),
    Completions(CompletionList),
    Signatures(SignatureHelp),
    Actions(Vec<CodeAction>),
    Tokens(SemanticTokens),
    ChangedTokens(SemanticTokensDelta),
    Selections(Vec<SelectionRange>),
    Hints(Vec<InlayHint>),
    Report(DiagnosticReport),
    Lenses(Vec<CodeLens>),
    CallItems(Vec<CallItem>),
    Incoming(Vec<IncomingCall>),
    Outgoing(Vec<OutgoingCall>),
}

/// What the server can.
#[derive(Clone, Debug, Serialize)]
#[serde(rename_all = "camelCase")]
pub struct Greeting {
    pub capabilities: Capabilities,
    pub server_info: ServerInfo,
}

#[derive(Clone, Debug, Serialize)]
pub struct ServerInfo {
    pub name: &'static str,
}

#[derive(Clone, Debug, Serialize)]
#[serde(rename_all = "camelCase")]
pub struct Capabilities {
    pub position_encoding: &'static str,
    pub text_document_sync: Synchronization,
    pub hover_provider: bool,
    pub definition_provider: bool,
    pub references_provider: bool,
    pub document_highlight_provider: bool,
    pub document_symbol_provider: bool,
    pub folding_range_provider: bool,
    pub document_formatting_provider: bool,
    pub document_range_formatting_provider: bool,
    pub document_on_type_formatting_provider: OnTypeFormattingProvider,
    pub selection_range_provider: bool,
    pub inlay_hint_provider: bool,
    pub workspace_symbol_provider: bool,
    pub call_hierarchy_provider: bool,
    pub semantic_tokens_provider: SemanticTokensProvider,
    pub completion_provider: Triggers,
    pub signature_help_provider: Triggers,
    pub rename_provider: RenameProvider,
    #[serde(skip_serializing_if = "Option::is_none")]
    pub code_action_provider: Option<CodeActionProvider>,
    #[serde(skip_serializing_if = "Option::is_none")]
    pub diagnostic_provider: Option<DiagnosticProvider>,
    #[serde(skip_serializing_if = "Option::is_none")]
    pub code_lens_provider: Option<CodeLensProvider>,
}

#[derive(Clone, Debug, Serialize)]
#[serde(rename_all = "camelCase")]
pub struct Synchronization {
    pub open_close: bool,
    /// 2 stands for changes of parts of a text.
    pub change: u8,
    pub save: bool,
}

#[derive(Clone, Debug, Serialize)]
#[serde(rename_all = "camelCase")]
pub struct Triggers {
    pub trigger_characters: &'static [&'static str],
}

#[derive(Clone, Debug, Serialize)]
#[serde(untagged)]
pub enum RenameProvider {
    Simple(bool),
    #[serde(rename_all = "camelCase")]
    Options {
        prepare_provider: bool,
    },
}

#[derive(Clone, Debug, Serialize)]
#[serde(rename_all = "camelCase")]
pub struct CodeActionProvider {
    pub code_action_kinds: &'static [&'static str],
}

#[derive(Clone, Debug, Serialize)]
#[serde(rename_all = "camelCase")]
pub struct OnTypeFormattingProvider {
    pub first_trigger_character: &'static str,
    pub more_trigger_character: &'static [&'static str],
}

#[derive(Clone, Debug, Serialize)]
pub struct SemanticTokensProvider {
    pub legend: Legend,
    pub full: FullTokens,
}

#[derive(Clone, Debug, Serialize)]
pub struct FullTokens {
    pub delta: bool,
}

#[derive(Clone, Debug, Serialize)]
#[serde(rename_all = "camelCase")]
pub struct Legend {
    pub token_types: &'static [&'static str],
    pub token_modifiers: &'static [&'static str],
}

#[derive(Clone, Debug, Serialize)]
#[serde(rename_all = "camelCase")]
pub struct DiagnosticProvider {
    pub inter_file_dependencies: bool,
    pub workspace_diagnostics: bool,
}

#[derive(Clone, Debug, Serialize)]
#[serde(rename_all = "camelCase")]
pub struct CodeLensProvider {
    pub resolve_provider: bool,
}

/// Of each word its line and column behind the one before it, its length, type and modifiers.
#[derive(Clone, Debug, Serialize)]
#[serde(rename_all = "camelCase")]
pub struct SemanticTokens {
    /// By this an editor asks for what has changed since.
    pub result_id: String,
    pub data: Vec<usize>,
}

/// What has changed since an answer with words.
#[derive(Clone, Debug, Serialize)]
#[serde(rename_all = "camelCase")]
pub struct SemanticTokensDelta {
    pub result_id: String,
    pub edits: Vec<SemanticTokensEdit>,
}

/// Numbers that take the place of some of those before.
#[derive(Clone, Debug, PartialEq, Eq, Serialize)]
#[serde(rename_all = "camelCase")]
pub struct SemanticTokensEdit {
    pub start: usize,
    pub delete_count: usize,
    pub data: Vec<usize>,
}

/// A span around a place, and the one around it.
#[derive(Clone, Debug, Serialize)]
pub struct SelectionRange {
    pub range: Range,
    #[serde(skip_serializing_if = "Option::is_none")]
    pub parent: Option<Box<SelectionRange>>,
}

/// What is shown behind a place.
#[derive(Clone, Debug, Serialize)]
#[serde(rename_all = "camelCase")]
pub struct InlayHint {
    pub position: Position,
    pub label: String,
    pub padding_left: bool,
}

/// What an editor shows above a line, to be clicked.
#[derive(Clone, Debug, Serialize)]
pub struct CodeLens {
    pub range: Range,
    pub command: Command,
}

/// What the editor does then, by a command of its own.
#[derive(Clone, Debug, Serialize)]
pub struct Command {
    pub title: &'static str,
    pub command: &'static str,
    pub arguments: Vec<String>,
}

/// An item that calls others, or is called.
#[derive(Clone, Debug, Serialize)]
#[serde(rename_all = "camelCase")]
pub struct CallItem {
    pub name: String,
    pub kind: u8,
    pub detail: &'static str,
    pub uri: String,
    pub range: Range,
    pub selection_range: Range,
}

/// An item that calls another one, and where it does.
#[derive(Clone, Debug, Serialize)]
#[serde(rename_all = "camelCase")]
pub struct IncomingCall {
    pub from: CallItem,
    pub from_ranges: Vec<Range>,
}

/// An item that is called by another one, and where it is.
#[derive(Clone, Debug, Serialize)]
#[serde(rename_all = "camelCase")]
pub struct OutgoingCall {
    pub to: CallItem,
    pub from_ranges: Vec<Range>,
}

/// What is wrong with a document, for an editor that asks for it.
#[derive(Clone, Debug, Serialize)]
pub struct DiagnosticReport {
    pub kind: &'static str,
    pub items: Vec<Diagnostic>,
}

#[derive(Clone, Debug, PartialEq, Eq, Serialize)]
pub struct Location {
    pub uri: String,
    pub range: Range,
}

#[derive(Clone, Debug, Serialize)]
pub struct Highlight {
    pub range: Range,
}

/// A text with its form, as `markdown`.
#[derive(Clone, Debug, Serialize)]
pub struct Markup {
    pub kind: &'static str,
    pub value: String,
}

#[derive(Clone, Debug, Serialize)]
pub struct Hover {
    pub contents: Markup,
    pub range: Range,
}

/// What is renamed, and its name so far.
#[derive(Clone, Debug, Serialize)]
pub struct Renamed {
    pub range: Range,
    pub placeholder: String,
}

#[derive(Clone, Debug, Serialize)]
#[serde(rename_all = "camelCase")]
pub struct TextEdit {
    pub range: Range,
    pub new_text: String,
}

/// Edits of texts by their names.
#[derive(Clone, Debug, Serialize)]
pub struct WorkspaceEdit {
    pub changes: BTreeMap<String, Vec<TextEdit>>,
}

/// What is declared, for a client that shows a tree.
#[derive(Clone, Debug, Serialize)]
#[serde(rename_all = "camelCase")]
pub struct DocumentSymbol {
    pub name: String,
    pub detail: &'static str,
    pub kind: u8,
    pub range: Range,
    pub selection_range: Range,
}

/// What is declared, for one that shows a list.
#[derive(Clone, Debug, Serialize)]
pub struct SymbolInformation {
    pub name: String,
    pub kind: u8,
    pub location: Location,
}

/// Lines that may be hidden below the first one.
#[derive(Clone, Debug, Serialize)]
#[serde(rename_all = "camelCase")]
pub struct FoldingRange {
    pub start_line: usize,
    pub end_line: usize,
    #[serde(skip_serializing_if = "Option::is_none")]
    pub kind: Option<&'static str>,
}

#[derive(Clone, Debug, Serialize)]
#[serde(rename_all = "camelCase")]
pub struct CompletionList {
    pub is_incomplete: bool,
    pub items: Vec<CompletionItem>,
}

#[derive(Clone, Debug, Serialize)]
#[serde(rename_all = "camelCase")]
pub struct CompletionItem {
    pub label: String,
    pub kind: u8,
    #[serde(skip_serializing_if = "Option::is_none")]
    pub detail: Option<String>,
    #[serde(skip_serializing_if = "Option::is_none")]
    pub documentation: Option<String>,
    /// By this a client keeps the order.
    pub sort_text: String,
    /// 2 where the edit is a snippet.
    #[serde(skip_serializing_if = "Option::is_none")]
    pub insert_text_format: Option<u8>,
    pub text_edit: TextEdit,
}

#[derive(Clone, Debug, Serialize)]
#[serde(rename_all = "camelCase")]
pub struct SignatureHelp {
    pub signatures: Vec<SignatureInformation>,
    pub active_signature: usize,
    pub active_parameter: usize,
}

#[derive(Clone, Debug, Serialize)]
pub struct SignatureInformation {
    pub label: String,
    pub parameters: Vec<ParameterInformation>,
}

#[derive(Clone, Debug, Serialize)]
pub struct ParameterInformation {
    pub label: ParameterLabel,
}

/// A parameter as it stands in its function's label: from which UTF-16 unit up to which, or as a text
/// for a client that takes no numbers.
#[derive(Clone, Debug, Serialize)]
#[serde(untagged)]
pub enum ParameterLabel {
    Offsets([usize; 2]),
    Text(String),
}

/// An edit that mends something.
#[derive(Clone, Debug, Serialize)]
#[serde(rename_all = "camelCase")]
pub struct CodeAction {
    pub title: String,
    pub kind: &'static str,
    pub diagnostics: Vec<Diagnostic>,
    pub edit: WorkspaceEdit,
}

/// The number of a refusal, or the name of a lint.
#[derive(Clone, Copy, Debug, PartialEq, Eq, Serialize)]
#[serde(untagged)]
pub enum Code {
    Number(u16),
    Name(&'static str),
}

/// Another place that is spoken of.
#[derive(Clone, Debug, PartialEq, Eq, Serialize)]
pub struct Related {
    pub location: Location,
    pub message: String,
}

#[derive(Clone, Debug, PartialEq, Eq, Serialize)]
#[serde(rename_all = "camelCase")]
pub struct Diagnostic {
    pub range: Range,
    pub severity: u8,
    #[serde(skip_serializing_if = "Option::is_none")]
    pub code: Option<Code>,
    pub source: &'static str,
    pub message: String,
    #[serde(skip_serializing_if = "Vec::is_empty")]
    pub related_information: Vec<Related>,
}

/// All that is wrong with a version of a text.
#[derive(Clone, Debug, PartialEq, Eq, Serialize)]
pub struct Diagnostics {
    pub uri: String,
    #[serde(skip_serializing_if = "Option::is_none")]
    pub version: Option<i64>,
    pub diagnostics: Vec<Diagnostic>,
}
