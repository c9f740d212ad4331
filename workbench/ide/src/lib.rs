//! What an editor asks about the text of a description: what a name means, where it is declared and
//! used, what may be written at a place, what is wrong and what mends it. The text may be unfinished
//! or refused.
//!
//! A [`Document`] is a version of a text. It answers about places, which count bytes, and knows of no
//! protocol:
//!
//! A [`Project`] has the files that belong together: descriptions, devices, tests and scripts.
//!
//! ```
//! use edd_ide::Document;
//!
//! let document = Document::new("VARIABLE p { TYPE INTEGER; LA }");
//! let found = document.completions(29);
//! assert_eq!(found.replaced.read(document.text().as_bytes()), "LA");
//! assert_eq!(found.entries[0].label, "LABEL");
//! ```

mod calls;
mod class_terms;
mod comments;
mod completion;
mod constant;
mod core;
mod cursor;
mod declarations;
mod described;
mod document;
mod findings;
mod fixes;
mod formatting;
mod functions;
mod hints;
mod hover;
mod keyword_terms;
mod languages;
mod lexing;
mod listing;
mod markdown;
mod meanings;
mod naming;
mod offers;
mod paths;
mod place_terms;
mod project;
mod runs;
mod scopes;
mod selection;
mod semantic;
mod sheet;
mod sheet_completion;
mod signature;
mod snippets;
mod spots;
mod syntax;
mod ties;
mod typing;
mod values;
mod walk;

pub use calls::Call;
pub use completion::Completions;
pub use document::Document;
pub use edd_source::{Edit, Fix, Span};
pub use edd_syntax::numbers::Kind;
pub use fixes::QuickFix;
pub use hints::InlayHint;
pub use hover::Hover;
pub use listing::{Fold, Symbol};
pub use naming::RenameError;
pub use offers::{Completion, CompletionKind};
pub use project::{Place, Project, ProjectRenameError};
pub use runs::TestRun;
pub use semantic::{SemanticToken, TokenClass};
pub use signature::Signature;
pub use typing::Typed;
