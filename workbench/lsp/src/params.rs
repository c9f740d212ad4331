//! The parameters that an editor sends, as far as they can be read: a member that is missing or of
//! another form is none.

use crate::positions::{Position, Range};
use serde::de::DeserializeOwned;
use serde::{Deserialize, Deserializer};
use serde_json::Value;

/// The parameters of requests and notifications about a document.
#[derive(Debug, Default, Deserialize)]
#[serde(rename_all = "camelCase", default)]
pub(crate) struct Params {
    #[serde(deserialize_with = "lenient")]
    pub(crate) text_document: TextDocument,
    #[serde(deserialize_with = "lenient")]
    pub(crate) position: Option<Position>,
    #[serde(deserialize_with = "lenient")]
    pub(crate) range: Option<Range>,
    #[serde(deserialize_with = "lenient")]
    pub(crate) new_name: Option<String>,
    #[serde(deserialize_with = "lenient")]
    pub(crate) content_changes: Vec<ContentChange>,
    #[serde(deserialize_with = "lenient")]
    pub(crate) context: Context,
    #[serde(deserialize_with = "lenient")]
    pub(crate) positions: Vec<Position>,
    /// The item whose calls are asked for.
    #[serde(deserialize_with = "lenient")]
    pub(crate) item: Named,
    /// What was typed.
    #[serde(deserialize_with = "lenient")]
    pub(crate) ch: String,
    /// By what the tokens are known that were answered before.
    #[serde(deserialize_with = "lenient")]
    pub(crate) previous_result_id: String,
    /// What the names of items have in them.
    #[serde(deserialize_with = "lenient")]
    pub(crate) query: String,
}

/// A document that is spoken of.
#[derive(Debug, Default, Deserialize)]
#[serde(default)]
pub(crate) struct TextDocument {
    #[serde(deserialize_with = "lenient")]
    pub(crate) uri: Option<String>,
    #[serde(deserialize_with = "lenient")]
    pub(crate) version: Option<i64>,
    #[serde(deserialize_with = "lenient")]
    pub(crate) text: Option<String>,
}

/// An item that is spoken of, by its document and its name there.
#[derive(Debug, Default, Deserialize)]
#[serde(rename_all = "camelCase", default)]
pub(crate) struct Named {
    #[serde(deserialize_with = "lenient")]
    pub(crate) uri: Option<String>,
    #[serde(deserialize_with = "lenient")]
    pub(crate) selection_range: Option<Range>,
}

/// A change of a text: of a part, or of the whole.
#[derive(Debug, Deserialize)]
pub(crate) struct ContentChange {
    #[serde(default)]
    pub(crate) range: Option<Range>,
    pub(crate) text: String,
}

/// What else is said of a request.
#[derive(Debug, Default, Deserialize)]
#[serde(rename_all = "camelCase", default)]
pub(crate) struct Context {
    #[serde(deserialize_with = "lenient")]
    pub(crate) include_declaration: bool,
    /// The kinds of actions that are asked for; all where none is named.
    pub(crate) only: Option<Value>,
}

impl Params {
    pub(crate) fn read(params: Value) -> Params {
        serde_json::from_value(params).unwrap_or_default()
    }

    /// The document that is spoken of.
    pub(crate) fn uri(&self) -> Option<&str> {
        let uri = self.text_document.uri.as_ref();
        uri.or(self.item.uri.as_ref()).map(String::as_str)
    }

    /// The place that is spoken of.
    pub(crate) fn place(&self) -> Option<Position> {
        let named = self.item.selection_range.map(|range| range.start);
        self.position.or(named)
    }
}

impl Context {
    /// Whether actions of a kind are asked for by its name.
    pub(crate) fn names(&self, kind: &str) -> bool {
        self.only.is_some() && self.asks_for(kind)
    }

    /// Whether actions of a kind are asked for.
    pub(crate) fn asks_for(&self, kind: &str) -> bool {
        let Some(only) = &self.only else {
            return true;
        };
        let asked = only.as_array().map_or(&[][..], Vec::as_slice);
        asked
            .iter()
            .filter_map(Value::as_str)
            .any(|asked| is_of_kind(kind, asked))
    }
}

/// Whether a kind of actions is another one, or below it, as `source.fixAll` is below `source`.
fn is_of_kind(kind: &str, asked: &str) -> bool {
    let rest = kind.strip_prefix(asked);
    asked.is_empty() || rest.is_some_and(|rest| rest.is_empty() || rest.starts_with('.'))
}

/// A value, or none of its type where it is of another form.
fn lenient<'de, D: Deserializer<'de>, T: DeserializeOwned + Default>(
    deserializer: D,
) -> Result<T, D::Error> {
    let value = Value::deserialize(deserializer)?;
    Ok(serde_json::from_value(value).unwrap_or_default())
}
