//! Writes the answers to an editor's queries as text. A place is a line and a column, both counted from 1.

use edd_ide::{
    Completion, CompletionKind, Document, Edit, Fix, RenameError, Span, TokenClass, Typed,
};
use edd_source::Confidence;
use edd_source::tokens::kind_word;

/// What an editor asks.
#[derive(Debug, Clone, Copy, PartialEq, Eq)]
pub enum Query<'t> {
    Hover,
    Declaration,
    /// All uses, and the declaration.
    References,
    /// All uses.
    Uses,
    Renameable,
    Rename(&'t str),
    Symbols,
    Folds,
    /// The labels of the completions.
    Labels,
    /// The same with kinds and details.
    Details,
    Signature,
    /// What each word is.
    Tokens,
    /// What is selected around the byte.
    Selections,
    /// What is shown behind numbers.
    Hints,
    /// The edits that give the text its layout.
    Edits,
    /// The text after each edit that mends what is wrong at the byte.
    Fixes,
    /// The text after the edit that mends all.
    FixAll,
    /// What an editor with snippets writes for the first completion.
    Snippet,
    /// What is told of the first completion.
    Documentation,
    /// The text after the edits behind the character that was typed before the byte.
    Typed,
}

impl<'t> Query<'t> {
    /// Parses the query that a row asks.
    pub fn parse(asked: &'t str) -> Option<Self> {
        let (word, name) = asked.split_once(' ').unwrap_or((asked, ""));
        Some(match word {
            "hover" => Query::Hover,
            "declaration" => Query::Declaration,
            "references" => Query::References,
            "uses" => Query::Uses,
            "renameable" => Query::Renameable,
            "rename" => Query::Rename(name),
            "symbols" => Query::Symbols,
            "folds" => Query::Folds,
            "labels" => Query::Labels,
            "details" => Query::Details,
            "signature" => Query::Signature,
            "tokens" => Query::Tokens,
            "selections" => Query::Selections,
            "hints" => Query::Hints,
            "edits" => Query::Edits,
            "fixes" => Query::Fixes,
            "fix_all" => Query::FixAll,
            "snippet" => Query::Snippet,
            "documentation" => Query::Documentation,
            "typed" => Query::Typed,
            _ => return None,
        })
    }
}

/// A document, and the byte where something is asked.
#[derive(Debug, Clone, Copy)]
pub struct At<'d> {
    pub document: &'d Document,
    pub byte: usize,
}

impl At<'_> {
    /// Answers a query.
    pub fn answer(self, query: Query<'_>) -> String {
        let At { document, byte } = self;
        match query {
            Query::Hover => self.hover(),
            Query::Declaration => self.place_or_none(document.declaration(byte)),
            Query::References => self.places(&document.references(byte, true)),
            Query::Uses => self.places(&document.references(byte, false)),
            Query::Renameable => self.place_or_none(document.renameable(byte)),
            Query::Rename(name) => self.rename(name),
            Query::Symbols => self.symbols(),
            Query::Folds => self.folds(),
            Query::Labels => self.completions(|entry| entry.label.to_owned()),
            Query::Details => self.completions(detailed),
            Query::Signature => self.signature(),
            Query::Tokens => self.tokens(),
            Query::Selections => self.selections(),
            Query::Hints => self.hints(),
            Query::Edits => self.edits(),
            Query::Fixes => self.fixes(),
            Query::FixAll => self.fix_all(),
            Query::Snippet => self.snippet(),
            Query::Documentation => self.documentation(),
            Query::Typed => self.typed(),
        }
    }

    fn read(self, span: Span) -> String {
        span.read(self.document.text().as_bytes()).to_owned()
    }

    /// Writes the line and the column of a byte.
    fn place(self, byte: usize) -> String {
        let text = self.document.text().as_bytes();
        let lines = text.get(..byte).unwrap_or_default();
        let lines = lines.split(|byte| *byte == b'\n');
        let column = lines.clone().next_back().map_or(0, <[u8]>::len);
        format!("{}:{}", lines.count(), column.saturating_add(1))
    }

    fn span(self, span: Span) -> String {
        format!("{}-{}", self.place(span.start), self.place(span.end))
    }

    fn places(self, spans: &[Span]) -> String {
        let places: Vec<_> = spans.iter().map(|span| self.place(span.start)).collect();
        places.join(" ")
    }

    fn place_or_none(self, span: Option<Span>) -> String {
        span.map_or_else(|| "none".to_owned(), |span| self.place(span.start))
    }

    fn hover(self) -> String {
        match self.document.hover(self.byte) {
            Some(told) => format!("{}\n{}", self.read(told.span), told.markdown),
            None => "none".to_owned(),
        }
    }

    fn rename(self, name: &str) -> String {
        match self.document.rename(self.byte, name) {
            Ok(places) => self.places(&places),
            Err(RenameError::NothingHere) => "nothing here".to_owned(),
            Err(RenameError::NotAName) => "not a name".to_owned(),
            Err(RenameError::Reserved) => "reserved".to_owned(),
            Err(RenameError::Clash(span)) => format!("clash {}", self.place(span.start)),
        }
    }

    fn symbols(self) -> String {
        let symbols = self.document.symbols();
        let lines = symbols.iter().map(|symbol| {
            let (kind, name) = (kind_word(symbol.kind), symbol.name);
            let (place, name_place) = (self.span(symbol.span), self.span(symbol.name_span));
            format!("{kind} {name} {place} {name_place}")
        });
        lines.collect::<Vec<_>>().join("; ")
    }

    fn folds(self) -> String {
        let folds = self.document.folds();
        let lines = folds.iter().map(|fold| {
            let kind = if fold.is_comment { "comment " } else { "" };
            format!("{kind}{} {}", self.span(fold.start), self.span(fold.end))
        });
        lines.collect::<Vec<_>>().join("; ")
    }

    /// Writes the word that is replaced, and each completion.
    fn completions(self, written: fn(&Completion<'_>) -> String) -> String {
        let found = self.document.completions(self.byte);
        let mut answer = format!("{}:", self.read(found.replaced));
        for entry in &found.entries {
            answer.push(' ');
            answer.push_str(&written(entry));
        }
        answer
    }

    /// Writes each word with what it is; a `+` stands before one that declares.
    fn tokens(self) -> String {
        let tokens = self.document.semantic_tokens().into_iter();
        let words = tokens.map(|token| {
            let sign = if token.is_declaration { "+" } else { "" };
            format!(
                "{sign}{} {}",
                class_name(token.class),
                self.read(token.span)
            )
        });
        words.collect::<Vec<_>>().join("; ")
    }

    fn selections(self) -> String {
        let spans = self.document.selections(self.byte);
        let places: Vec<_> = spans.into_iter().map(|span| self.span(span)).collect();
        places.join(" ")
    }

    fn hints(self) -> String {
        let whole = Span {
            start: 0,
            end: self.document.text().len(),
        };
        let hints = self.document.inlay_hints(whole).into_iter();
        let hints = hints.map(|hint| format!("{} {}", self.place(hint.place), hint.label));
        hints.collect::<Vec<_>>().join("; ")
    }

    fn edits(self) -> String {
        let edits = self.document.format_edits().into_iter();
        let edits = edits.map(|edit| format!("{} {:?}", self.span(edit.span), edit.text));
        edits.collect::<Vec<_>>().join("; ")
    }

    fn after(self, fix: &Fix) -> String {
        let text = fix.apply(self.document.text().as_bytes());
        String::from_utf8_lossy(&text.unwrap_or_default()).into_owned()
    }

    fn fixes(self) -> String {
        let fixes = self
            .document
            .quick_fixes(Span::before(self.byte))
            .into_iter();
        let fixes = fixes.map(|found| format!("{}:\n{}", found.title, self.after(&found.fix)));
        fixes.collect::<Vec<_>>().join("\n")
    }

    fn fix_all(self) -> String {
        let fix = self.document.fix_all();
        fix.map_or_else(|| "none".to_owned(), |fix| self.after(&fix))
    }

    fn snippet(self) -> String {
        let found = self.document.completions(self.byte);
        let first = found.entries.into_iter().next();
        let snippet = first.and_then(|entry| entry.snippet);
        snippet.map_or_else(|| "none".to_owned(), |snippet| snippet.into_owned())
    }

    fn documentation(self) -> String {
        let found = self.document.completions(self.byte);
        let first = found.entries.into_iter().next();
        first.map_or_else(
            || "none".to_owned(),
            |entry| entry.documentation.into_owned(),
        )
    }

    /// Returns the edits behind the character before the byte; none where nothing is laid out behind it.
    fn typed_edits(self) -> Option<Vec<Edit>> {
        let before = self.document.text().get(..self.byte)?;
        let typed = before.chars().next_back()?;
        let typed = Typed::from_text(typed.encode_utf8(&mut [0; 4]))?;
        Some(self.document.format_edits_typed(self.byte, typed))
    }

    fn typed(self) -> String {
        let edits = self.typed_edits().filter(|edits| !edits.is_empty());
        let confidence = Confidence::Sure;
        edits.map_or_else(
            || "none".to_owned(),
            |edits| self.after(&Fix { edits, confidence }),
        )
    }

    fn signature(self) -> String {
        let Some(called) = self.document.signature(self.byte) else {
            return "none".to_owned();
        };
        let parameters = called.parameters.iter().enumerate();
        let words = parameters.map(|(number, parameter)| {
            let mark = if number == called.active { "*" } else { "" };
            format!(" {mark}{}", parameter.read(called.label.as_bytes()))
        });
        let words = words.collect::<Vec<_>>().concat();
        format!("{}:{words}", called.label)
    }
}

fn kind_name(kind: CompletionKind) -> &'static str {
    match kind {
        CompletionKind::Item(kind) => kind_word(kind),
        CompletionKind::Member => "member",
        CompletionKind::Local => "local",
        CompletionKind::Builtin => "function",
        CompletionKind::Attribute => "attribute",
        CompletionKind::Keyword => "keyword",
        CompletionKind::Value => "value",
    }
}

fn class_name(class: TokenClass) -> &'static str {
    match class {
        TokenClass::Comment => "comment",
        TokenClass::Keyword => "keyword",
        TokenClass::Number => "number",
        TokenClass::String => "string",
        TokenClass::Item(kind) => kind_word(kind),
        TokenClass::Member => "member",
        TokenClass::Local => "local",
        TokenClass::Function => "function",
        TokenClass::Type => "type",
        TokenClass::Value => "value",
    }
}

/// Writes a completion with its kind and detail.
fn detailed(entry: &Completion<'_>) -> String {
    format!(
        "{} ({}: {})",
        entry.label,
        kind_name(entry.kind),
        entry.detail
    )
}

#[cfg(test)]
mod tests {
    use super::*;

    #[test]
    fn places_are_counted_from_1() {
        let document = Document::new("ab\ncd\n");
        let at = At {
            document: &document,
            byte: 0,
        };
        let places: Vec<_> = [0, 2, 3, 5, 6, 7].map(|byte| at.place(byte)).into();
        assert_eq!(places, ["1:1", "1:3", "2:1", "2:3", "3:1", "1:1"]);
        assert_eq!(at.span(Span { start: 1, end: 4 }), "1:2-2:2");
    }

    #[test]
    fn queries_are_read() {
        assert_eq!(Query::parse("hover"), Some(Query::Hover));
        assert_eq!(Query::parse("rename to b"), Some(Query::Rename("to b")));
        assert_eq!(Query::parse("guess"), None);
    }
}
