//! Where lines that a run prints name items, as docs/PLAYING.md and docs/COMMAND_LINE.md show them.

use edd_cases::Kind;
use edd_source::Span;
use edd_source::tokens::kind_word;
use edd_syntax::numbers::{KINDS, Kind as ItemKind};

/// A word of a line, and where it begins.
#[derive(Clone, Copy)]
struct Word<'a> {
    text: &'a str,
    start: usize,
}

impl Word<'_> {
    fn span(self) -> Span {
        Span {
            start: self.start,
            end: self.start.saturating_add(self.text.len()),
        }
    }
}

fn words_of(line: &str) -> Vec<Word<'_>> {
    let mut start: usize = 0;
    let words = line.split(' ').map(|text| {
        let word = Word { text, start };
        start = start.saturating_add(text.len()).saturating_add(1);
        word
    });
    words.filter(|word| !word.text.is_empty()).collect()
}

/// The places at which a line that is printed names items, with their kinds where the line says them.
pub(crate) fn names_printed(run: Kind<'_>, line: &str) -> Vec<(Span, Option<ItemKind>)> {
    let words = words_of(line);
    let texts: Vec<_> = words.iter().map(|word| word.text).collect();
    let named = |kind| words.get(1).map(|word| (word.span(), kind));
    match (run, texts.as_slice()) {
        (Kind::Method(_), ["value", ..]) | (Kind::Open, ["set", ..]) => {
            named(Some(ItemKind::Variable)).into_iter().collect()
        }
        (Kind::Method(_), ["ask", "GET_DEV_VAR_VALUE", ..]) => asked(line).into_iter().collect(),
        (Kind::Show, [first, ..]) => match kind_of(first) {
            Some(kind) => named(Some(kind)).into_iter().collect(),
            None => listed(first, line),
        },
        _ => Vec::new(),
    }
}

/// The kind with whose word a line begins.
fn kind_of(word: &str) -> Option<ItemKind> {
    KINDS
        .into_iter()
        .find(|kind| kind_word(*kind).to_ascii_lowercase() == word)
}

/// The variable behind the text of a question.
fn asked(line: &str) -> Option<(Span, Option<ItemKind>)> {
    let (before, name) = line.rsplit_once("\" ")?;
    let start = before.len().saturating_add(2);
    let end = line.len();
    let is_word = !name.is_empty() && !name.contains(' ');
    is_word.then_some((Span { start, end }, Some(ItemKind::Variable)))
}

/// The items of a list, as docs/COMMAND_LINE.md shows it: `"text" [key] NAME(QUALIFIER) NAME<MASK>`
/// and `{KEY NAME}`.
fn listed(first: &str, line: &str) -> Vec<(Span, Option<ItemKind>)> {
    let is_inner = matches!(first, "MEMBERS" | "ELEMENTS");
    let is_list = first == "ITEMS" || first.starts_with("REQUEST[") || first.starts_with("REPLY[");
    if !is_inner && !is_list {
        return Vec::new();
    }
    let names = names_in(line).into_iter().skip(1);
    let is_last = |span: &Span| {
        line.get(span.end..)
            .is_some_and(|rest| rest.starts_with('}'))
    };
    let names = names.filter(|span| is_list || is_last(span));
    names.map(|span| (span, None)).collect()
}

/// In what a character of a list is.
#[derive(Clone, Copy, PartialEq)]
enum Inside {
    Nothing,
    /// A text, of which the next character has a `\` before it or not.
    Text {
        is_escaped: bool,
    },
    /// A key, or the qualifiers or the mask of a name.
    Brackets,
}

impl Inside {
    fn behind(self, character: char) -> Inside {
        match (self, character) {
            (Inside::Nothing, '"') => Inside::Text { is_escaped: false },
            (Inside::Nothing, '(' | '<' | '[') => Inside::Brackets,
            (Inside::Text { is_escaped: false }, '"') | (Inside::Brackets, ')' | '>' | ']') => {
                Inside::Nothing
            }
            (Inside::Text { is_escaped }, sign) => Inside::Text {
                is_escaped: sign == '\\' && !is_escaped,
            },
            (inside, _) => inside,
        }
    }
}

/// The names outside of texts and brackets.
fn names_in(line: &str) -> Vec<Span> {
    let mut names: Vec<Span> = Vec::new();
    let mut inside = Inside::Nothing;
    let mut is_in_word = false;
    for (start, character) in line.char_indices() {
        let is_of_word = character.is_ascii_alphanumeric() || character == '_';
        if inside == Inside::Nothing && is_of_word {
            let end = start.saturating_add(1);
            match names.last_mut().filter(|_| is_in_word) {
                Some(name) => name.end = end,
                None => names.push(Span { start, end }),
            }
        }
        is_in_word = inside == Inside::Nothing && is_of_word;
        inside = inside.behind(character);
    }
    let begins_well = |span: &Span| {
        let rest = line.get(span.start..);
        rest.is_some_and(|rest| !rest.starts_with(|first: char| first.is_ascii_digit()))
    };
    names.retain(begins_well);
    names
}

#[cfg(test)]
mod tests {
    use super::*;

    fn names(run: Kind<'_>, line: &str) -> Vec<String> {
        let names = names_printed(run, line).into_iter();
        names
            .map(|(span, _)| span.text(line).unwrap().to_owned())
            .collect()
    }

    #[test]
    fn lines_that_show_items_name_them() {
        for (line, wanted) in [
            ("variable p INTEGER 2", &["p"][..]),
            ("method calibrate", &["calibrate"]),
            ("array r", &["r"]),
            (r#"ITEMS a(READ_ONLY HIDDEN) "b \" c" [k] d"#, &["a", "d"]),
            ("REQUEST[0] 1 a<15> b(INFO INDEX) c", &["a", "b", "c"]),
            ("REPLY[12] a", &["a"]),
            ("MEMBERS {x a} {y b}", &["a", "b"]),
            ("ELEMENTS {1 a} {25 b_2}", &["a", "b_2"]),
            (r#"LABEL "value p""#, &[]),
            ("MAX_VALUE 5", &[]),
            ("", &[]),
        ] {
            assert_eq!(names(Kind::Show, line), wanted, "{line}");
        }
    }

    #[test]
    fn lines_of_a_run_name_variables() {
        let run = Kind::Method("m");
        assert_eq!(names(run, "value p 5"), ["p"]);
        assert_eq!(names(run, r#"ask GET_DEV_VAR_VALUE "a" b" c"#), ["c"]);
        assert!(names(run, r#"ask GET_DEV_VAR_VALUE "a""#).is_empty());
        assert!(names(run, r#"ask PUT_MESSAGE "value p""#).is_empty());
        assert!(names(run, "end ended").is_empty());
        assert_eq!(names(Kind::Open, "set p 5"), ["p"]);
        assert!(names(Kind::Open, "value p").is_empty());
    }
}
