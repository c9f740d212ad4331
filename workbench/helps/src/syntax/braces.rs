//! Where a brace is missing or too much, as far as the layout shows it.
//!
//! A closing brace that is the first of its line stands as far in as the line of the brace that it
//! closes. The first one that does not was to close another one: one further in, which is missing
//! its own, or one further out, so that one was closed twice.

use super::SyntaxHelp;
use crate::Finding;
use crate::slips::{At, is_symbol};
use edd_lexer::token::{Token, TokenKind};
use edd_source::tokens::tokens_before;
use edd_source::{Confidence, Outline, Span};
use edd_syntax::symbols::{Keyword, Symbol};

/// A closing brace that stands elsewhere than the one that it closes.
#[derive(Clone, Copy)]
struct Crooked {
    /// The number of the opening brace.
    open: usize,
    /// The number of the closing one.
    close: usize,
    /// How far in the line of the opening brace begins.
    indent: usize,
    /// How far in it stands itself.
    own: usize,
}

/// Says which brace is missing or too much where a token does not fit, if the layout shows it.
pub(super) fn say_braces(at: At<'_>, outline: &Outline, finding: &mut Finding) -> bool {
    let open = open_at_end(at.tokens);
    if open == Some(0) {
        return false;
    }
    let Some(crooked) = first_crooked(at, outline) else {
        return false;
    };
    let is_inside = crooked.indent < crooked.own;
    match open {
        None if is_inside && crooked.close < at.number => {
            match head_before(at, crooked) {
                Some(head) => say_open(at, head, crooked, finding),
                None => say_too_many(at, crooked, finding),
            }
            true
        }
        Some(_) if !is_inside => {
            let before = missing_before(at, crooked);
            if at.number < before {
                return false;
            }
            say_close(at, before, finding);
            let opened = at.tokens.get(crooked.open).map(Span::of);
            finding.say_at(opened, SyntaxHelp::ClosesByLayout);
            true
        }
        _ => false,
    }
}

/// Says what is wrong where RESPONSE_CODES stands in other braces than those of its command.
pub(super) fn say_response_codes(at: At<'_>, outline: &Outline, finding: &mut Finding) {
    if say_braces(at, outline, finding) {
        return;
    }
    match open_at_end(at.tokens) {
        Some(0) => finding.say(SyntaxHelp::CodesInCommand),
        None => finding.say(SyntaxHelp::CodesBehindBrace),
        Some(_) => say_close(at, at.number, finding),
    }
}

// How many braces are open after all tokens; none where one is closed that is not open.
fn open_at_end(tokens: &[Token]) -> Option<usize> {
    let mut open: usize = 0;
    for token in tokens {
        match token.kind {
            TokenKind::Symbol(Symbol::OpenBrace) => open = open.saturating_add(1),
            TokenKind::Symbol(Symbol::CloseBrace) => open = open.checked_sub(1)?,
            _ => {}
        }
    }
    Some(open)
}

// The first closing brace that stands elsewhere than its opening one.
fn first_crooked(at: At<'_>, outline: &Outline) -> Option<Crooked> {
    let closing = at.tokens.iter().enumerate();
    for (close, token) in closing.filter(|(_, token)| is_symbol(token, Symbol::CloseBrace)) {
        let open = outline.open_behind(at.tokens, close.checked_sub(1)?)?;
        let opening = at.tokens.get(open)?;
        let begins = tokens_before(at.tokens, token.line) == close;
        // Of one at the end of a line the layout says nothing, nor of those after it.
        if !begins && opening.line != token.line {
            return None;
        }
        if let (Some(own), Some(indent)) = (indent_at(at, close), indent_of(at, opening))
            && own != indent
        {
            return Some(Crooked {
                open,
                close,
                indent,
                own,
            });
        }
    }
    None
}

// How far in the line of a place begins, where nothing but blanks is before it on its line.
fn indent_before(text: &[u8], place: usize) -> Option<usize> {
    let before = text.get(..place)?.iter().rev();
    let mut count: usize = 0;
    for byte in before {
        match byte {
            b'\n' => return Some(count),
            b' ' | b'\t' | b'\r' => count = count.saturating_add(1),
            _ => return None,
        }
    }
    Some(count)
}

// How far in the line of a token begins, or the one on which the parentheses open that go on there.
fn indent_of(at: At<'_>, token: &Token) -> Option<usize> {
    let mut first = tokens_before(at.tokens, token.line);
    while let Some(open) = parenthesis_around(at, first) {
        let line = at.tokens.get(open)?.line;
        first = tokens_before(at.tokens, line);
    }
    let first = at.tokens.get(first)?;
    indent_before(at.text, Span::of(first).start)
}

// The parenthesis before a token in its statement that is not closed before it.
fn parenthesis_around(at: At<'_>, number: usize) -> Option<usize> {
    let mut closed: usize = 0;
    for place in (0..number).rev() {
        match at.tokens.get(place)?.kind {
            TokenKind::Symbol(Symbol::CloseParenthesis) => closed = closed.saturating_add(1),
            TokenKind::Symbol(Symbol::OpenParenthesis) if closed == 0 => return Some(place),
            TokenKind::Symbol(Symbol::OpenParenthesis) => closed = closed.saturating_sub(1),
            TokenKind::Symbol(Symbol::Semicolon | Symbol::OpenBrace | Symbol::CloseBrace) => {
                return None;
            }
            _ => {}
        }
    }
    None
}

// How far in a line begins, where the token of a number is its first one.
fn indent_at(at: At<'_>, number: usize) -> Option<usize> {
    let token = at.tokens.get(number)?;
    if tokens_before(at.tokens, token.line) != number {
        return None;
    }
    indent_before(at.text, Span::of(token).start)
}

// Whether a token is a label, which may stand as far in as its switch.
fn is_label(token: &Token) -> bool {
    matches!(
        token.kind,
        TokenKind::Keyword(
            Keyword::Case | Keyword::Default | Keyword::MethodCase | Keyword::MethodDefault
        )
    )
}

// The token before which a brace is missing: the first one after the opening brace with which a line
// begins as far out as the line of that brace.
fn missing_before(at: At<'_>, crooked: Crooked) -> usize {
    let mut inside = crooked.open.saturating_add(1)..crooked.close;
    let begins_line_outside = |number: &usize| {
        let is_out = indent_at(at, *number).is_some_and(|indent| indent <= crooked.indent);
        is_out && !at.tokens.get(*number).is_some_and(is_label)
    };
    inside.find(begins_line_outside).unwrap_or(crooked.close)
}

// The last token of the line that the closing brace closes by the layout, where that is one after
// which an opening brace belongs.
fn head_before<'a>(at: At<'a>, crooked: Crooked) -> Option<&'a Token> {
    let mut before = (crooked.open..crooked.close).rev();
    let first = before.find(|number| indent_at(at, *number) == Some(crooked.own))?;
    let last = last_of_head(at, first)?;
    let opens = matches!(
        last.kind,
        TokenKind::Symbol(Symbol::CloseParenthesis)
            | TokenKind::Keyword(Keyword::MethodElse | Keyword::Do | Keyword::Else)
    );
    opens.then_some(last)
}

// The last token of the line that begins with one, and of the lines to which its parentheses go on.
fn last_of_head(at: At<'_>, first: usize) -> Option<&Token> {
    let mut last = first;
    loop {
        let next_line = at.tokens.get(last)?.line.saturating_add(1);
        let behind = tokens_before(at.tokens, next_line);
        match parenthesis_around(at, behind).filter(|open| first <= *open) {
            Some(_) if last < behind && behind < at.tokens.len() => last = behind,
            _ => return at.tokens.get(behind.checked_sub(1)?),
        }
    }
}

// Says that an opening brace is missing after a token.
fn say_open(at: At<'_>, head: &Token, crooked: Crooked, finding: &mut Finding) {
    finding.span = Some(Span::behind(head));
    finding.say_missing_here("{", Confidence::Guess);
    let closed = at.tokens.get(crooked.close).map(Span::of);
    finding.say_at(closed, SyntaxHelp::ClosedByLayout);
}

// Says that a closing brace is missing before a token.
fn say_close(at: At<'_>, before: usize, finding: &mut Finding) {
    if let Some(token) = at.tokens.get(before.saturating_sub(1)) {
        finding.span = Some(Span::behind(token));
    }
    finding.say_missing_here("}", Confidence::Guess);
}

// Says that a closing brace is one too many.
fn say_too_many(at: At<'_>, crooked: Crooked, finding: &mut Finding) {
    finding.span = at.tokens.get(crooked.close).map(Span::of);
    let fix = finding.replacement("", Confidence::Guess);
    let word = "}".to_owned();
    finding.propose(SyntaxHelp::LeftOut { word }, fix);
    let opened = at.tokens.get(crooked.open).map(Span::of);
    finding.say_at(opened, SyntaxHelp::FurtherIn);
}
