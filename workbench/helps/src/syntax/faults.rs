//! What is said of a text that spells no unit.

use super::SyntaxHelp;
use super::attributes::{attribute_of, say_in_item, say_in_options};
use super::braces::say_braces;
use super::change::{Change, Workshop};
use super::comments::open_comment;
use super::confidence::{confidence_of, confidence_without};
use super::fitting::what_fits;
use super::lines::say_line_twice;
use super::pairs::say_other_bracket;
use super::split_words::say_split_word;
use super::trials::{best_change, best_word, is_too_many, wants_else, wants_if, wants_text};
use super::unsupported::say_unsupported;
use crate::slips::{
    At, Placed, Slip, early_end, is_symbol, nested_comment, open_brace, open_bracket,
    open_parenthesis, opening_parenthesis, parenthesis_open_at, slip_at, slip_of_left_out,
};
use crate::text::long_string;
use crate::{Advice, Explained, Finding, TextHelp};
use edd_lexer::token::{Token, TokenKind};
use edd_source::tokens::{item_kind, tokens_before, word_of};
use edd_source::{Confidence, Fix, Outline, Span};
use edd_syntax::operators::Builtin;
use edd_syntax::symbols::{Keyword, Symbol};
use edd_token_reader::fault::ParseFault;

/// How many bytes of a token are shown.
const MOST: usize = 40;

/// What is said of tokens that spell no unit.
pub(crate) fn explain(text: &[u8], tokens: &[Token], fault: &ParseFault) -> Explained {
    let place = fault.place().map(|place| place.0);
    let number = place.map_or(tokens.len(), |place| {
        usize::try_from(place).unwrap_or(usize::MAX)
    });
    let token = tokens.get(number);
    let first = token.map_or(tokens.len(), |token| tokens_before(tokens, token.line));
    let at = At {
        text,
        tokens,
        number,
        first,
    };
    let outline = Outline::of(tokens);
    let mut finding = Finding::at(token.map(Span::of));
    let resumes_at = token.map(|token| Span::of(token).start);
    match fault {
        ParseFault::Syntax { .. } => {
            say_misfit(at, &outline, &mut finding);
            if let Some(string) = long_string(text, resumes_at.unwrap_or(text.len()), false) {
                finding.say_at(Some(string), TextHelp::LongString);
            }
        }
        ParseFault::TooDeep { .. } => finding.say(SyntaxHelp::TooDeep),
        ParseFault::Unsupported { word, .. } => {
            say_unsupported(at, &outline, word.as_str(), &mut finding);
        }
        ParseFault::Memory => {}
    }
    Explained {
        finding,
        resumes_at,
    }
}

fn say_misfit(at: At<'_>, outline: &Outline, finding: &mut Finding) {
    if let Some(comment) = open_comment(at) {
        return finding.say_at(Some(comment), TextHelp::CommentGoesOn);
    }
    if say_line_twice(at, || workshop_of(at, outline), finding) {
        return;
    }
    let Some(token) = at.token() else {
        return say_end(at, outline, finding);
    };
    if say_split_word(at, finding)
        || say_other_bracket(at, finding)
        || say_in_options(at, token, outline, finding)
    {
        return;
    }
    if may_be_braces(at, token, outline) && say_braces(at, outline, finding) {
        return;
    }
    if let Some(slip) = slip_at(at).or_else(|| first_comment(at, token)) {
        finding.span = Some(slip.place);
        finding.propose(slip.slip, slip.fix());
        if slip.slip == Slip::ItemInItem {
            say_open(at, outline, finding);
        }
        return;
    }
    if let Some(end) = early_end(at, outline) {
        return finding.say_at(Some(end.place), end.slip);
    }
    if let Some(kind) = outline.kind_around(at.tokens, at.number)
        && say_in_item(at, token, kind, finding)
    {
        return;
    }
    say_change(at, token, outline, finding);
}

// A comment before the first token in which another one begins.
fn first_comment(at: At<'_>, token: &Token) -> Option<Placed> {
    match at.number {
        0 => nested_comment(at.text, None, token),
        _ => None,
    }
}

// Whether a token may be one that does not fit since a brace before it is missing or too much.
fn may_be_braces(at: At<'_>, token: &Token, outline: &Outline) -> bool {
    let is_last_brace =
        is_symbol(token, Symbol::CloseBrace) && outline.opened(at.tokens, at.number).is_none();
    let is_label = matches!(
        token.kind,
        TokenKind::Keyword(Keyword::MethodCase | Keyword::MethodDefault)
    );
    is_last_brace
        || is_label
        || item_kind(token).is_some()
        || attribute_of(word_of(at.text, token)).is_some()
        || early_end(at, outline).is_some()
}

// Says what helps where the text ends too early.
fn say_end(at: At<'_>, outline: &Outline, finding: &mut Finding) {
    if say_braces(at, outline, finding) {
        return;
    }
    finding.span = at.tokens.last().map(Span::behind);
    if at.tokens.is_empty() {
        finding.say(help_of_beginning(at.text));
    } else {
        finding.say(SyntaxHelp::TextEnds);
    }
    say_open(at, outline, finding);
}

// What is said where no identification begins.
fn help_of_beginning(text: &[u8]) -> Advice {
    if text.contains(&b'\r') && !text.contains(&b'\n') {
        TextHelp::CarriageReturns.into()
    } else {
        SyntaxHelp::Identification.into()
    }
}

// Says which brace is open.
fn say_open(at: At<'_>, outline: &Outline, finding: &mut Finding) {
    let brace = outline.opened(at.tokens, at.number);
    if let Some(token) = brace.and_then(|brace| at.tokens.get(brace)) {
        finding.say_at(Some(Span::of(token)), SyntaxHelp::BraceIsOpen);
    }
}

// Says which change of a token helps, or what fits in its place.
fn say_change(at: At<'_>, token: &Token, outline: &Outline, finding: &mut Finding) {
    let mut workshop = workshop_of(at, outline);
    match change_of(at, token, &mut workshop) {
        Some((at, token, change)) => describe(at, token, change, finding),
        None => {
            finding.say(help_of_word(at, token, &mut workshop));
            if item_kind(token).is_some() {
                say_open(at, outline, finding);
            }
        }
    }
}

// The tokens from the item of the fault on. Those before it are items that the grammar takes.
fn workshop_of(at: At<'_>, outline: &Outline) -> Workshop {
    let begins = |number: &usize| {
        let token = at.tokens.get(*number);
        let is_after_of = number
            .checked_sub(1)
            .is_some_and(|before| edd_source::tokens::is_word(at.tokens, before, Keyword::Of));
        token.is_some_and(|token| item_kind(token).is_some())
            && outline.opened(at.tokens, *number).is_none()
            && !is_after_of
    };
    let last = (0..at.number).rev().find(begins).unwrap_or(0);
    let first = (0..last).find(begins).unwrap_or(last);
    Workshop::without(at.text, at.tokens, first, last)
}

// The token and the change of it that may be meant: a word before the one that does not fit, a sign that
// is too many before it, or a change of that one.
fn change_of<'a>(
    at: At<'a>,
    token: &'a Token,
    workshop: &mut Workshop,
) -> Option<(At<'a>, &'a Token, Change)> {
    for number in words_before(at) {
        let earlier = At { number, ..at };
        if let Some(before) = earlier.token()
            && let Some(change) = best_word(earlier, before, at.number, workshop)
        {
            return Some((earlier, before, change));
        }
    }
    let number = at.number.saturating_sub(1);
    let earlier = At { number, ..at };
    if let Some(before) = at.back(1)
        && is_too_many(earlier, token, workshop)
    {
        return Some((earlier, before, Change::LeaveOut));
    }
    if let Some((condition, open)) = condition_before(at)
        && wants_if(condition, workshop)
    {
        return Some((condition, open, Change::Missing("IF", "IF")));
    }
    if let Some((branch, brace)) = branch_around(at)
        && wants_else(branch, at.number, workshop)
    {
        return Some((branch, brace, Change::Missing("ELSE", "ELSE")));
    }
    let change = best_change(at, token, workshop)?;
    Some((at, token, change))
}

// The brace that is open at a token, where it stands right behind another pair of braces.
fn branch_around(at: At<'_>) -> Option<(At<'_>, &Token)> {
    let number = open_brace(at.tokens, at.number)?;
    let branch = At { number, ..at };
    let brace = branch.token()?;
    branch
        .is_back(1, Symbol::CloseBrace)
        .then_some((branch, brace))
}

// The parenthesis right before a token, or the one that is closed right before its brace, where it begins a
// condition without its word.
fn condition_before(at: At<'_>) -> Option<(At<'_>, &Token)> {
    let last = at.number.checked_sub(1)?;
    let is_brace = at
        .token()
        .is_some_and(|it| is_symbol(it, Symbol::OpenBrace));
    let number = match at.tokens.get(last)?.kind {
        TokenKind::Symbol(Symbol::OpenParenthesis) => last,
        TokenKind::Symbol(Symbol::CloseParenthesis) if is_brace => {
            opening_parenthesis(at.tokens, last)?
        }
        _ => return None,
    };
    let condition = At { number, ..at };
    Some((condition, condition.token()?))
}

// Where words stand before a token that may be what is wrong: right before it on its line, or alone on the
// line before, and before the parentheses that end right before it or are open there.
fn words_before(at: At<'_>) -> impl Iterator<Item = usize> {
    let last = at.number.checked_sub(1);
    let is_alone = |number: &usize| {
        let line = at.tokens.get(*number).map(|token| token.line);
        let before = number.checked_sub(1).and_then(|it| at.tokens.get(it));
        at.first <= *number || before.map(|token| token.line) != line
    };
    let closed = last.and_then(|last| opening_parenthesis(at.tokens, last));
    let open = parenthesis_open_at(at);
    let behind = [closed, open].into_iter().flatten();
    let heads = behind.filter_map(|number| number.checked_sub(1));
    last.filter(is_alone).into_iter().chain(heads)
}

// Says what a change of a token is.
fn describe(at: At<'_>, token: &Token, change: Change, finding: &mut Finding) {
    let word = short(at.text, token).to_owned();
    match change {
        Change::Behind(sign) => say_behind(at, sign, finding),
        Change::Before(sign) => {
            let here = finding.span.map(|span| Span::before(span.start));
            let fix = here.map(|here| Fix::replace(here, format!("{sign} "), Confidence::Guess));
            finding.propose(SyntaxHelp::SignBefore { sign, word }, fix);
        }
        Change::Missing(_, wanted) => {
            finding.span = Some(Span::of(token));
            finding.say(SyntaxHelp::WantedBefore { wanted, word });
        }
        Change::Instead(meant) => {
            finding.span = Some(Span::of(token));
            let fix = finding.replacement(meant, Confidence::Guess);
            let fix = fix.filter(|_| !meant.contains(' '));
            finding.propose(SyntaxHelp::Instead { meant, word }, fix);
        }
        Change::LeaveOut => {
            finding.span = Some(Span::of(token));
            let fix = finding.replacement("", confidence_without(at));
            finding.propose(SyntaxHelp::LeftOut { word }, fix);
        }
        Change::Quoted => finding.say(SyntaxHelp::Quotes { word }),
        Change::Renamed => finding.say(SyntaxHelp::Reserved { word }),
    }
}

// Says that a sign is missing after the token before.
fn say_behind(at: At<'_>, sign: &'static str, finding: &mut Finding) {
    if let Some(before) = at.back(1) {
        finding.span = Some(Span::behind(before));
    }
    if sign == ")" && say_call(at, finding) {
        return;
    }
    match (sign, far_bracket(at), open_parenthesis(at)) {
        ("]", Some(open), _) => finding.say_at(Some(open), missing_up_to("[", "]")),
        (")", _, Some(open)) => finding.say_at(Some(open), missing_up_to("(", ")")),
        _ => finding.say_missing_here(sign, confidence_of(at, sign)),
    }
}

// Says that a `)` is missing before a comparison that stands in the parentheses of a function which
// takes a number alone, where those of a branch are not closed. Returns whether it is so.
fn say_call(at: At<'_>, finding: &mut Finding) -> bool {
    let Some((function, sign)) = compared_argument(at) else {
        return false;
    };
    let (Some(before), Some(token)) = (
        sign.checked_sub(1).and_then(|before| at.tokens.get(before)),
        at.tokens.get(sign),
    ) else {
        return false;
    };
    finding.span = Some(Span::behind(before));
    let fix = finding.replacement(")", Confidence::Guess);
    let help = SyntaxHelp::ParenthesisOfCall {
        function,
        sign: short(at.text, token).to_owned(),
    };
    finding.propose(help, fix);
    true
}

// The function before whose closing `)` something is compared, right before the token that does not
// fit, and the token of the comparison.
fn compared_argument(at: At<'_>) -> Option<(Builtin, usize)> {
    let closing = at.number.checked_sub(1)?;
    let open = opening_parenthesis(at.tokens, closing)?;
    let name = at.tokens.get(open.checked_sub(1)?)?;
    let function = Builtin::named(word_of(at.text, name))?;
    let is_comparison = |number: &usize| {
        at.tokens.get(*number).is_some_and(|token| {
            matches!(
                token.kind,
                TokenKind::Symbol(Symbol::Comparison(_) | Symbol::LogicalAnd | Symbol::LogicalOr)
            )
        })
    };
    let sign = (open..closing).find(is_comparison)?;
    Some((function, sign))
}

fn missing_up_to(opens: &'static str, closes: &'static str) -> SyntaxHelp {
    SyntaxHelp::MissingUpTo { opens, closes }
}

// A bracket that is open, if more than one token is after it, so that it may end at several.
fn far_bracket(at: At<'_>) -> Option<Span> {
    let open = open_bracket(at)?;
    (open != Span::of(at.back(2)?)).then_some(open)
}

// What is said of a token that no change mends.
fn help_of_word(at: At<'_>, token: &Token, workshop: &mut Workshop) -> Advice {
    if at.number == 0 {
        return help_of_beginning(at.text);
    }
    if at.is_ahead(Symbol::Semicolon) && wants_text(at, token, workshop) {
        return SyntaxHelp::TextBelongsHere.into();
    }
    let word = short(at.text, token);
    if let Some(slip) = slip_of_left_out(word) {
        return slip.into();
    }
    let word = word.to_owned();
    let help = match what_fits(at.number, workshop) {
        Some(fitting) => SyntaxHelp::Fits { fitting, word },
        None => SyntaxHelp::FitsNothing { word },
    };
    help.into()
}

// A token as it is written, if that is short.
fn short<'a>(text: &'a [u8], token: &Token) -> &'a str {
    let word = word_of(text, token);
    if word.len() <= MOST {
        return word;
    }
    "a long word or string"
}
