//! Commands: numbers that are there twice, and what their messages carry.

use crate::context::Context;
use crate::kind::CommandKind;
use crate::messages::check_messages;
use crate::repeats::{Numbered, Numbers};
use crate::source::{TokenIndex, index};
use crate::unshared::check_unshared;
use crate::warning::Findings;
use edd_lexer::token::TokenKind;
use edd_syntax::item::{Attribute, Item, ResponseCode};
use edd_syntax::reference::Target;

/// The tokens of the numbers of response codes, behind the word.
pub(crate) fn code_places(
    word: TokenIndex,
    codes: &[ResponseCode],
    context: &Context<'_>,
) -> Vec<TokenIndex> {
    let rest = context.source.tokens.iter().enumerate().skip(word);
    let numbers = rest.filter(|(_, token)| matches!(token.kind, TokenKind::Integer(_)));
    numbers.map(|(at, _)| at).take(codes.len()).collect()
}

fn check_codes(
    word: TokenIndex,
    codes: &[ResponseCode],
    context: &Context<'_>,
    findings: &mut Findings<'_>,
) {
    let mut list = Numbers::new(Numbered::ResponseCode);
    for (code, at) in codes.iter().zip(code_places(word, codes, context)) {
        list.add(i64::from(code.number), at, findings);
    }
}

// A number that an earlier command has.
fn check_number(number: u32, at: TokenIndex, context: &Context<'_>, findings: &mut Findings<'_>) {
    let first = context.instrument.first_command(number);
    if let Some(earlier) = first.filter(|first| *first != at) {
        let kind = CommandKind::RepeatedCommand(i64::from(number));
        findings.add_beside(at, kind, earlier);
    }
}

/// Checks the numbers of a command and what its messages carry.
pub(crate) fn check_command(
    command: &Item<Target>,
    context: &Context<'_>,
    findings: &mut Findings<'_>,
) {
    let mut transactions = Numbers::new(Numbered::Transaction);
    for attribute in &command.attributes {
        let at = index(attribute.at());
        match attribute {
            Attribute::Number(_, number) => check_number(*number, at, context, findings),
            Attribute::Transaction { number, parts, .. } => {
                check_messages(parts, context, findings);
                check_unshared(parts, context, findings);
                if let Some(number) = number {
                    transactions.add(i64::from(*number), at, findings);
                }
            }
            Attribute::ResponseCodes(_, codes) => check_codes(at, codes, context, findings),
            _ => {}
        }
    }
}
