//! Abort methods that add abort methods, which lists nothing.

use crate::context::Context;
use crate::kind::MethodKind;
use crate::source::{Source, TokenIndex};
use crate::warning::Findings;
use edd_lexer::token::TokenKind;
use edd_syntax::operators::Builtin;
use edd_syntax::symbols::{Keyword, Symbol};
use std::collections::HashSet;

/// A method that adds another one.
struct Adding<'s> {
    method: &'s str,
    name: &'s str,
    at: TokenIndex,
}

/// The names in a source, by what they are there for.
#[derive(Default)]
struct Names<'s> {
    adding: Vec<Adding<'s>>,
    /// Where all others are, but at declarations.
    others: Vec<TokenIndex>,
    /// The method whose tokens are passed.
    method: &'s str,
    /// The place of an add_abort_method whose argument comes.
    adds: Option<TokenIndex>,
}

impl<'s> Names<'s> {
    fn of(source: Source<'s>) -> Names<'s> {
        let mut names = Names::default();
        let mut declares = false;
        for (at, token) in source.tokens.iter().enumerate() {
            match token.kind {
                TokenKind::Name if declares => names.method = source.word(at),
                TokenKind::Name => names.add(source, at),
                TokenKind::Symbol(Symbol::Semicolon) => names.adds = None,
                _ => {}
            }
            declares = token.kind == TokenKind::Keyword(Keyword::Method);
        }
        names
    }

    fn add(&mut self, source: Source<'s>, at: TokenIndex) {
        if let Some(adds) = self.adds.take() {
            let (method, name) = (self.method, source.word(at));
            let at = adds;
            self.adding.push(Adding { method, name, at });
        } else if source.bytes(at) == Builtin::AddAbortMethod.name().as_bytes() {
            self.adds = Some(at);
        } else {
            self.others.push(at);
        }
    }
}

/// Checks the abort methods of a description. One is surely one where a method adds it that no
/// other method adds, and nothing else names it.
pub(crate) fn check_abort_methods(context: &Context<'_>, findings: &mut Findings<'_>) {
    let source = context.source;
    let adds = Builtin::AddAbortMethod.name().as_bytes();
    let mut tokens = source.tokens.iter().enumerate();
    // Most descriptions add none.
    if !tokens.any(|(at, token)| token.kind == TokenKind::Name && source.bytes(at) == adds) {
        return;
    }
    let names = Names::of(source);
    let of_others = || names.adding.iter().filter(|one| one.name != one.method);
    let added: HashSet<_> = of_others().map(|one| one.name).collect();
    let sure: HashSet<_> = of_others()
        .filter(|one| !added.contains(one.method))
        .map(|one| one.name)
        .collect();
    let mut suspects: Vec<_> = names.adding.iter().map(|one| one.method).collect();
    suspects.retain(|method| sure.contains(method));
    if suspects.is_empty() {
        return;
    }
    let others: HashSet<_> = names.others.iter().map(|at| source.word(*at)).collect();
    for one in &names.adding {
        if sure.contains(one.method) && !others.contains(one.method) {
            let method = one.method.to_owned();
            findings.add(one.at, MethodKind::NestedAbortMethod(method));
        }
    }
}
