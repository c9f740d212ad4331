//! The locals of a method: their slots, their names, and where they are seen.

use crate::cursor::{TokenIndex, index_of};
use crate::description::Description;
use edd_lexer::token::{Token, TokenKind};
use edd_syntax::numbers::MethNo;
use edd_syntax::reference::Target;
use edd_syntax::stmt::{Declarator, Part, Stmt};
use edd_syntax::symbols::Symbol;

/// A local, which is seen from its name up to the brace that closes its block.
#[derive(Clone, Copy, Debug)]
pub(crate) struct Local {
    pub(crate) slot: u8,
    pub(crate) name: TokenIndex,
    end: TokenIndex,
}

impl Local {
    fn is_seen_at(self, token: TokenIndex) -> bool {
        self.name < token && token < self.end
    }
}

/// The locals of a method, in the order of their declarations.
#[derive(Debug, Default)]
pub(crate) struct Locals(Vec<Local>);

impl Locals {
    pub(crate) fn find(description: &Description<'_>, method: MethNo) -> Locals {
        let (Some(body), Some(named)) = (description.body(method), description.named_body(method))
        else {
            return Locals::default();
        };
        let slots = declarators_of(body.parts).into_iter();
        let names = declarators_of(named.parts).into_iter();
        let mut locals: Vec<Local> = slots
            .zip(names)
            .filter_map(|(declared, named)| match declared.place {
                Target::Local(slot) => Some(Local {
                    slot,
                    name: index_of(named.place.at),
                    end: TokenIndex::MAX,
                }),
                Target::Item(_) | Target::Function(_) => None,
            })
            .collect();
        find_ends(description.tokens(), body.word, &mut locals);
        Locals(locals)
    }

    /// The locals that a token sees, the innermost first.
    pub(crate) fn seen_at(&self, token: TokenIndex) -> impl Iterator<Item = Local> {
        let locals = self.0.iter().rev().copied();
        locals.filter(move |local| local.is_seen_at(token))
    }
}

fn declarators_of<R>(parts: &[Part<R>]) -> Vec<&Declarator<R>> {
    let mut found = Vec::new();
    add_declarators(parts, &mut found);
    found
}

fn add_declarators<'d, R>(parts: &'d [Part<R>], found: &mut Vec<&'d Declarator<R>>) {
    for part in parts {
        match part {
            Part::Declare(declarators) => found.extend(declarators.iter()),
            Part::Statement(statement) => add_declarators_in(statement, found),
            Part::CaseLabel { .. } | Part::DefaultLabel { .. } => {}
        }
    }
}

fn add_declarators_in<'d, R>(statement: &'d Stmt<R>, found: &mut Vec<&'d Declarator<R>>) {
    match statement {
        Stmt::Block(parts) | Stmt::Switch(_, parts) => add_declarators(parts, found),
        Stmt::If(_, body) | Stmt::While(_, body) | Stmt::Do(body, _) | Stmt::For { body, .. } => {
            add_declarators_in(body, found);
        }
        Stmt::IfElse(_, first, otherwise) => {
            add_declarators_in(first, found);
            add_declarators_in(otherwise, found);
        }
        Stmt::Empty
        | Stmt::Evaluate(_)
        | Stmt::Break { .. }
        | Stmt::Continue { .. }
        | Stmt::Return => {}
    }
}

/// Finds the braces that close the blocks of locals, behind the word DEFINITION of their method.
fn find_ends(tokens: &[Token], word: TokenIndex, locals: &mut [Local]) {
    let mut not_begun = locals.iter_mut().peekable();
    // For each open brace the locals that are declared in it so far.
    let mut open: Vec<Vec<&mut Local>> = Vec::new();
    for (number, token) in tokens.iter().enumerate().skip(word) {
        match token.kind {
            TokenKind::Symbol(Symbol::OpenBrace) => open.push(Vec::new()),
            TokenKind::Symbol(Symbol::CloseBrace) => {
                for local in open.pop().unwrap_or_default() {
                    local.end = number;
                }
                if open.is_empty() {
                    return;
                }
            }
            _ => {
                let local = not_begun.next_if(|local| local.name == number);
                if let (Some(local), Some(block)) = (local, open.last_mut()) {
                    block.push(local);
                }
            }
        }
    }
}
