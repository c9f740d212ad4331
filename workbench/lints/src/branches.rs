//! Branches of a condition that are the same, and conditions that a chain of them has twice.

use crate::context::Context;
use crate::kind::ConditionKind;
use crate::places::Extent;
use crate::source::{Source, TokenIndex};
use crate::visit::{Visitor, visit_item};
use crate::warning::Findings;
use edd_lexer::token::TokenKind;
use edd_syntax::cond::Cond;
use edd_syntax::expr::Expr;
use edd_syntax::item::Item;
use edd_syntax::reference::Target;
use edd_syntax::stmt::Stmt;
use edd_syntax::symbols::Symbol;
use std::collections::{HashMap, HashSet};

/// The tokens of an extent as text, where it neither calls nor assigns.
fn written(extent: Extent, source: Source<'_>) -> Option<String> {
    let mut written = String::new();
    let mut is_after_name = false;
    for at in extent.start..extent.end {
        let kind = source.kind(at)?;
        match kind {
            TokenKind::Symbol(Symbol::OpenParenthesis) if is_after_name => return None,
            TokenKind::Symbol(
                Symbol::Equals | Symbol::CompoundAssign(_) | Symbol::Increment | Symbol::Decrement,
            ) => return None,
            _ => {}
        }
        is_after_name = kind == TokenKind::Name;
        written.push_str(source.word(at));
        written.push(' ');
    }
    Some(written)
}

/// Whether two extents have the same tokens, of which there are some.
pub(crate) fn are_alike(first: Extent, second: Extent, source: Source<'_>) -> bool {
    let (first, second) = (first.start..first.end, second.start..second.end);
    !first.is_empty()
        && first.len() == second.len()
        && first.zip(second).all(|(one, other)| {
            source.kind(one) == source.kind(other) && source.bytes(one) == source.bytes(other)
        })
}

/// The IFs of an item.
struct Branches<'c, 'd, 'f> {
    context: &'c Context<'d>,
    findings: &'f mut Findings<'d>,
    /// The IFs after an ELSE, which go on with a chain.
    continued: HashSet<TokenIndex>,
}

/// An IF of a chain with its condition.
type Link<'t> = (TokenIndex, &'t Expr<Target>);

impl Branches<'_, '_, '_> {
    fn check_chain(&mut self, chain: &[Link<'_>]) {
        if chain.len() < 2 {
            return;
        }
        let mut seen = HashMap::new();
        for (at, condition) in chain {
            let extent = self.context.places.expression(condition).extent;
            let Some(written) = written(extent, self.context.source) else {
                continue;
            };
            match seen.get(&written) {
                Some(earlier) => {
                    let kind = ConditionKind::RepeatedCondition;
                    self.findings.add_beside(*at, kind, *earlier);
                }
                None => {
                    seen.insert(written, *at);
                }
            }
        }
    }

    // The chain of an IF of attributes.
    fn chain_of<'t, V>(&mut self, first: &'t Cond<Target, V>) -> Vec<Link<'t>> {
        let mut chain = Vec::new();
        let mut here = first;
        while let Cond::If {
            condition,
            otherwise,
            ..
        } = here
        {
            let branches = self.context.places.conditional(here);
            chain.push((branches.word, condition));
            match (branches.otherwise, &**otherwise) {
                (None, [next @ Cond::If { .. }]) => here = next,
                _ => break,
            }
            self.continued
                .insert(self.context.places.conditional(here).word);
        }
        chain
    }

    // The chain of an `if` of a method, up to a branch that is no simple one.
    fn statement_chain_of<'t>(&mut self, first: &'t Stmt<Target>) -> Vec<Link<'t>> {
        let mut chain = Vec::new();
        let mut here = first;
        let mut is_simple = true;
        loop {
            let at = self.context.places.statement(here).sign;
            let (condition, branch, next) = match here {
                Stmt::If(condition, branch) => (condition, branch, None),
                Stmt::IfElse(condition, branch, next) => (condition, branch, Some(&**next)),
                _ => return chain,
            };
            is_simple = is_simple && self.branch(branch).is_some();
            if is_simple {
                chain.push((at, condition));
            }
            let Some(next) = next else {
                return chain;
            };
            here = next;
            self.continued
                .insert(self.context.places.statement(here).sign);
        }
    }

    // What is in the braces of a branch, or a simple statement without its semicolon.
    fn branch(&self, s: &Stmt<Target>) -> Option<Extent> {
        let Extent { start, end } = self.context.places.statement(s).extent;
        let end = end.saturating_sub(1);
        match s {
            Stmt::Block(_) => Some(Extent {
                start: start.saturating_add(1),
                end,
            }),
            Stmt::Evaluate(_) | Stmt::Empty => Some(Extent { start, end }),
            _ => None,
        }
    }

    fn check_branches(&mut self, at: TokenIndex, first: Option<Extent>, second: Option<Extent>) {
        if let (Some(first), Some(second)) = (first, second)
            && are_alike(first, second, self.context.source)
        {
            self.findings.add(at, ConditionKind::EqualBranches);
        }
    }
}

impl<'t> Visitor<'t> for Branches<'_, '_, '_> {
    fn conditional<V>(&mut self, conditional: &'t Cond<Target, V>) {
        if let Cond::If { .. } = conditional {
            let branches = self.context.places.conditional(conditional);
            self.check_branches(branches.word, Some(branches.first), branches.otherwise);
            if !self.continued.contains(&branches.word) {
                let chain = self.chain_of(conditional);
                self.check_chain(&chain);
            }
        }
    }

    fn statement(&mut self, s: &'t Stmt<Target>) {
        let at = self.context.places.statement(s).sign;
        if let Stmt::IfElse(_, first, otherwise) = s {
            self.check_branches(at, self.branch(first), self.branch(otherwise));
            if !self.continued.contains(&at) {
                let chain = self.statement_chain_of(s);
                self.check_chain(&chain);
            }
        }
    }
}

/// Checks the conditions of an item.
pub(crate) fn check_branches<'d>(
    item: &Item<Target>,
    context: &Context<'d>,
    findings: &mut Findings<'d>,
) {
    let mut branches = Branches {
        context,
        findings,
        continued: HashSet::new(),
    };
    visit_item(item, &mut branches);
}
