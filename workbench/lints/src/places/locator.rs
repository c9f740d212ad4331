//! The walk over trees and tokens that finds where each node is.

use super::{Branches, Extent, Place, Places, addresses};
use crate::source::{Source, TokenIndex, index};
use edd_lexer::token::TokenKind;
use edd_syntax::cond::{Arm, Cond};
use edd_syntax::expr::{Argument, Expr};
use edd_syntax::item::{
    Attribute, DataItem, Enumerator, Item, MenuEntry, TransactionPart, TypePart,
};
use edd_syntax::operators::IncrementOperator;
use edd_syntax::reference::Target;
use edd_syntax::stmt::{Part, Stmt};
use edd_syntax::symbols::{Keyword, Symbol};
use edd_syntax::text::Text;
use edd_syntax::types::Handling;

/// A walk over the trees of a description, which follows their tokens.
pub(super) struct Locator<'s> {
    source: Source<'s>,
    /// For each token that opens a bracket the one that closes it.
    closing: Vec<TokenIndex>,
    next: TokenIndex,
    pub(super) places: Places,
}

/// A value of a conditional. Most need no place.
trait Placed {
    fn place(&self, _locator: &mut Locator<'_>) {}
}

impl Placed for Text {}
impl Placed for Handling {}
impl Placed for bool {}
impl Placed for Enumerator {}
impl Placed for DataItem<Target> {}

impl Placed for Expr<Target> {
    fn place(&self, locator: &mut Locator<'_>) {
        locator.expression(self);
    }
}

impl Placed for MenuEntry<Target> {
    fn place(&self, locator: &mut Locator<'_>) {
        locator.entry(self);
    }
}

fn closing_of(source: Source<'_>) -> Vec<TokenIndex> {
    let mut closing = vec![0; source.tokens.len()];
    let mut open = Vec::new();
    for (number, token) in source.tokens.iter().enumerate() {
        match token.kind {
            TokenKind::Symbol(
                Symbol::OpenBrace | Symbol::OpenParenthesis | Symbol::OpenBracket,
            ) => {
                open.push(number);
            }
            TokenKind::Symbol(
                Symbol::CloseBrace | Symbol::CloseParenthesis | Symbol::CloseBracket,
            ) => {
                if let Some(place) = open.pop().and_then(|first: usize| closing.get_mut(first)) {
                    *place = number;
                }
            }
            _ => {}
        }
    }
    closing
}

impl<'s> Locator<'s> {
    pub(super) fn new(source: Source<'s>) -> Locator<'s> {
        Locator {
            source,
            closing: closing_of(source),
            next: 0,
            places: Places::with_room(source.tokens.len()),
        }
    }

    fn take(&mut self) -> TokenIndex {
        let taken = self.next;
        self.next = taken.saturating_add(1);
        taken
    }

    fn is_at(&self, kind: TokenKind) -> bool {
        self.source.kind(self.next) == Some(kind)
    }

    fn is_at_sign(&self, sign: Symbol) -> bool {
        self.is_at(TokenKind::Symbol(sign))
    }

    fn go_behind(&mut self, token: TokenIndex) {
        self.next = token.saturating_add(1);
    }

    fn close_of(&self, open: TokenIndex) -> TokenIndex {
        self.closing.get(open).copied().unwrap_or(open)
    }

    // Goes to the next token of a kind, which there is.
    fn seek(&mut self, kind: TokenKind) {
        let mut rest = self.source.tokens.iter().skip(self.next);
        if let Some(distance) = rest.position(|token| token.kind == kind) {
            self.next = self.next.saturating_add(distance);
        }
    }

    pub(super) fn item(&mut self, item: &Item<Target>) {
        for attribute in &item.attributes {
            self.go_behind(index(attribute.at()));
            self.attribute(attribute);
        }
    }

    fn attribute(&mut self, attribute: &Attribute<Target>) {
        match attribute {
            Attribute::OneText(_, _, text) => self.conditional(text),
            Attribute::Handling(_, handling) => self.conditional(handling),
            Attribute::Validity(_, validity) => self.conditional(validity),
            Attribute::TypeOf { parts, .. } => {
                for part in parts {
                    self.type_part(part);
                }
            }
            Attribute::Transaction { parts, .. } => {
                for part in parts {
                    let (TransactionPart::Request(at, items) | TransactionPart::Reply(at, items)) =
                        part;
                    self.go_behind(index(*at));
                    self.conditionals(items);
                }
            }
            Attribute::Items(_, entries) => {
                self.take();
                self.conditionals(entries);
            }
            Attribute::Definition(_, parts) => self.block(parts),
            Attribute::Class(..)
            | Attribute::Number(..)
            | Attribute::Operation(..)
            | Attribute::ResponseCodes(..)
            | Attribute::Members(..)
            | Attribute::Elements(..) => {}
        }
    }

    fn type_part(&mut self, part: &TypePart<Target>) {
        match part {
            TypePart::OneNumber { at, value, .. } => {
                self.go_behind(index(*at));
                self.conditional(value);
            }
            TypePart::OneFormat { at, format, .. } => {
                self.go_behind(index(*at));
                self.conditional(format);
            }
            TypePart::Element(element) => self.conditional(element),
        }
    }

    fn conditionals<V: Placed>(&mut self, all: &[Cond<Target, V>]) {
        for conditional in all {
            self.conditional(conditional);
        }
    }

    fn conditional<V: Placed>(&mut self, conditional: &Cond<Target, V>) {
        let branches = match conditional {
            Cond::Value(value) => return value.place(self),
            Cond::If {
                condition,
                first,
                otherwise,
            } => self.if_branches(condition, first, otherwise),
            Cond::Select { on, arms } => self.select(on, arms),
        };
        let address = addresses::of(conditional);
        self.places.conditionals.insert_at(address, branches);
    }

    fn if_branches<V: Placed>(
        &mut self,
        condition: &Expr<Target>,
        first: &[Cond<Target, V>],
        otherwise: &[Cond<Target, V>],
    ) -> Branches {
        self.seek(TokenKind::Keyword(Keyword::If));
        let word = self.take();
        self.test(condition);
        let first = self.branch(first);
        let mut branches = Branches {
            word,
            first,
            otherwise: None,
        };
        if self.is_at(TokenKind::Keyword(Keyword::Else)) {
            self.take();
            if self.is_at_sign(Symbol::OpenBrace) {
                branches.otherwise = Some(self.branch(otherwise));
            } else {
                self.conditionals(otherwise);
            }
        }
        branches
    }

    fn branch<V: Placed>(&mut self, all: &[Cond<Target, V>]) -> Extent {
        let open = self.take();
        let extent = Extent {
            start: self.next,
            end: self.close_of(open),
        };
        self.conditionals(all);
        self.go_behind(extent.end);
        extent
    }

    fn select<V: Placed>(&mut self, on: &Expr<Target>, arms: &[Arm<Target, V>]) -> Branches {
        self.seek(TokenKind::Keyword(Keyword::Select));
        let word = self.take();
        self.test(on);
        let close = self.close_of(self.next);
        for arm in arms {
            let (kind, body) = match arm {
                Arm::Case { body, .. } => (Keyword::Case, body),
                Arm::Default { body, .. } => (Keyword::Default, body),
            };
            self.seek(TokenKind::Keyword(kind));
            let at = self.next;
            self.places.arms.insert_at(addresses::of(arm), at);
            self.seek(TokenKind::Symbol(Symbol::Colon));
            self.take();
            self.conditionals(body);
        }
        self.go_behind(close);
        Branches {
            word,
            ..Branches::default()
        }
    }

    fn entry(&mut self, entry: &MenuEntry<Target>) {
        while self.is_at_sign(Symbol::Comma) {
            self.take();
        }
        self.places.entries.insert(entry, self.next);
        match entry {
            MenuEntry::Text(_) => self.text(),
            MenuEntry::Reference { .. } => {
                self.path();
                if self.is_at_sign(Symbol::OpenParenthesis) {
                    self.go_behind(self.close_of(self.next));
                }
            }
        }
    }

    // A condition in its parentheses.
    fn test(&mut self, e: &Expr<Target>) {
        self.take();
        self.expression(e);
        self.take();
    }

    fn path(&mut self) -> TokenIndex {
        let start = self.take();
        while self.is_at_sign(Symbol::Dot) {
            self.take();
            self.take();
        }
        start
    }

    fn text(&mut self) {
        if self.is_at_sign(Symbol::OpenBracket) {
            return self.go_behind(self.close_of(self.next));
        }
        while self.is_at(TokenKind::String) {
            self.take();
        }
    }

    fn expression(&mut self, e: &Expr<Target>) {
        let start = self.next;
        let sign = self.parts_of(e);
        let extent = Extent {
            start,
            end: self.next,
        };
        self.places.expressions.insert(e, Place { extent, sign });
    }

    // Passes an expression, and returns the token that stands for it.
    fn parts_of(&mut self, e: &Expr<Target>) -> TokenIndex {
        match e {
            Expr::Literal(_) | Expr::Decimal { .. } => self.take(),
            Expr::Reference(_) => self.path(),
            Expr::Indexed(_, index) => {
                self.path();
                self.bracketed(index)
            }
            Expr::Parentheses(inner) => self.bracketed(inner),
            Expr::Unary(_, inner) => {
                let sign = self.take();
                self.expression(inner);
                sign
            }
            Expr::Binary(_, first, second)
            | Expr::Compare(_, first, second)
            | Expr::LogicalAnd(first, second)
            | Expr::LogicalOr(first, second) => {
                self.expression(first);
                let sign = self.take();
                self.expression(second);
                sign
            }
            Expr::Conditional(test, first, second) => {
                self.expression(test);
                let sign = self.take();
                self.expression(first);
                self.take();
                self.expression(second);
                sign
            }
            Expr::Assign(_, value) | Expr::CompoundAssign(_, _, value) => {
                self.path();
                let sign = self.take();
                self.expression(value);
                sign
            }
            Expr::Increment(operator, _) => match operator {
                IncrementOperator::PreIncrement | IncrementOperator::PreDecrement => {
                    let sign = self.take();
                    self.path();
                    sign
                }
                IncrementOperator::PostIncrement | IncrementOperator::PostDecrement => {
                    self.path();
                    self.take()
                }
            },
            Expr::Call { arguments, .. } => self.call(arguments),
        }
    }

    fn bracketed(&mut self, inner: &Expr<Target>) -> TokenIndex {
        let open = self.take();
        self.expression(inner);
        self.take();
        open
    }

    fn call(&mut self, arguments: &[Argument<Target>]) -> TokenIndex {
        let name = self.take();
        self.take();
        for (number, argument) in arguments.iter().enumerate() {
            if number != 0 {
                self.take();
            }
            match argument {
                Argument::Text(_) => self.text(),
                Argument::Value(e) => self.expression(e),
            }
        }
        self.take();
        name
    }

    fn block(&mut self, parts: &[Part<Target>]) {
        self.take();
        for part in parts {
            self.part(part);
        }
        self.take();
    }

    fn part(&mut self, part: &Part<Target>) {
        match part {
            Part::Declare(declarators) => {
                for declarator in declarators {
                    self.take();
                    let name = self.take();
                    self.places.declarators.insert(declarator, name);
                    if let Some(value) = &declarator.value {
                        self.take();
                        self.expression(value);
                    }
                }
                self.take();
            }
            Part::Statement(s) => self.statement(s),
            Part::CaseLabel { .. } | Part::DefaultLabel { .. } => {
                self.seek(TokenKind::Symbol(Symbol::Colon));
                self.take();
            }
        }
    }

    fn for_loop(&mut self, head: [&Option<Expr<Target>>; 3], body: &Stmt<Target>) {
        self.take();
        for e in head {
            self.take();
            if let Some(e) = e {
                self.expression(e);
            }
        }
        self.take();
        self.statement(body);
    }

    fn statement(&mut self, s: &Stmt<Target>) {
        let start = self.next;
        match s {
            Stmt::Empty | Stmt::Break { .. } | Stmt::Continue { .. } | Stmt::Return => {
                if !matches!(s, Stmt::Empty) {
                    self.take();
                }
                self.take();
            }
            Stmt::Evaluate(e) => {
                self.expression(e);
                self.take();
            }
            Stmt::Block(parts) => self.block(parts),
            Stmt::If(condition, first) | Stmt::While(condition, first) => {
                self.take();
                self.test(condition);
                self.statement(first);
            }
            Stmt::IfElse(condition, first, otherwise) => {
                self.take();
                self.test(condition);
                self.statement(first);
                self.take();
                self.statement(otherwise);
            }
            Stmt::Do(body, condition) => {
                self.take();
                self.statement(body);
                self.take();
                self.test(condition);
                self.take();
            }
            Stmt::For {
                initial,
                condition,
                update,
                body,
            } => self.for_loop([initial, condition, update], body),
            Stmt::Switch(on, parts) => {
                self.take();
                self.test(on);
                self.block(parts);
            }
        }
        let extent = Extent {
            start,
            end: self.next,
        };
        let place = Place {
            extent,
            sign: start,
        };
        self.places.statements.insert(s, place);
    }
}
