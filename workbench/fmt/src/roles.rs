//! What each token does where it stands, as far as blanks depend on it.

use crate::tokens::Tokens;
use edd_lexer::token::TokenKind;
use edd_syntax::operators::{Comparison, Operator};
use edd_syntax::symbols::{Keyword, Symbol};

#[derive(Clone, Copy, Debug, PartialEq, Eq)]
pub(crate) enum Role {
    Keyword,
    Name,
    Number,
    String,
    OpenBrace,
    CloseBrace,
    /// A parenthesis or a bracket that stands apart from the word before it.
    Open,
    /// The parenthesis of a call, or the bracket of an index.
    OpenAfterName,
    Close,
    /// The parenthesis behind a condition, or behind the parts of a `for`.
    CloseHeader,
    /// A semicolon or a comma.
    Separator,
    Dot,
    LabelColon,
    /// An operator before its operand.
    Prefix,
    /// `++` or `--` behind its operand.
    Postfix,
    /// An operator between two operands.
    Infix,
    /// The sign before a mask.
    OpenMask,
    /// The sign behind a mask.
    CloseMask,
}

impl Role {
    fn ends_operand(self) -> bool {
        matches!(
            self,
            Role::Name | Role::Number | Role::String | Role::Close | Role::Postfix
        )
    }
}

/// What is known between two braces, parentheses or brackets, or outside of all.
#[derive(Clone, Copy, Default)]
struct Context {
    /// The number of the token that closes them.
    close: Option<usize>,
    is_body: bool,
    has_masks: bool,
    /// A label has begun, and its colon has not come.
    in_label: bool,
}

/// Reads the roles of the tokens one after another.
pub(crate) struct RoleReader<'t, 'a> {
    tokens: &'t Tokens<'a>,
    previous: Option<Role>,
    context: Context,
    /// The contexts around.
    around: Vec<Context>,
}

impl<'t, 'a> RoleReader<'t, 'a> {
    pub(crate) fn new(tokens: &'t Tokens<'a>) -> RoleReader<'t, 'a> {
        RoleReader {
            tokens,
            previous: None,
            context: Context::default(),
            around: Vec::new(),
        }
    }

    /// Reads the next token, which has this number.
    pub(crate) fn read(&mut self, number: usize, kind: TokenKind) -> Role {
        if self.context.close == Some(number) {
            self.context = self.around.pop().unwrap_or_default();
        }
        let role = self.role_of(number, kind);
        self.previous = Some(role);
        match kind {
            TokenKind::Keyword(
                Keyword::Case | Keyword::Default | Keyword::MethodCase | Keyword::MethodDefault,
            ) => self.context.in_label = true,
            TokenKind::Symbol(Symbol::Colon) => self.context.in_label = false,
            _ => {}
        }
        if let Some(close) = self.tokens.partner(number).filter(|it| *it > number) {
            self.enter(number, close);
        }
        role
    }

    fn role_of(&self, number: usize, kind: TokenKind) -> Role {
        match kind {
            TokenKind::Keyword(_) => Role::Keyword,
            TokenKind::Name => Role::Name,
            TokenKind::Integer(_) | TokenKind::Decimal => Role::Number,
            TokenKind::String => Role::String,
            TokenKind::Symbol(symbol) => self.role_of_symbol(number, symbol),
        }
    }

    fn role_of_symbol(&self, number: usize, symbol: Symbol) -> Role {
        match symbol {
            Symbol::OpenBrace => Role::OpenBrace,
            Symbol::CloseBrace => Role::CloseBrace,
            Symbol::OpenParenthesis if self.context.is_body => self.role_of_opener(),
            Symbol::OpenParenthesis => Role::Open,
            Symbol::OpenBracket => self.role_of_opener(),
            Symbol::CloseParenthesis if self.tokens.header_keyword(number).is_some() => {
                Role::CloseHeader
            }
            Symbol::CloseParenthesis | Symbol::CloseBracket => Role::Close,
            Symbol::Semicolon | Symbol::Comma => Role::Separator,
            Symbol::Dot => Role::Dot,
            _ => self.role_of_operator(symbol),
        }
    }

    /// The role of what begins a call or an index, where a name is before it.
    fn role_of_opener(&self) -> Role {
        match self.previous {
            Some(Role::Name) => Role::OpenAfterName,
            _ => Role::Open,
        }
    }

    /// The role of a sign that may be between two operands or before one.
    fn role_of_operator(&self, symbol: Symbol) -> Role {
        let is_behind_operand = self.previous.is_some_and(Role::ends_operand);
        match symbol {
            Symbol::Exclamation | Symbol::Tilde => Role::Prefix,
            Symbol::Increment | Symbol::Decrement if is_behind_operand => Role::Postfix,
            Symbol::Increment | Symbol::Decrement => Role::Prefix,
            Symbol::Operator(Operator::Add | Operator::Subtract) if !is_behind_operand => {
                Role::Prefix
            }
            Symbol::Comparison(Comparison::Less) if self.context.has_masks => Role::OpenMask,
            Symbol::Comparison(Comparison::Greater) if self.context.has_masks => Role::CloseMask,
            Symbol::Colon if self.context.in_label => Role::LabelColon,
            _ => Role::Infix,
        }
    }

    /// Begins what is between two tokens.
    fn enter(&mut self, open: usize, close: usize) {
        let is_brace = self.tokens.symbol(open) == Some(Symbol::OpenBrace);
        let word = self.tokens.keyword_before(open);
        let is_data = matches!(word, Some(Keyword::Request | Keyword::Reply));
        let around = self.context;
        self.around.push(around);
        self.context = Context {
            close: Some(close),
            is_body: around.is_body || (is_brace && word == Some(Keyword::Definition)),
            has_masks: is_brace && (around.has_masks || is_data),
            in_label: false,
        };
    }
}
