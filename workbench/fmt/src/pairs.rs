//! Which braces, parentheses and brackets belong together.

use edd_lexer::token::{Token, TokenKind};
use edd_syntax::symbols::Symbol;

/// Finds for each brace, parenthesis and bracket the number of its partner. A brace that is never
/// closed is paired with the end, the count of all tokens.
pub(crate) fn find_partners(tokens: &[Token]) -> Vec<Option<usize>> {
    let mut pairs = Pairs {
        partners: vec![None; tokens.len()],
        open: Vec::new(),
        open_braces: 0,
    };
    for (number, token) in tokens.iter().enumerate() {
        if let TokenKind::Symbol(symbol) = token.kind {
            pairs.read_symbol(symbol, number);
        }
    }
    pairs.end_braces(tokens.len());
    pairs.partners
}

struct Pairs {
    partners: Vec<Option<usize>>,
    /// What is open, with the number of its token.
    open: Vec<(Symbol, usize)>,
    open_braces: usize,
}

impl Pairs {
    fn read_symbol(&mut self, symbol: Symbol, number: usize) {
        match symbol {
            Symbol::OpenBrace => {
                self.open_braces = self.open_braces.saturating_add(1);
                self.open.push((symbol, number));
            }
            Symbol::OpenParenthesis | Symbol::OpenBracket => self.open.push((symbol, number)),
            Symbol::CloseBrace => self.close_brace(number),
            Symbol::CloseParenthesis => self.close(Symbol::OpenParenthesis, number),
            Symbol::CloseBracket => self.close(Symbol::OpenBracket, number),
            _ => {}
        }
    }

    /// Closes the innermost brace. Parentheses and brackets that are still open in it have no partner.
    fn close_brace(&mut self, number: usize) {
        if self.open_braces == 0 {
            return;
        }
        while let Some((symbol, open)) = self.open.pop() {
            if symbol == Symbol::OpenBrace {
                self.open_braces = self.open_braces.saturating_sub(1);
                self.join(open, number);
                return;
            }
        }
    }

    /// Closes a parenthesis or a bracket, where it is the innermost one that is open.
    fn close(&mut self, opener: Symbol, number: usize) {
        if let Some((_, open)) = self.open.pop_if(|(symbol, _)| *symbol == opener) {
            self.join(open, number);
        }
    }

    fn end_braces(&mut self, end: usize) {
        for (symbol, open) in std::mem::take(&mut self.open) {
            if symbol == Symbol::OpenBrace {
                self.set_partner(open, end);
            }
        }
    }

    fn join(&mut self, open: usize, close: usize) {
        self.set_partner(open, close);
        self.set_partner(close, open);
    }

    fn set_partner(&mut self, number: usize, partner: usize) {
        if let Some(place) = self.partners.get_mut(number) {
            *place = Some(partner);
        }
    }
}
