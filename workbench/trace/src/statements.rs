//! The effects of statements, in the order of their code.

use crate::walk::BodyWalk;
use edd_syntax::expr::Expr;
use edd_syntax::reference::Target;
use edd_syntax::stmt::{Declarator, Part, Stmt};
use edd_syntax::symbols::{Keyword, Symbol};

impl BodyWalk<'_> {
    pub(crate) fn parts(&mut self, parts: &[Part<Target>]) {
        for part in parts {
            match part {
                Part::Declare(declarators) => self.declarators(declarators),
                Part::Statement(statement) => self.statement(statement),
                Part::CaseLabel { .. } => self.label(Keyword::MethodCase),
                Part::DefaultLabel { .. } => self.label(Keyword::MethodDefault),
            }
        }
    }

    /// Passes a label: its signs belong to no expression.
    fn label(&mut self, word: Keyword) {
        self.cursor.pass_word(word);
        self.cursor.pass_sign(Symbol::Colon);
    }

    fn declarators(&mut self, declarators: &[Declarator<Target>]) {
        for value in declarators.iter().filter_map(|it| it.value.as_ref()) {
            self.cursor.pass_sign(Symbol::Equals);
            self.expression(value);
        }
    }

    fn statement(&mut self, statement: &Stmt<Target>) {
        match statement {
            Stmt::Empty | Stmt::Return | Stmt::Break { .. } | Stmt::Continue { .. } => {}
            Stmt::Evaluate(e) => self.expression(e),
            Stmt::Block(parts) => self.parts(parts),
            Stmt::If(condition, body) | Stmt::While(condition, body) => {
                self.expression(condition);
                self.statement(body);
            }
            Stmt::IfElse(condition, first, otherwise) => {
                self.expression(condition);
                self.statement(first);
                self.statement(otherwise);
            }
            Stmt::Do(body, condition) => self.do_loop(body, condition),
            Stmt::For {
                initial,
                condition,
                update,
                body,
            } => {
                self.optional_expression(initial.as_ref());
                self.for_header(condition.as_ref(), update.as_ref());
                self.statement(body);
            }
            Stmt::Switch(on, parts) => {
                self.expression(on);
                self.parts(parts);
            }
        }
    }

    /// In the code of `for` what is done after the body comes before the condition.
    fn for_header(&mut self, condition: Option<&Expr<Target>>, update: Option<&Expr<Target>>) {
        let start = self.found.len();
        self.optional_expression(condition);
        let middle = self.found.len();
        self.optional_expression(update);
        self.swap(start, middle);
    }

    /// In the code of `do` the condition comes before the body.
    fn do_loop(&mut self, body: &Stmt<Target>, condition: &Expr<Target>) {
        let start = self.found.len();
        self.statement(body);
        let middle = self.found.len();
        self.expression(condition);
        self.swap(start, middle);
    }
}
