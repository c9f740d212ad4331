//! A walk over the body of a method, and the effects that it finds.

use crate::cursor::{TokenCursor, TokenIndex};
use crate::effect::Effect;

/// An effect, and the token that brings it about.
#[derive(Clone, Copy, Debug)]
pub(crate) struct MarkedEffect {
    pub(crate) effect: Effect,
    pub(crate) token: TokenIndex,
}

/// A walk in the order of the code, which passes the tokens of the source at the same time.
#[derive(Debug)]
pub(crate) struct BodyWalk<'t> {
    pub(crate) cursor: TokenCursor<'t>,
    pub(crate) found: Vec<MarkedEffect>,
}

impl<'t> BodyWalk<'t> {
    pub(crate) fn new(cursor: TokenCursor<'t>) -> BodyWalk<'t> {
        BodyWalk {
            cursor,
            found: Vec::new(),
        }
    }

    /// Notes an effect, if there is one.
    pub(crate) fn note(&mut self, effect: Option<Effect>, token: TokenIndex) {
        let marked = effect.map(|effect| MarkedEffect { effect, token });
        self.found.extend(marked);
    }

    /// Puts the effects from `middle` on before those from `start` on: in the code they come first.
    pub(crate) fn swap(&mut self, start: usize, middle: usize) {
        if let Some(part) = self.found.get_mut(start..) {
            let first = middle.saturating_sub(start).min(part.len());
            part.rotate_left(first);
        }
    }
}
