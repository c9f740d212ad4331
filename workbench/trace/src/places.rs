//! The places in the code of a method, and the tokens that they come from.
//!
//! The code has its effects in the order in which the lowering goes through the tree. A walk in the same
//! order, which passes the tokens of the source, gives a token for each of them. Where both lists differ
//! nothing is known.

use crate::cursor::TokenCursor;
use crate::description::{Body, Description};
use crate::effect::Effect;
use crate::walk::{BodyWalk, MarkedEffect};
use edd_instructions::{Instruction, decode};
use edd_loader::Image;
use edd_machine::{code_of, find_body};
use edd_syntax::numbers::MethNo;
use edd_syntax::reference::Target;
use std::iter;
use std::mem;

/// What is known of the code of a method, by the places of its instructions.
#[derive(Debug, Default)]
pub(crate) struct MethodPlaces {
    by_place: Vec<Option<MarkedEffect>>,
}

impl MethodPlaces {
    pub(crate) fn find(
        description: &Description<'_>,
        image: &Image<'_>,
        method: MethNo,
    ) -> MethodPlaces {
        let (Some(body), Some(unit)) = (description.body(method), find_body(image, method)) else {
            return MethodPlaces::default();
        };
        let code = code_of(image.bytes(), unit);
        let marked = effects_in_body(description, &body);
        let placed = effects_in_code(code);
        let mut by_place = vec![None; code.len()];
        if are_alike(&marked, &placed) {
            for (marked, (place, _)) in marked.into_iter().zip(placed) {
                if let Some(known) = by_place.get_mut(place) {
                    *known = Some(marked);
                }
            }
        }
        MethodPlaces { by_place }
    }

    /// What is known of the instruction at a place.
    pub(crate) fn at(&self, place: usize) -> Option<MarkedEffect> {
        self.by_place.get(place).copied().flatten()
    }
}

fn effects_in_body(description: &Description<'_>, body: &Body<'_, Target>) -> Vec<MarkedEffect> {
    let mut walk = BodyWalk::new(TokenCursor::behind(description.tokens(), body.word));
    walk.parts(body.parts);
    walk.found
}

/// The instructions of a unit, each with its place.
fn instructions_of(code: &[u8]) -> impl Iterator<Item = (usize, Instruction)> {
    let mut next_place = 0;
    iter::from_fn(move || {
        let (instruction, next) = decode(code, next_place)?;
        Some((mem::replace(&mut next_place, next), instruction))
    })
}

fn effects_in_code(code: &[u8]) -> Vec<(usize, Effect)> {
    instructions_of(code)
        .filter_map(|(place, instruction)| Some((place, Effect::of_instruction(instruction)?)))
        .collect()
}

fn are_alike(marked: &[MarkedEffect], placed: &[(usize, Effect)]) -> bool {
    let of_body = marked.iter().map(|marked| marked.effect);
    of_body.eq(placed.iter().map(|(_, effect)| *effect))
}
