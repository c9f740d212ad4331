//! What is shown, as far as keys are about it.
use std::prelude::v1::*;

/// What the keys are for.
#[derive(Clone, Copy, PartialEq, Eq)]
pub enum Stage {
    /// An entry is opened.
    Menu,
    /// A variable that is open gets a value.
    Variable,
    /// A method that asks gets an answer.
    Question,
    /// A method that still runs goes on.
    Pause,
    /// A text is read.
    Page,
}

/// What a line offers.
#[derive(Clone, Copy)]
pub struct Offer {
    /// The number of an entry or of a choice, or a value.
    pub number: i64,
    /// What the line is about, which is kept where its place and its number change.
    pub about: i64,
}

/// What is shown, with what each line offers, if it offers something.
#[derive(Clone, Copy)]
pub struct Shown<'a> {
    pub stage: Stage,
    pub offers: &'a [Option<Offer>],
    /// The number that is selected at first; the first one without it.
    pub begins: Option<i64>,
    /// Where each number stands for bits of a value, the value.
    pub bits: Option<i64>,
}
