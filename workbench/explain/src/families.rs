//! The explanations, a table for each family of refusals.

mod devices;
mod edits;
mod grammar;
mod image;
mod library;
mod octets;
mod rules;
mod testing;
mod text;
mod values;

use crate::Explanation;

pub(crate) const FAMILIES: [&[Explanation]; 10] = [
    text::TABLE,
    grammar::TABLE,
    rules::TABLE,
    image::TABLE,
    values::TABLE,
    octets::TABLE,
    devices::TABLE,
    edits::TABLE,
    testing::TABLE,
    library::TABLE,
];
