//! The player of the tables of tests. `tables/` has the tables; their answers were worked out by hand.
#![forbid(unsafe_code)]
#![cfg_attr(
    not(test),
    deny(
        clippy::arithmetic_side_effects,
        clippy::as_conversions,
        clippy::expect_used,
        clippy::indexing_slicing,
        clippy::panic,
        clippy::unwrap_used
    )
)]

pub mod calls;
mod editor;
pub mod error;
pub mod folder;
pub mod images;
pub mod options;
pub mod pages;
pub mod parallel;
pub mod playing;
pub mod program;
pub mod rows;
pub mod score;
pub mod table;
