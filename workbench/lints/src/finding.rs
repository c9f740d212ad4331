//! All warnings of a description.

use crate::abort_methods::check_abort_methods;
use crate::context::Context;
use crate::echoes::check_echoes;
use crate::entries::check_entries;
use crate::families::check_families;
use crate::instrument::Instrument;
use crate::items::{PART, check_items, parts_of};
use crate::levels::Levels;
use crate::limits::check_circular;
use crate::lockouts::check_lockouts;
use crate::menus::check_menus;
use crate::parallel::Threads;
use crate::places::Places;
use crate::remarks::Remarks;
use crate::source::{Source, TokenIndex};
use crate::texts::{check_comments, check_texts};
use crate::traffic::check_carried;
use crate::unused::check_uses;
use crate::usage::Usage;
use crate::warning::{Findings, Warning};
use core_std::alloc::Global;
use edd_lexer::token::Token;
use edd_syntax::checked::Checked;
use edd_syntax::numbers::Element;

fn elements_of(description: &Checked) -> Vec<Element> {
    // Memory is refused as everywhere in ordinary Rust: the allocation itself ends the program.
    let elements = description.elements(Global);
    elements.map_or_else(|_| Vec::new(), core_std::vec::Vec::into_real)
}

/// What is checked of a description as a whole.
const WHOLE: [fn(&Context<'_>, &mut Findings<'_>); 11] = [
    check_texts,
    check_comments,
    check_echoes,
    check_lockouts,
    check_families,
    check_carried,
    check_circular,
    check_menus,
    check_entries,
    check_uses,
    check_abort_methods,
];

/// Checks a description in parts of so many tokens. The findings come as if one part was checked
/// behind the other.
fn check_all<'d>(context: &Context<'d>, length: TokenIndex, threads: Threads) -> Findings<'d> {
    let parts = parts_of(&context.instrument, length);
    let count = parts.len().saturating_add(WHOLE.len());
    let mut made = threads.make_parts(count, |number| {
        let mut findings = Findings::new(context.source);
        if let Some(check) = WHOLE.get(number) {
            check(context, &mut findings);
        } else if let Some(part) = parts.get(number.saturating_sub(WHOLE.len())) {
            check_items(part, context, &mut findings);
        }
        findings
    });
    // Some checks of the whole take longer than those of any part, and so were begun first.
    made.rotate_left(WHOLE.len());
    Findings::joined(context.source, made)
}

fn find_in_parts(
    source: Source<'_>,
    description: &Checked,
    levels: &Levels,
    length: TokenIndex,
    threads: Threads,
) -> Vec<Warning> {
    let items = &**description.items;
    let elements = elements_of(description);
    let known = || (Instrument::of(items, &elements), Usage::of(items));
    let (places, (instrument, usage)) = threads.make_both(|| Places::of(source, items), known);
    let context = Context::new(source, places, instrument, usage);
    let mut findings = check_all(&context, length, threads);
    let remarks = Remarks::of(source);
    remarks.check_names(&mut findings);
    findings.into_warnings(levels, &remarks)
}

/// Finds what a description says and almost certainly does not mean, by its lines, and on one line
/// in the order of the lints. `text` and `tokens` are those that it was made of.
pub fn find(text: &[u8], tokens: &[Token], description: &Checked, levels: &Levels) -> Vec<Warning> {
    let source = Source { text, tokens };
    let threads = Threads::for_tokens(tokens.len());
    find_in_parts(source, description, levels, PART, threads)
}

#[cfg(test)]
mod tests;
