//! `edd explain`: what refusals mean and what lints find.

use crate::command_line::Explain;
use crate::failure::Failure;
use edd_check::{LINTS, Level, Lint};
use edd_explain::{Explanation, all, by_name, by_number};
use std::io::Write;

/// Prints what a refusal means, or what a lint finds; without a word all there are, or the lints alone.
pub(crate) fn run(args: &Explain, out: &mut impl Write) -> Result<(), Failure> {
    let Some(what) = &args.what else {
        return list(args.lints, out);
    };
    let number = what.parse::<u32>();
    let explanation = match number {
        Ok(number) => by_number(number),
        Err(_) => by_name(what),
    };
    if let Some(explanation) = explanation {
        let Explanation { number, name, .. } = explanation;
        writeln!(out, "{number} {name}\n\n{explanation}")?;
        return Ok(());
    }
    if let Some(lint) = Lint::from_name(&what.to_lowercase()) {
        return print_lint_whole(lint, out);
    }
    Err(match number {
        Ok(_) => Failure::NoNumber(what.clone()),
        Err(_) => Failure::NoName(what.clone()),
    })
}

fn list(is_of_lints: bool, out: &mut impl Write) -> Result<(), Failure> {
    if !is_of_lints {
        for Explanation { number, name, .. } in all() {
            writeln!(out, "{number} {name}")?;
        }
    }
    LINTS.into_iter().try_for_each(|lint| print_lint(lint, out))
}

/// Prints a lint with an example, and with one near it.
fn print_lint_whole(lint: Lint, out: &mut impl Write) -> Result<(), Failure> {
    print_lint(lint, out)?;
    print_items("With a warning:", lint.example(), out)?;
    print_items("Without one:", lint.counterexample(), out)
}

fn print_items(heading: &str, items: &str, out: &mut impl Write) -> Result<(), Failure> {
    writeln!(out, "\n{heading}\n")?;
    for line in items.lines() {
        writeln!(out, "    {line}")?;
    }
    Ok(())
}

fn print_lint(lint: Lint, out: &mut impl Write) -> Result<(), Failure> {
    let level = match lint.level() {
        Level::Allow => " (off unless denied)",
        Level::Warn | Level::Deny => "",
    };
    writeln!(out, "{}: {}{level}", lint.name(), lint.summary())?;
    Ok(())
}
