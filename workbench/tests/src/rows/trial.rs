//! Runs of a row as it is, and with one call failing.

use super::fault::Fault;
use super::memory::{Call, Calls, Failing};
use super::row::{INPUT, Row};
use super::run::Run;

/// More calls of one kind than a row makes.
const MOST_CALLS: u32 = 1_000_000;

/// The commands that refuse a source as `check` does.
const REFUSING: [&str; 3] = ["compile", "view", "try"];

/// The status where a file or the output fails.
const FILE: u8 = 3;

/// Runs the row with all calls passing. Gives what it prints, which is its lines, but for those of the library
/// that reads command lines where that is of another version.
pub fn run_as_it_is(row: &Row<'_>) -> Result<Run, Fault> {
    let run = Run::in_memory(row.command, &row.files, &Calls::passing());
    if is_as_written(row, &run) {
        Ok(run)
    } else {
        Err(differs(row, run))
    }
}

/// Runs the row again for each call of this kind that it makes, with that one failing: then it ends with status 3
/// after a beginning of its lines, and makes no other call of the kind, unless it is one of `check`. Gives how many
/// calls failed.
pub fn run_failing(row: &Row<'_>, whole: &Run, call: Call) -> Result<u32, Fault> {
    for number in 0..MOST_CALLS {
        let calls = Calls::failing(call, number);
        let printed = Run::in_memory(row.command, &row.files, &calls);
        match calls.state() {
            Failing::After(_) if printed == *whole => return Ok(number),
            Failing::After(_) => {
                return Err(Fault::Differs {
                    wanted: whole.clone(),
                    printed,
                });
            }
            Failing::WentOn | Failing::Failed
                if goes_on(row, call) && reports_file(row, &printed) => {}
            Failing::WentOn => {
                return Err(Fault::WentOn {
                    call,
                    number,
                    printed,
                });
            }
            Failing::Failed if stops_rightly(row, whole, call, &printed) => {}
            Failing::Failed => {
                return Err(Fault::AfterFailure {
                    call,
                    number,
                    printed,
                });
            }
        }
    }
    Err(Fault::Endless(call))
}

fn is_as_written(row: &Row<'_>, run: &Run) -> bool {
    let has_lines = run.printed == row.lines.as_bytes() || row.prints_library_text();
    run.status == row.status
        && has_lines
        && run.hint == wanted_hint(row)
        && row.saved.as_ref().is_none_or(|saved| *saved == run.saved)
}

/// What the row tells on the standard error. A command that refuses its source tells there what `check` prints of it.
pub(super) fn wanted_hint(row: &Row<'_>) -> String {
    if let Some(hint) = &row.hint {
        return hint.clone();
    }
    let words: Vec<_> = row.words().collect();
    let ([command, source, ..], 1) = (words.as_slice(), row.status) else {
        return String::new();
    };
    if !REFUSING.contains(command) {
        return String::new();
    }
    let check = format!("edd check {source}");
    let checked = Run::in_memory(&check, &row.files, &Calls::passing());
    if checked.status == row.status {
        checked.text()
    } else {
        String::new()
    }
}

fn differs(row: &Row<'_>, printed: Run) -> Fault {
    let saved = row.saved.clone().unwrap_or_default();
    Fault::Differs {
        wanted: Run {
            status: row.status,
            printed: row.lines.clone().into_bytes(),
            hint: wanted_hint(row),
            saved,
        },
        printed,
    }
}

fn stops_rightly(row: &Row<'_>, whole: &Run, call: Call, run: &Run) -> bool {
    let is_said = match call {
        // A write that fails can come in the middle of a letter.
        Call::Write => whole.printed.starts_with(&run.printed),
        Call::Open | Call::Read | Call::Save => {
            run.printed == whole.printed || names_file(row, whole, &run.printed)
        }
    };
    run.status == FILE && is_said
}

/// Whether this is `file NAME`, perhaps with the reason, for a file of the row. Some commands print lines before it.
fn names_file(row: &Row<'_>, whole: &Run, printed: &[u8]) -> bool {
    let Some(lines) = str::from_utf8(printed)
        .ok()
        .and_then(|text| text.strip_suffix('\n'))
    else {
        return false;
    };
    let lines = lines
        .rsplit_once("\nwhy: ")
        .map_or(lines, |(lines, _)| lines);
    let (before, last) = lines.rsplit_once('\n').unwrap_or(("", lines));
    let is_before =
        before.is_empty() || (prints_between(row) && whole.printed.starts_with(before.as_bytes()));
    is_before
        && last
            .strip_prefix("file ")
            .is_some_and(|name| has_file(row, name))
}

/// Whether the command goes on after such a call that fails: `check` does, after a source that can't be read.
fn goes_on(row: &Row<'_>, call: Call) -> bool {
    row.words().next() == Some("check") && matches!(call, Call::Open | Call::Read)
}

/// Whether the run ends with status 3, and names a file of the row on a line of its own.
fn reports_file(row: &Row<'_>, run: &Run) -> bool {
    let told = run.text() + &run.hint;
    let names_file = |line: &str| {
        line.strip_prefix("file ")
            .is_some_and(|name| has_file(row, name))
    };
    run.status == FILE && told.lines().any(names_file)
}

/// Whether the command prints lines before all files were read.
fn prints_between(row: &Row<'_>) -> bool {
    row.words()
        .next()
        .is_some_and(|word| ["open", "test"].contains(&word))
}

fn has_file(row: &Row<'_>, name: &str) -> bool {
    name == INPUT || row.words().any(|word| word == name) || row.file(name).is_some()
}

#[cfg(test)]
mod tests {
    use super::*;

    const VIEW: &str =
        "edd view s\n@name an empty text\n@file s\n@status 1\nrefused 10 SYNTAX line 1\n";

    fn row(text: &str) -> Row<'_> {
        Row::parse(text).unwrap()
    }

    #[test]
    fn a_row_is_tried_with_each_call_failing() {
        let row = row(VIEW);
        let whole = run_as_it_is(&row).unwrap();
        // The only read gives the end, and the line is one write of eleven bytes and two more.
        assert_eq!(run_failing(&row, &whole, Call::Open), Ok(1));
        assert_eq!(run_failing(&row, &whole, Call::Read), Ok(1));
        assert_eq!(run_failing(&row, &whole, Call::Save), Ok(0));
        assert_eq!(run_failing(&row, &whole, Call::Write), Ok(3));
    }

    #[test]
    fn other_lines_and_another_status_are_noticed() {
        let other = VIEW.replace("line 1", "line 2");
        assert!(matches!(
            run_as_it_is(&row(&other)),
            Err(Fault::Differs { .. })
        ));
        let other = VIEW.replace("@status 1", "@status 0");
        assert!(matches!(
            run_as_it_is(&row(&other)),
            Err(Fault::Differs { .. })
        ));
    }

    #[test]
    fn a_file_of_another_row_may_not_be_named() {
        let row = row(VIEW);
        let whole = run_as_it_is(&row).unwrap();
        assert!(
            names_file(&row, &whole, b"file s\n")
                && names_file(&row, &whole, b"file s\nwhy: it failed\n")
        );
        assert!(
            !names_file(&row, &whole, b"file t\n")
                && !names_file(&row, &whole, b"refused 10\nfile s\n")
        );
    }
}
