//! What is said of a source: the one module that calls the check.

use crate::failure::Failure;
use core_std::alloc::Global;
use edd_check::{Checked, LINTS, Level, Levels, Lint};
use edd_files::{FileFault, Files, read_marked};
use edd_helps::Finding;
pub(crate) use edd_report::Style;
use edd_report::{Diagnostic, Refusal, Report, json_lines, rich, sarif, text};
use edd_source::Source;
use std::io::{self, Write};

/// The lints that are allowed and denied.
pub(crate) struct LintLevels(Levels);

/// In which form a diagnosis is printed.
#[derive(Clone, Copy, Debug, PartialEq, Eq)]
pub(crate) enum Form {
    /// Lines for a reader.
    Text(Style),
    /// Excerpts with second places.
    Rich(Style),
    /// An object on each line.
    Json,
}

/// What is said of a source.
#[derive(Debug)]
pub(crate) struct Diagnosis<'t>(Checked<'t>);

/// It stands for every lint.
const ALL: &str = "all";

/// The names of all lints, with commas.
pub(crate) fn lint_names() -> String {
    LINTS.map(Lint::name).join(", ")
}

impl LintLevels {
    /// The usual ones.
    pub(crate) fn usual() -> LintLevels {
        LintLevels(Levels::default())
    }

    /// Changes the level of the lints with these names.
    pub(crate) fn new(allowed: &[String], denied: &[String]) -> Result<LintLevels, Failure> {
        let is_unknown = |name: &&String| *name != ALL && Lint::from_name(name).is_none();
        if let Some(name) = allowed.iter().chain(denied).find(is_unknown) {
            return Err(Failure::NoLint(name.clone()));
        }
        let is_among =
            |names: &[String], lint: Lint| names.iter().any(|it| it == ALL || it == lint.name());
        let mut levels = Levels::default();
        for lint in LINTS {
            if is_among(allowed, lint) {
                levels.set(lint, Level::Allow);
            }
            if is_among(denied, lint) {
                levels.set(lint, Level::Deny);
            }
        }
        Ok(LintLevels(levels))
    }
}

impl<'t> Diagnosis<'t> {
    /// Checks a source. The files that marks of a preprocessor name are read for their lines.
    pub(crate) fn of_source(
        name: &'t str,
        text: &'t [u8],
        levels: &LintLevels,
        files: &mut impl Files,
    ) -> Result<Diagnosis<'t>, Failure> {
        let mut checked = Checked::of(name, text, &levels.0);
        for name in checked.marked_files() {
            match read_marked(Global, files, name) {
                Ok(text) => checked.source.originals.add(name, text.into_real()),
                Err(FileFault::Memory) => return Err(Failure::Memory),
                Err(_) => {}
            }
        }
        Ok(Diagnosis(checked))
    }

    /// A text that is refused, with what is wrong in it.
    pub(crate) fn of_finding(
        name: &'t str,
        text: &'t [u8],
        refusal: Refusal,
        finding: Finding,
    ) -> Diagnosis<'t> {
        let mut report = Report::default();
        report.show(Diagnostic::refused(refusal, finding));
        let source = Source::new(name, text);
        Diagnosis(Checked { source, report })
    }

    /// Whether the source is refused, or a lint that is denied finds something.
    pub(crate) fn fails(&self) -> bool {
        self.0.report.fails()
    }

    pub(crate) fn print(&self, form: Form, output: &mut impl Write) -> Result<(), Failure> {
        let Checked { source, report } = &self.0;
        let lines = match form {
            Form::Text(style) => text(source, report, style),
            Form::Rich(style) => rich(source, report, style).map_err(io::Error::other)?,
            Form::Json => json_lines(source, report)?,
        };
        output.write_all(lines.as_bytes())?;
        Ok(())
    }

    /// Prints the lines as hints.
    pub(crate) fn hint(&self, files: &mut impl Files) {
        let Checked { source, report } = &self.0;
        for line in text(source, report, Style::Plain).lines() {
            files.hint(line);
        }
    }
}

/// Prints what is said of sources as a document of SARIF.
pub(crate) fn print_sarif(
    diagnoses: &[Diagnosis<'_>],
    output: &mut impl Write,
) -> Result<(), Failure> {
    let all = diagnoses.iter().map(|it| (&it.0.source, &it.0.report));
    output.write_all(sarif(all)?.as_bytes())?;
    Ok(())
}
