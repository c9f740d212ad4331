//! Pages: the commands that README.md and docs/ show, steps over real files, and docs/REFUSALS.md.

mod disk;
mod explained;
mod one_file;
mod page;
mod refusals;
mod steps;

pub use explained::{Example, ExampleFault, list_examples, try_example};
pub use page::{Act, Command, Page, PageError, Step, Wanted};
pub use refusals::{list_explanations, write_refusals};
pub use steps::StepError;

use crate::error::PlayError;
use crate::folder::{TempFolder, copy_files};
use crate::options::Options;
use crate::program::{Finished, Program};
use crate::score::Score;
use std::path::{Path, PathBuf};
use std::{fs, io};

/// The table of pages.
const TABLE: &str = "pages";

/// The folders of examples that hold no descriptions.
const PROGRAMS: [&str; 2] = ["rust", "c"];

/// What is wrong with a row of a page.
#[derive(Debug, thiserror::Error)]
pub enum PageFault {
    #[error("wanted: status {wanted}\nprinted: {printed}")]
    Status { wanted: i32, printed: Finished },
    #[error("wanted:\n{wanted}\nprinted: {printed}")]
    Lines { wanted: String, printed: Finished },
    #[error("wanted:\n{wanted}printed:\n{printed}")]
    Step { wanted: String, printed: String },
    #[error(transparent)]
    NoStep(#[from] StepError),
    #[error("a file: {0}")]
    File(#[from] io::Error),
    #[error("line {line} of the page: wanted: {wanted}\nthe page has: {found}")]
    Refusals {
        line: usize,
        wanted: String,
        found: String,
    },
}

/// Where the pages are played: a folder with the examples and the files of the table, and the program that they run.
#[derive(Debug)]
struct Stage {
    program: Program,
    folder: PathBuf,
    // Removed when the stage is dropped.
    _room: TempFolder,
}

#[derive(Debug, Default)]
struct Counts {
    commands: usize,
    parts: usize,
    steps: usize,
    examples: usize,
}

/// Plays the pages over the examples and over real files, as a user whom files can be closed to.
pub fn play(options: &Options, score: &mut Score) -> Result<(), PlayError> {
    let table = options.read_table(TABLE)?;
    let stage = Stage::new(options).map_err(PlayError::Folder)?;
    let mut counts = Counts::default();
    for text in page::split_pages(&table).filter(|text| options.selects(text)) {
        let error = |error| PlayError::Page {
            page: text.lines().next().unwrap_or_default().to_owned(),
            error,
        };
        let page = Page::parse(text).map_err(error)?;
        for act in &page.acts {
            stage.play(&page, act, &mut counts, score);
        }
    }
    try_examples(options, &mut counts, score);
    if options.plays_all() {
        let path = options.top.join("docs").join("REFUSALS.md");
        compare_refusals(&path, options.renew, score)?;
    }
    let Counts {
        commands,
        parts,
        steps,
        examples,
    } = counts;
    score.note(format!("{commands} commands with {parts} parts of what they print, {steps} steps, {examples} explained examples"));
    Ok(())
}

impl Stage {
    fn new(options: &Options) -> io::Result<Stage> {
        let room = TempFolder::new()?;
        let program = options
            .program
            .as_deref()
            .map_or_else(Program::this_player, Program::new)?;
        let program = program.without_root(room.path())?;
        let folder = room.path().join("files");
        fs::create_dir(&folder)?;
        program.hand_over(&folder)?;
        let is_description = |path: &Path| !PROGRAMS.iter().any(|name| path.ends_with(name));
        copy_files(
            &options.top.join("examples"),
            &folder.join("examples"),
            &is_description,
        )?;
        Ok(Stage {
            program,
            folder,
            _room: room,
        })
    }

    fn play(&self, page: &Page<'_>, act: &Act<'_>, counts: &mut Counts, score: &mut Score) {
        match act {
            Act::File { name, lines } => {
                if let Err(error) = self.write(name, lines) {
                    score.row(
                        format!("{}: the file {name}", page.heading),
                        Some(PageFault::File(error)),
                    );
                }
            }
            Act::Command(command) => self.run(page, command, counts, score),
            Act::Step(step) => {
                counts.steps = counts.steps.saturating_add(1);
                score.row(
                    format!("{}: {}", page.heading, step.line),
                    self.run_step(step).err(),
                );
            }
        }
    }

    fn write(&self, name: &str, lines: &str) -> io::Result<()> {
        let path = self.folder.join(name);
        fs::write(&path, format!("{lines}\n"))?;
        self.program.hand_over(&path)
    }

    /// Runs a command. Its status is a row, and so is each part of what it prints.
    fn run(&self, page: &Page<'_>, command: &Command<'_>, counts: &mut Counts, score: &mut Score) {
        let name = format!("{}: {}", page.heading, command.words);
        counts.commands = counts.commands.saturating_add(1);
        counts.parts = counts.parts.saturating_add(command.wanted.len());
        let ran = self.program.run(
            command.words.split_ascii_whitespace(),
            &self.folder,
            command.typed.as_bytes(),
        );
        let printed = match ran {
            Ok(printed) => printed,
            Err(error) => return score.row(name, Some(PageFault::File(error))),
        };
        let is_ended = printed.status == Some(command.status);
        score.row(
            &name,
            (!is_ended).then(|| PageFault::Status {
                wanted: command.status,
                printed: printed.clone(),
            }),
        );
        let text = printed.text();
        for wanted in &command.wanted {
            let fault = || PageFault::Lines {
                wanted: wanted.lines().to_owned(),
                printed: printed.clone(),
            };
            score.row(&name, (!wanted.is_in(&text)).then(fault));
        }
    }

    fn run_step(&self, step: &Step<'_>) -> Result<(), PageFault> {
        let printed = steps::run_step(step.line, &self.program, &self.folder)?;
        if printed == step.wanted {
            Ok(())
        } else {
            Err(PageFault::Step {
                wanted: step.wanted.clone(),
                printed,
            })
        }
    }
}

/// Tries the examples of `edd explain`.
fn try_examples(options: &Options, counts: &mut Counts, score: &mut Score) {
    let explanations =
        list_explanations().filter(|explanation| options.selects(&explanation.to_string()));
    for explanation in explanations {
        for example in list_examples(explanation) {
            counts.examples = counts.examples.saturating_add(1);
            let name = format!(
                "the examples of {} {}",
                explanation.number, explanation.name
            );
            score.row(name, try_example(explanation, &example).err());
        }
    }
}

/// Compares docs/REFUSALS.md with what the program explains, or writes it.
fn compare_refusals(path: &Path, is_renewed: bool, score: &mut Score) -> Result<(), PlayError> {
    let wanted = write_refusals();
    if is_renewed {
        fs::write(path, &wanted).map_err(PlayError::in_file(path))?;
    }
    let found = fs::read_to_string(path).map_err(PlayError::in_file(path))?;
    score.row(path.display(), find_difference(&wanted, &found));
    Ok(())
}

/// The first line in which two texts differ.
fn find_difference(wanted: &str, found: &str) -> Option<PageFault> {
    if wanted == found {
        return None;
    }
    let alike = wanted
        .lines()
        .zip(found.lines())
        .take_while(|(one, other)| one == other)
        .count();
    let line_of = |text: &str| text.lines().nth(alike).unwrap_or("(its end)").to_owned();
    Some(PageFault::Refusals {
        line: alike.saturating_add(1),
        wanted: line_of(wanted),
        found: line_of(found),
    })
}

#[cfg(test)]
mod tests {
    use super::*;

    #[test]
    fn the_first_line_that_differs_is_said() {
        assert!(find_difference("a\nb\n", "a\nb\n").is_none());
        let fault = find_difference("a\nb\n", "a\n").map(|fault| fault.to_string());
        assert_eq!(
            fault.as_deref(),
            Some("line 2 of the page: wanted: b\nthe page has: (its end)")
        );
    }
}
