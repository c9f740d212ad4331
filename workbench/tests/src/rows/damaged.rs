//! Runs of rows whose files are damaged. Each has to end with status 0, or with a refusal and its number.

use super::damage::{Dice, damage};
use super::fault::Fault;
use super::memory::Calls;
use super::row::{File, Row};
use super::run::{Run, compile};

/// How often the files of a row are damaged.
const TIMES: u32 = 16;

/// A row with a longer file takes too long.
const LONGEST: usize = 20_000;

/// The name of the source of a row.
pub const SOURCE: &str = "s";

const ANSWERS: &[u8] = b"answer 0\nanswer 1\nanswer 0\nabort\n";

/// How many damaged files were run, and how many of these runs ended with status 0.
#[derive(Debug, Clone, Copy, Default, PartialEq, Eq)]
pub struct Tried {
    pub runs: usize,
    pub done: usize,
}

impl Tried {
    /// Runs a command over damaged files, and counts it.
    fn run(&mut self, command: &str, files: &[File]) -> Result<Run, Fault> {
        let printed = Run::in_memory(command, files, &Calls::passing());
        self.runs = self.runs.saturating_add(1);
        let is_right = match printed.status {
            0 => {
                self.done = self.done.saturating_add(1);
                true
            }
            // An editor that ends without a shutdown is told nothing.
            1 => command == "edd lsp" || is_refusal(&printed.text()),
            // A damaged file of tests can name another file.
            3 => command.starts_with("edd test "),
            _ => false,
        };
        if is_right {
            Ok(printed)
        } else {
            Err(Fault::Damaged {
                command: command.to_owned(),
                printed,
            })
        }
    }

    /// Runs the row with all of its files damaged.
    fn try_files(&mut self, row: &Row<'_>, dice: &mut Dice) -> Result<(), Fault> {
        for _ in 0..TIMES {
            let damaged =
                |file: &File| damage_file(dice, &file.name, &file.bytes, row.lines.as_bytes());
            let files: Vec<_> = row.files.iter().map(damaged).collect();
            self.run(row.command, &files)?;
        }
        Ok(())
    }

    /// Shows a damaged image and plays its methods.
    fn try_image(&mut self, image: &[u8], dice: &mut Dice) -> Result<(), Fault> {
        let script = File {
            name: "t".into(),
            bytes: ANSWERS.to_vec(),
        };
        let files = [damage_file(dice, "i", image, image), script];
        let shown = self.run("edd show i", &files)?;
        if shown.status == 0 {
            for method in shown
                .text()
                .lines()
                .filter_map(|line| line.strip_prefix("method "))
            {
                self.run(&format!("edd play i {method} t --steps 1000"), &files)?;
            }
        }
        Ok(())
    }
}

/// Runs a row with its files damaged some times over, and so its source's image. A command line or a missing file
/// that ends a row leaves nothing to damage.
pub fn try_damaged(row: &Row<'_>) -> Result<Tried, Fault> {
    let mut tried = Tried::default();
    if row.status > 1 || row.files.iter().any(|file| file.bytes.len() > LONGEST) {
        return Ok(tried);
    }
    let mut dice = Dice::from_seed(&row.title());
    tried.try_files(row, &mut dice)?;
    if let Some(image) = row.file(SOURCE).and_then(compile) {
        (0..TIMES).try_for_each(|_| tried.try_image(&image, &mut dice))?;
    }
    Ok(tried)
}

fn damage_file(dice: &mut Dice, name: &str, bytes: &[u8], other: &[u8]) -> File {
    let mut bytes = bytes.to_vec();
    damage(dice, &mut bytes, other);
    File {
        name: name.to_owned(),
        bytes,
    }
}

/// Whether the last line is a refusal with a number, or the first one is, or is one after a place, as `check`
/// prints it, or a line is a refusal in another form.
fn is_refusal(text: &str) -> bool {
    let first = text.lines().next().unwrap_or_default();
    let last = text.lines().last().unwrap_or_default();
    let refusal = last
        .strip_prefix("refused ")
        .or_else(|| first.strip_prefix("refused "));
    let refusal = refusal
        .or_else(|| first.split(": refused ").last())
        .unwrap_or_default();
    let number = refusal.split(' ').next().unwrap_or_default();
    number.parse::<u16>().is_ok() || text.lines().any(is_other_refusal)
}

/// Whether a line is a refusal by a lint that is denied, or one in JSON, SARIF, JUnit, excerpts or colours, or says that a
/// test failed, or that layouts or descriptions differ.
fn is_other_refusal(line: &str) -> bool {
    const BEGINNINGS: [&str; 4] = ["differs ", "differences ", "error[", "failed "];
    const PARTS: [&str; 8] = [
        "\"breaking\":",
        ": denied ",
        "\"severity\":\"refused\"",
        "\"severity\":\"denied\"",
        "\"level\":\"error\"",
        "<error message=\"refused ",
        "<failure message=",
        "refused\u{1b}[0m ",
    ];
    BEGINNINGS
        .iter()
        .any(|beginning| line.starts_with(beginning))
        || PARTS.iter().any(|part| line.contains(part))
}

#[cfg(test)]
mod tests {
    use super::*;

    #[test]
    fn refusals_are_known_in_each_form() {
        assert!(
            is_refusal("refused 32 BAD_SIZE p\n")
                && is_refusal("s:1:2: refused 32 BAD_SIZE p\n  x\n")
        );
        assert!(
            is_refusal("method m\nrefused 305 STEPS\n")
                && is_refusal("failed t: a test\n0 passed, 1 failed\n")
        );
        assert!(
            !is_refusal("")
                && !is_refusal("refused by nobody\n")
                && !is_refusal("variable p INTEGER 2\n")
        );
    }

    #[test]
    fn the_damage_of_a_row_is_the_same_each_time() {
        let text = "edd view s\n@name a label\n@file s\nMANUFACTURER 1, DEVICE_TYPE 2, DEVICE_REVISION 3, DD_REVISION 4\n@status 0\n";
        let row = Row::parse(text).unwrap();
        let tried = try_damaged(&row).unwrap();
        assert!(tried.runs >= 32 && tried.done <= tried.runs);
        assert_eq!(try_damaged(&row), Ok(tried));
    }
}
