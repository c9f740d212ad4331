//! The table of pages: commands that pages of docs/ show, with what they print, and steps over files.

/// What is wrong with a page of the table.
#[derive(Debug, Clone, PartialEq, Eq, thiserror::Error)]
pub enum PageError {
    #[error("@{0} is no part of a page")]
    UnknownPart(String),
    #[error("@{0} stands before a command")]
    NoCommand(String),
    #[error("`{0}` is no status")]
    Status(String),
    #[error("`{0}` comes before a step")]
    NoStep(String),
}

/// A page with what it does, in order.
#[derive(Debug, Clone, Default, PartialEq, Eq)]
pub struct Page<'t> {
    pub text: &'t str,
    pub heading: &'t str,
    pub acts: Vec<Act<'t>>,
}

#[derive(Debug, Clone, PartialEq, Eq)]
pub enum Act<'t> {
    /// Writes a file.
    File {
        name: &'t str,
        lines: &'t str,
    },
    Command(Command<'t>),
    Step(Step<'t>),
}

/// A run of the program, with what is typed to it and what is wanted of it.
#[derive(Debug, Clone, Default, PartialEq, Eq)]
pub struct Command<'t> {
    pub words: &'t str,
    pub typed: String,
    pub status: i32,
    pub wanted: Vec<Wanted<'t>>,
}

/// What is wanted of the lines of a command.
#[derive(Debug, Clone, Copy, PartialEq, Eq)]
pub enum Wanted<'t> {
    /// These are all lines.
    Prints(&'t str),
    /// These are the first lines.
    Begins(&'t str),
    /// These lines are among them, one after the other.
    Shows(&'t str),
}

/// A step over files, and the lines that it prints.
#[derive(Debug, Clone, Default, PartialEq, Eq)]
pub struct Step<'t> {
    pub line: &'t str,
    pub wanted: String,
}

/// Splits the table into the texts of its pages, without their first `@page `.
pub fn split_pages(table: &str) -> impl Iterator<Item = &str> {
    table
        .trim_end()
        .trim_start_matches("@page ")
        .split("\n@page ")
}

impl<'t> Page<'t> {
    /// Parses a page. Its parts are `@file NAME` with lines, `@types` with lines that are typed to the next command,
    /// `@run WORDS` with `@status N` where that is not 0, `@prints`, `@begins` and `@shows` with lines, and `@steps`
    /// with steps. A step is a line, and the lines that it prints follow, each behind a `|`.
    ///
    /// ```
    /// use edd_tests::pages::{Act, Page, Wanted};
    /// let page = Page::parse("docs/CHECK.md\n@run check s\n@status 1\n@prints\nfile s")?;
    /// let [Act::Command(command)] = page.acts.as_slice() else { panic!() };
    /// assert_eq!((command.words, command.status), ("check s", 1));
    /// assert_eq!(command.wanted, [Wanted::Prints("file s")]);
    /// # Ok::<(), edd_tests::pages::PageError>(())
    /// ```
    pub fn parse(text: &'t str) -> Result<Page<'t>, PageError> {
        let mut parts = text.split("\n@");
        let mut page = Page {
            text,
            heading: parts.next().unwrap_or_default(),
            acts: Vec::new(),
        };
        let mut typed = String::new();
        for part in parts {
            let (head, below) = part.split_once('\n').unwrap_or((part, ""));
            let (kind, name) = head.split_once(' ').unwrap_or((head, ""));
            match kind {
                "file" => page.acts.push(Act::File { name, lines: below }),
                "types" => typed = format!("{below}\n"),
                "run" => {
                    let typed = std::mem::take(&mut typed);
                    page.acts.push(Act::Command(Command {
                        words: name,
                        typed,
                        ..Command::default()
                    }));
                }
                "steps" => page
                    .acts
                    .extend(parse_steps(below)?.into_iter().map(Act::Step)),
                _ => match page.acts.last_mut() {
                    Some(Act::Command(command)) => command.add_part(kind, name, below)?,
                    _ => return Err(PageError::NoCommand(kind.to_owned())),
                },
            }
        }
        Ok(page)
    }
}

impl<'t> Command<'t> {
    fn add_part(&mut self, kind: &str, words: &str, lines: &'t str) -> Result<(), PageError> {
        match kind {
            "status" => {
                self.status = words
                    .parse()
                    .map_err(|_| PageError::Status(words.to_owned()))?
            }
            "prints" => self.wanted.push(Wanted::Prints(lines)),
            "begins" => self.wanted.push(Wanted::Begins(lines)),
            "shows" => self.wanted.push(Wanted::Shows(lines)),
            _ => return Err(PageError::UnknownPart(kind.to_owned())),
        }
        Ok(())
    }
}

impl Wanted<'_> {
    /// Whether a command that printed this text did as is wanted.
    pub fn is_in(&self, text: &str) -> bool {
        match self {
            Wanted::Prints(lines) => text.strip_suffix('\n') == Some(lines),
            Wanted::Begins(lines) => text
                .strip_prefix(lines)
                .is_some_and(|rest| rest.starts_with('\n')),
            Wanted::Shows(lines) => format!("\n{text}").contains(&format!("\n{lines}\n")),
        }
    }

    pub fn lines(&self) -> &str {
        let (Wanted::Prints(lines) | Wanted::Begins(lines) | Wanted::Shows(lines)) = self;
        lines
    }
}

/// Parses steps. Blank lines and those that begin with a # are none.
fn parse_steps(lines: &str) -> Result<Vec<Step<'_>>, PageError> {
    let mut steps: Vec<Step<'_>> = Vec::new();
    for line in lines
        .lines()
        .filter(|line| !line.is_empty() && !line.starts_with('#'))
    {
        match line.strip_prefix('|') {
            None => steps.push(Step {
                line,
                wanted: String::new(),
            }),
            Some(printed) => {
                let step = steps
                    .last_mut()
                    .ok_or_else(|| PageError::NoStep(line.to_owned()))?;
                step.wanted
                    .push_str(printed.strip_prefix(' ').unwrap_or(printed));
                step.wanted.push('\n');
            }
        }
    }
    Ok(steps)
}

#[cfg(test)]
mod tests {
    use super::*;

    #[test]
    fn lines_are_found_where_they_are_wanted() {
        assert!(
            Wanted::Prints("a\nb").is_in("a\nb\n") && !Wanted::Prints("a\nb").is_in("a\nb\nc\n")
        );
        assert!(
            Wanted::Begins("a\nb").is_in("a\nb\nc\n") && !Wanted::Begins("a\nb").is_in("a\nbc\n")
        );
        assert!(
            Wanted::Shows("b\nc").is_in("a\nb\nc\n") && !Wanted::Shows("b\nc").is_in("ab\nc\n")
        );
    }

    #[test]
    fn a_step_has_its_lines() {
        let steps = parse_steps("# a new image\nrun view s\n| a\n|\n\nlist new").unwrap();
        assert_eq!(
            steps,
            [
                Step {
                    line: "run view s",
                    wanted: "a\n\n".into()
                },
                Step {
                    line: "list new",
                    wanted: String::new()
                }
            ]
        );
        assert_eq!(parse_steps("| a"), Err(PageError::NoStep("| a".into())));
    }

    #[test]
    fn what_is_no_page_is_refused() {
        assert_eq!(
            Page::parse("a page\n@prints\na"),
            Err(PageError::NoCommand("prints".into()))
        );
        assert_eq!(
            Page::parse("a page\n@run view s\n@says\na"),
            Err(PageError::UnknownPart("says".into()))
        );
        assert_eq!(
            Page::parse("a page\n@run view s\n@status one"),
            Err(PageError::Status("one".into()))
        );
    }
}
