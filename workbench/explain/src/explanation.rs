//! An explanation, and how it is printed.

use std::fmt::{self, Display, Formatter};

/// What a refusal means.
#[derive(Debug, Clone, Copy, PartialEq, Eq)]
pub struct Explanation {
    /// The number that is printed.
    pub number: u32,
    /// The word that is printed after the number.
    pub name: &'static str,
    /// Paragraphs in plain English, with blank lines between them.
    pub meaning: &'static str,
    /// What is refused.
    pub wrong: Option<Example>,
    /// What is accepted in its place.
    pub right: Option<Example>,
}

/// Lines of an example.
#[derive(Debug, Clone, Copy, PartialEq, Eq)]
pub struct Example {
    /// Where or under which circumstances the lines stand, if that has to be said.
    pub setting: Option<&'static str>,
    /// The lines, of a description unless the setting says otherwise.
    pub code: &'static str,
}

impl Explanation {
    pub(crate) const fn new(number: u32, name: &'static str, meaning: &'static str) -> Self {
        Explanation {
            number,
            name,
            meaning,
            wrong: None,
            right: None,
        }
    }

    /// The first paragraph of its meaning, on one line.
    pub fn summary(&self) -> String {
        let lines = self.meaning.lines().take_while(|line| !line.is_empty());
        lines.collect::<Vec<_>>().join(" ")
    }

    pub(crate) const fn wrong(mut self, code: &'static str) -> Self {
        self.wrong = Some(Example::new(None, code));
        self
    }

    pub(crate) const fn wrong_where(mut self, setting: &'static str, code: &'static str) -> Self {
        self.wrong = Some(Example::new(Some(setting), code));
        self
    }

    pub(crate) const fn right(mut self, code: &'static str) -> Self {
        self.right = Some(Example::new(None, code));
        self
    }

    pub(crate) const fn right_where(mut self, setting: &'static str, code: &'static str) -> Self {
        self.right = Some(Example::new(Some(setting), code));
        self
    }
}

impl Example {
    const fn new(setting: Option<&'static str>, code: &'static str) -> Self {
        Example { setting, code }
    }
}

/// The meaning, and below it the examples, each indented by four blanks.
impl Display for Explanation {
    fn fmt(&self, formatter: &mut Formatter<'_>) -> fmt::Result {
        formatter.write_str(self.meaning)?;
        for (heading, example) in [("Wrong", self.wrong), ("Right", self.right)] {
            if let Some(Example { setting, code }) = example {
                let comma = if setting.is_some() { ", " } else { "" };
                let setting = setting.unwrap_or_default();
                write!(formatter, "\n\n{heading}{comma}{setting}:\n")?;
                code.lines()
                    .try_for_each(|line| write!(formatter, "\n    {line}"))?;
            }
        }
        Ok(())
    }
}

#[cfg(test)]
mod tests {
    use super::*;

    #[test]
    fn an_explanation_is_its_meaning_alone_where_it_has_no_example() {
        let explanation = Explanation::new(1, "ONE", "It is one.\nA line.");
        assert_eq!(explanation.to_string(), "It is one.\nA line.");
    }

    #[test]
    fn examples_are_indented_below_their_headings() {
        let explanation = Explanation::new(1, "ONE", "It is one.")
            .wrong_where("of a device", "a\nb")
            .right("c");
        let printed = "It is one.\n\nWrong, of a device:\n\n    a\n    b\n\nRight:\n\n    c";
        assert_eq!(explanation.to_string(), printed);
    }
}
