//! Text in Markdown.

/// Text in Markdown, as it is written.
#[derive(Debug, Default)]
pub(crate) struct Markdown(String);

/// Whether a character means something in Markdown.
fn is_mark(character: char) -> bool {
    matches!(
        character,
        '\\' | '`' | '*' | '_' | '[' | ']' | '<' | '>' | '&' | '~' | '|'
    )
}

/// A character as it is shown on one line.
fn on_line(character: char) -> char {
    if character.is_control() {
        ' '
    } else {
        character
    }
}

impl Markdown {
    /// Adds Markdown as it is.
    pub(crate) fn push(&mut self, markdown: &str) {
        self.0.push_str(markdown);
    }

    /// Adds a text as it is to be read, on one line.
    pub(crate) fn push_escaped(&mut self, text: &str) {
        for character in text.chars() {
            if is_mark(character) {
                self.0.push('\\');
            }
            self.0.push(on_line(character));
        }
    }

    /// Adds a piece of a source as code, on one line.
    pub(crate) fn push_code(&mut self, code: &str) {
        let (opening, closing) = if code.contains('`') {
            ("`` ", " ``")
        } else {
            ("`", "`")
        };
        self.0.push_str(opening);
        self.0.extend(code.chars().map(on_line));
        self.0.push_str(closing);
    }

    /// Begins another paragraph.
    pub(crate) fn begin_paragraph(&mut self) {
        if !self.0.is_empty() {
            self.0.push_str("\n\n");
        }
    }

    /// What was written, if something was.
    pub(crate) fn finish(self) -> Option<String> {
        (!self.0.is_empty()).then_some(self.0)
    }
}
