//! What stands between the tokens of a text: comments, marks, and how many lines end.

#[derive(Clone, Copy, Debug, PartialEq, Eq)]
pub(crate) enum CommentKind {
    /// From `//` to the line's end.
    Line,
    Block,
    /// A mark of a preprocessor, as `# 12 "file"`.
    Mark,
}

#[derive(Clone, Copy, Debug, PartialEq, Eq)]
pub(crate) struct Comment<'a> {
    pub(crate) kind: CommentKind,
    pub(crate) text: &'a str,
    /// How many lines end between what comes before and the comment.
    pub(crate) lines: usize,
}

impl Comment<'_> {
    /// Whether it can't stand between two tokens on one line.
    pub(crate) fn ends_line(&self) -> bool {
        self.lines > 0 || self.kind != CommentKind::Block || self.text.contains('\n')
    }
}

/// What stands before a token.
#[derive(Debug, Default, PartialEq, Eq)]
pub(crate) struct Gap<'a> {
    pub(crate) comments: Vec<Comment<'a>>,
    /// How many lines end directly before the token.
    pub(crate) lines: usize,
}

impl<'a> Gap<'a> {
    /// Reads the text between two tokens.
    pub(crate) fn read(text: &'a str) -> Gap<'a> {
        let mut gap = Gap::default();
        let mut rest = text;
        while let Some(start) = rest.find(['\n', '/', '#']) {
            let (_, front) = rest.split_at(start);
            let (kind, length) = match front.as_bytes() {
                [b'/', b'*', ..] => (CommentKind::Block, block_length(front)),
                [b'/', ..] => (CommentKind::Line, line_length(front)),
                [b'#', ..] => (CommentKind::Mark, line_length(front)),
                _ => {
                    gap.lines = gap.lines.saturating_add(1);
                    rest = front.strip_prefix('\n').unwrap_or_default();
                    continue;
                }
            };
            let (text, behind) = front.split_at(length);
            let lines = std::mem::take(&mut gap.lines);
            gap.comments.push(Comment { kind, text, lines });
            rest = behind;
        }
        gap
    }
}

/// How long the line is without its end.
fn line_length(text: &str) -> usize {
    text.find('\n').unwrap_or(text.len())
}

/// How long the comment is that the text begins with.
fn block_length(text: &str) -> usize {
    let end = text
        .strip_prefix("/*")
        .and_then(|inside| inside.split_once("*/"));
    end.map_or(text.len(), |(inside, _)| {
        inside.len().saturating_add("/**/".len())
    })
}
