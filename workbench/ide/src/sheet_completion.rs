//! What may be written in a file of tests or a script.

use crate::completion::{Completions, sort_likeliest};
use crate::offers::Offers;
use crate::project::Project;
use crate::sheet::moved;
use edd_helps::script_name_before;
use edd_source::Span;
use edd_syntax::numbers::Kind;
use edd_testing::{Begun, begun_in};

impl<'p> Project<'p> {
    /// What may be written at a byte of a file of tests or a script: the methods of its description, or
    /// its variables.
    pub fn completions(&self, path: &str, byte: usize) -> Completions<'p> {
        let replaced = Span::before(byte);
        self.find_completions(path, byte).unwrap_or(Completions {
            replaced,
            entries: Vec::new(),
        })
    }

    fn find_completions(&self, path: &str, byte: usize) -> Option<Completions<'p>> {
        let document = self.document(path)?;
        let before = document.text().get(..byte)?;
        let start = before.rfind('\n').map_or(0, |end| end.saturating_add(1));
        let line = before.get(start..)?;
        let sheet = document.sheet()?;
        let test = sheet.test_at(byte);
        let begun = if sheet.tests.is_empty() {
            Begun::Script(0)
        } else {
            begun_in(line)?
        };
        let (kind, replaced) = match begun {
            Begun::Method(name) => (Kind::Method, name),
            Begun::Script(from) => {
                let name = script_name_before(line.get(from..)?, line.len().checked_sub(from)?)?;
                (Kind::Variable, moved(name, from))
            }
        };
        let replaced = moved(replaced, start);
        let mut offers = Offers::new(self.document(self.described_by(path, test)?)?);
        offers.add_items(kind);
        let mut entries = offers.entries;
        sort_likeliest(&mut entries, replaced.text(document.text())?);
        Some(Completions { replaced, entries })
    }
}
