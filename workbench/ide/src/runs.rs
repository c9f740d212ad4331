//! Which tests run a method.

use crate::Symbol;
use crate::project::{Place, Project};
use crate::sheet::MentionSort;
use edd_testing::NameSort;
use std::collections::BTreeSet;

/// A test that runs a method.
#[derive(Clone, Copy, Debug, PartialEq, Eq)]
pub struct TestRun<'p> {
    /// The name of the test.
    pub test: Place<'p>,
    /// Where it names the method.
    pub method: Place<'p>,
}

impl<'p> Project<'p> {
    /// The method or menu that is named at a byte, also in a file of tests, with the path of its file.
    pub fn callable(&self, path: &str, byte: usize) -> Option<(&'p str, Symbol<'p>)> {
        let place = self.place_of(self.item_at(path, byte)?)?;
        let document = self.document(place.path)?;
        Some((place.path, document.callable(place.span.start)?))
    }

    /// The tests that run the method at a byte of a description, by their files and in their order.
    ///
    /// ```
    /// use edd_ide::{Document, Project};
    ///
    /// let tank = Document::new("METHOD check { }");
    /// let tests = Document::named("a.test", "source tank.edd\ntest one\nmethod check\n");
    /// let project = Project::new([("tank.edd", &tank), ("a.test", &tests)]);
    /// let [run] = project.runs("tank.edd", 8)[..] else { panic!() };
    /// assert_eq!(run.test.span.text(tests.text()), Some("one"));
    /// ```
    pub fn runs(&self, path: &str, byte: usize) -> Vec<TestRun<'p>> {
        let items: BTreeSet<_> = self.item_at(path, byte).into_iter().collect();
        let mut runs = Vec::new();
        for (path, document, sheet) in self.sheets() {
            let methods = sheet.mentions().iter().filter(|mention| {
                let name = mention.span.text(document.text()).unwrap_or_default();
                mention.sort == MentionSort::Item(NameSort::Method)
                    && self.is_one_of(&items, path, **mention, name)
            });
            runs.extend(methods.filter_map(|mention| {
                let span = sheet.tests.get(mention.test?)?.name;
                Some(TestRun {
                    test: Place { path, span },
                    method: Place {
                        path,
                        span: mention.span,
                    },
                })
            }));
        }
        runs
    }
}
