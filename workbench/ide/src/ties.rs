//! Which items of a description and its device belong together: variables of one name, and a command
//! with the methods that say what it does.

use crate::project::{Found, Place, Project};
use edd_syntax::numbers::Kind;
use std::collections::BTreeSet;

/// With what the name of a method begins that says what a command does.
const COMMAND: &str = "command_";

/// The number of the command that a method of a device is for: `command_N_T`.
fn command_number(method: &str) -> Option<&str> {
    let (number, transaction) = method.strip_prefix(COMMAND)?.split_once('_')?;
    let is_number = |word: &str| !word.is_empty() && word.bytes().all(|it| it.is_ascii_digit());
    (is_number(number) && is_number(transaction)).then_some(number)
}

impl<'p> Project<'p> {
    /// An item with those that have its name on the other side.
    pub(crate) fn items_alike(&self, item: Found<'p>) -> BTreeSet<Found<'p>> {
        self.closure(item, |found| self.variables_alike(found))
    }

    /// An item with those of its name on the other side, a command with its methods, and a method with
    /// its command.
    pub(crate) fn items_with(&self, item: Found<'p>) -> BTreeSet<Found<'p>> {
        self.closure(item, |found| {
            let mut others = self.variables_alike(found);
            others.extend(self.of_command(found));
            others
        })
    }

    /// All items to which ties lead.
    fn closure(
        &self,
        item: Found<'p>,
        tied: impl Fn(Found<'p>) -> Vec<Found<'p>>,
    ) -> BTreeSet<Found<'p>> {
        let mut items = BTreeSet::from([item]);
        let mut waiting = vec![item];
        while let Some(next) = waiting.pop() {
            let new = tied(next).into_iter().filter(|it| items.insert(*it));
            waiting.extend(new);
        }
        items
    }

    /// The files on the other side of a description: its devices, and its instruments.
    fn other_sides(&self, path: &str) -> Vec<&'p str> {
        let others = self.ties.iter().filter_map(|(instrument, device)| {
            if *instrument == path {
                Some(*device)
            } else {
                (*device == path).then_some(*instrument)
            }
        });
        others.collect()
    }

    pub(crate) fn kind_and_name(&self, found: Found<'p>) -> Option<(Kind, &'p str)> {
        let document = self.document(found.path)?;
        let kind = document.items().get(found.item)?.kind;
        Some((kind, document.item_name(found.item)))
    }

    /// The variable of a name in a file.
    fn variable(&self, path: &'p str, name: &str) -> Option<Found<'p>> {
        let item = self.document(path)?.item_of(name)?;
        let found = Found { path, item };
        let (kind, _) = self.kind_and_name(found)?;
        (kind == Kind::Variable).then_some(found)
    }

    fn variables_alike(&self, found: Found<'p>) -> Vec<Found<'p>> {
        let Some((Kind::Variable, name)) = self.kind_and_name(found) else {
            return Vec::new();
        };
        let others = self.other_sides(found.path).into_iter();
        others
            .filter_map(|path| self.variable(path, name))
            .collect()
    }

    /// Of a command the methods of its devices, and of such a method the commands of its instruments.
    fn of_command(&self, found: Found<'p>) -> Vec<Found<'p>> {
        let Some((kind, name)) = self.kind_and_name(found) else {
            return Vec::new();
        };
        let wanted = match kind {
            Kind::Command => self.number_of(found),
            Kind::Method => command_number(name),
            _ => None,
        };
        let Some(number) = wanted else {
            return Vec::new();
        };
        let sides = self
            .ties
            .iter()
            .filter_map(|(instrument, device)| match kind {
                Kind::Command => (*instrument == found.path).then_some(*device),
                _ => (*device == found.path).then_some(*instrument),
            });
        sides
            .flat_map(|path| self.for_number(path, number))
            .collect()
    }

    /// The command for which the method is that is named at a byte of a device.
    pub(crate) fn command_at(&self, path: &str, byte: usize) -> Option<Found<'p>> {
        let found = self.item_at(path, byte)?;
        let (kind, _) = self.kind_and_name(found)?;
        let is_method = kind == Kind::Method;
        self.of_command(found).into_iter().find(|_| is_method)
    }

    /// The number of a command, as it is written.
    fn number_of(&self, found: Found<'p>) -> Option<&'p str> {
        let document = self.document(found.path)?;
        let token = document.number_of_command(document.items().get(found.item)?)?;
        Some(document.word(token))
    }

    /// The commands of this number in a file, and the methods for it.
    fn for_number(&self, path: &'p str, number: &str) -> Vec<Found<'p>> {
        let count = self.document(path).map_or(0, |it| it.items().len());
        let items = (0..count).map(|item| Found { path, item });
        let is_for_it = |found: &Found<'p>| match self.kind_and_name(*found) {
            Some((Kind::Command, _)) => self.number_of(*found) == Some(number),
            Some((Kind::Method, name)) => command_number(name) == Some(number),
            _ => false,
        };
        items.filter(is_for_it).collect()
    }

    /// A variable on the other side that would become one with a variable that gets a new name.
    pub(crate) fn find_clash(&self, items: &BTreeSet<Found<'p>>, name: &str) -> Option<Place<'p>> {
        let variables = items
            .iter()
            .filter(|found| matches!(self.kind_and_name(**found), Some((Kind::Variable, _))));
        let others = variables.flat_map(|found| self.other_sides(found.path));
        let mut taken = others.filter_map(|path| self.variable(path, name));
        let Found { path, item } = taken.next()?;
        self.place_of(Found { path, item })
    }
}
