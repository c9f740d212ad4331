//! An item with the name of another one, whose own name is used and nothing has it.

use super::NameHelp;
use super::description::{Description, number_of};
use crate::Finding;
use edd_breaches::RuleFault;
use edd_findings::Found;
use edd_source::Confidence;

/// The one name that nothing has, where one item has the name of another one: it may be the name that is
/// meant there, and is not told by itself.
#[derive(Clone, Copy, Debug)]
pub struct Unnamed<'f> {
    name: &'f str,
    /// The token with which it is first used.
    used: usize,
}

impl<'f> Unnamed<'f> {
    /// The name, of these breaches of a description.
    pub fn of(
        description: &Description<'_>,
        breaches: impl Iterator<Item = &'f Found>,
    ) -> Option<Unnamed<'f>> {
        let mut items: usize = 0;
        let mut unnamed: Option<Unnamed<'f>> = None;
        for found in breaches {
            let number = found.at.map(number_of);
            match (&found.rule, number) {
                (RuleFault::DuplicateName(_), Some(at)) if description.item_at(at).is_some() => {
                    items = items.saturating_add(1);
                }
                (RuleFault::UnknownName(name), Some(used)) => {
                    let name = name.as_str();
                    match unnamed {
                        Some(other) if other.name != name => return None,
                        Some(_) => {}
                        None => unnamed = Some(Unnamed { name, used }),
                    }
                }
                _ => {}
            }
        }
        let is_near = |it: &Unnamed<'_>| description.nearest(it.name, false).found.is_some();
        unnamed.filter(|it| items == 1 && !is_near(it))
    }

    /// Whether a breach is that nothing has this name.
    pub fn is_told_by(&self, found: &Found) -> bool {
        matches!(&found.rule, RuleFault::UnknownName(name) if name.as_str() == self.name)
    }

    /// Says at the item with the name of another one that this name may be meant.
    pub fn tell(&self, description: &Description<'_>, found: &Found, finding: &mut Finding) {
        let is_item = found
            .at
            .is_some_and(|at| description.item_at(number_of(at)).is_some());
        if !is_item || !matches!(found.rule, RuleFault::DuplicateName(_)) {
            return;
        }
        let name = self.name.to_owned();
        let fix = finding.replacement(&name, Confidence::Guess);
        let used = description.span(self.used);
        finding.propose_at(used, NameHelp::NothingHas { name }, fix);
    }
}
