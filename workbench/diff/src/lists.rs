//! Compares two lists, whose entries are matched by their keys.

use crate::attributes::Comparison;
use crate::content::{Content, Entry};
use crate::difference::Note;
use std::collections::{HashMap, HashSet, VecDeque};
use std::hash::Hash;
use std::iter;

/// The entries of a list with their indices, by a key. Those of one key are in list order.
struct Queues<'c, K>(HashMap<K, VecDeque<(usize, &'c Entry)>>);

impl<'c, K: Eq + Hash> Queues<'c, K> {
    fn new(content: &'c Content, key: impl Fn(&'c Entry) -> K) -> Queues<'c, K> {
        let mut queues: HashMap<K, VecDeque<(usize, &Entry)>> = HashMap::new();
        for numbered in content.entries.iter().enumerate() {
            let queue = queues.entry(key(numbered.1)).or_default();
            queue.push_back(numbered);
        }
        Queues(queues)
    }

    /// Removes the next entry of a key.
    fn take(&mut self, key: &K) -> Option<(usize, &'c Entry)> {
        self.0.get_mut(key)?.pop_front()
    }
}

/// The condition and the key of an entry.
fn place(entry: &Entry) -> (&str, &str) {
    (&entry.condition, &entry.key)
}

impl Comparison<'_, '_> {
    /// Compares two lists. First come the entries with the same condition in both, then those that
    /// moved to another one or are gone, and last the new ones.
    pub(crate) fn compare_lists(&mut self, old: &Content, new: &Content) {
        let mut by_place = Queues::new(new, place);
        let mut found = HashSet::new();
        let mut left = Vec::new();
        let mut last = 0;
        let mut is_in_order = true;
        for entry in &old.entries {
            let Some((number, other)) = by_place.take(&place(entry)) else {
                left.push(entry);
                continue;
            };
            found.insert(number);
            is_in_order &= last <= number;
            last = number;
            self.compare_entries(&other.condition, entry, other);
        }
        self.add_left(&left, new, &mut found);
        for (number, entry) in new.entries.iter().enumerate() {
            if !found.contains(&number) {
                self.add_one(entry, true, None);
            }
        }
        if !is_in_order {
            self.add_note(Note::Order);
        }
    }

    /// Adds the old entries without a counterpart under the same condition. One under another
    /// condition may mean the same, since conditions are compared by their form.
    fn add_left(&mut self, left: &[&Entry], new: &Content, found: &mut HashSet<usize>) {
        let mut by_key = Queues::new(new, |entry| entry.key.as_str());
        for entry in left {
            let mut others = iter::from_fn(|| by_key.take(&entry.key.as_str()));
            match others.find(|(number, _)| found.insert(*number)) {
                Some((_, other)) => {
                    let (old, new) = (entry.with_condition(), other.with_condition());
                    self.add_replaced("", old, new, Some(Note::MayDiffer));
                }
                None => self.add_one(entry, false, None),
            }
        }
    }
}
