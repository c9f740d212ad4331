//! The values of conditionals, in the order of the source.

use edd_syntax::cond::{Arm, Cond};
use edd_syntax::item::{Enumerator, TypePart};
use edd_syntax::reference::Target;

/// A value with the number of its list: each branch of a condition has a list of its own, and what
/// is under no condition that of number 0.
#[derive(Clone, Copy)]
pub(crate) struct Listed<'t, V> {
    pub(crate) list: usize,
    pub(crate) value: &'t V,
}

struct Gathering<'t, V> {
    lists: usize,
    all: Vec<Listed<'t, V>>,
}

impl<'t, V> Gathering<'t, V> {
    fn new() -> Self {
        Gathering {
            lists: 0,
            all: Vec::new(),
        }
    }

    fn add(&mut self, conditional: &'t Cond<Target, V>, list: usize) {
        match conditional {
            Cond::Value(value) => self.all.push(Listed { list, value }),
            Cond::If {
                first, otherwise, ..
            } => {
                self.add_branch(first);
                self.add_branch(otherwise);
            }
            Cond::Select { arms, .. } => {
                for arm in arms {
                    let (Arm::Case { body, .. } | Arm::Default { body, .. }) = arm;
                    self.add_branch(body);
                }
            }
        }
    }

    fn add_branch(&mut self, all: &'t [Cond<Target, V>]) {
        self.lists = self.lists.saturating_add(1);
        let list = self.lists;
        for conditional in all {
            self.add(conditional, list);
        }
    }
}

/// Whether a conditional of single values gives one whatever its conditions are.
pub(crate) fn is_total<V>(conditional: &Cond<Target, V>) -> bool {
    let has_value = |body: &[Cond<Target, V>]| !body.is_empty() && body.iter().all(is_total);
    match conditional {
        Cond::Value(_) => true,
        Cond::If {
            first, otherwise, ..
        } => has_value(first) && has_value(otherwise),
        Cond::Select { arms, .. } => {
            let has_default = arms.iter().any(|arm| matches!(arm, Arm::Default { .. }));
            has_default
                && arms.iter().all(|arm| {
                    let (Arm::Case { body, .. } | Arm::Default { body, .. }) = arm;
                    has_value(body)
                })
        }
    }
}

/// The values of a conditional: one, where it has no conditions.
pub(crate) fn values_in<V>(conditional: &Cond<Target, V>) -> impl Iterator<Item = Listed<'_, V>> {
    let (one, more) = match conditional {
        Cond::Value(value) => (Some(Listed { list: 0, value }), Vec::new()),
        _ => (None, values_of(std::slice::from_ref(conditional))),
    };
    one.into_iter().chain(more)
}

/// The values of a list.
pub(crate) fn values_of<V>(all: &[Cond<Target, V>]) -> Vec<Listed<'_, V>> {
    let mut gathering = Gathering::new();
    for conditional in all {
        gathering.add(conditional, 0);
    }
    gathering.all
}

/// The enumerators of a type.
pub(crate) fn enumerators_of(parts: &[TypePart<Target>]) -> Vec<Listed<'_, Enumerator>> {
    let mut gathering = Gathering::new();
    for part in parts {
        if let TypePart::Element(conditional) = part {
            gathering.add(conditional, 0);
        }
    }
    gathering.all
}
