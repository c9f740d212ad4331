//! A walk through the trees of an item, with what they read, set and ask for.

use crate::context::Context;
use crate::visit::for_children;
use crate::warning::Findings;
use edd_instructions::Sort;
use edd_syntax::expr::Expr;
use edd_syntax::reference::Target;
use std::collections::BTreeSet;

/// What an expression does with a place.
#[derive(Clone, Copy)]
pub(crate) enum Use {
    Read(Target),
    Write(Target),
}

/// The slots of a method's locals.
pub(crate) type Slots = BTreeSet<u8>;

/// A walk through the trees of an item, in the order of the source.
pub(crate) struct Walk<'w, 'd> {
    pub(crate) context: &'w Context<'d>,
    pub(crate) findings: &'w mut Findings<'d>,
    pub(crate) sort: Sort,
    /// The slots that are read so far.
    pub(crate) reads: Slots,
    /// Those that are set so far.
    pub(crate) writes: Slots,
    /// Those that were read outside of loops when nothing had set them.
    pub(crate) early: Slots,
    /// What was read and set in loops, in the order of the source.
    pub(crate) uses: Vec<Use>,
    /// How many loops are open.
    pub(crate) loops: usize,
    /// How often the host was asked for something so far.
    pub(crate) asks: usize,
    /// How often something was set, asked for or ended so far.
    pub(crate) acts: usize,
    pub(crate) has_abort_method: bool,
    /// What is compared twice in one condition, as with both ends of a range.
    pub(crate) ranged: Option<Target>,
    /// The place whose new value is computed.
    pub(crate) assigned: Option<Target>,
    /// The variables that the open switches are over.
    pub(crate) selected: Vec<Option<u16>>,
}

impl<'w, 'd> Walk<'w, 'd> {
    pub(crate) fn new(
        sort: Sort,
        context: &'w Context<'d>,
        findings: &'w mut Findings<'d>,
    ) -> Walk<'w, 'd> {
        Walk {
            context,
            findings,
            sort,
            reads: Slots::new(),
            writes: Slots::new(),
            early: Slots::new(),
            uses: Vec::new(),
            loops: 0,
            asks: 0,
            acts: 0,
            has_abort_method: false,
            ranged: None,
            assigned: None,
            selected: Vec::new(),
        }
    }

    /// The name of a place as an expression that reads it has it.
    pub(crate) fn name_of(&self, place: Target, e: &Expr<Target>) -> String {
        match e {
            Expr::Reference(to) if *to == place => {
                let at = self.context.places.sign(e);
                self.context.source.word(at).to_owned()
            }
            _ => {
                let mut name = String::new();
                for_children(e, |inner| {
                    if name.is_empty() {
                        name = self.name_of(place, inner);
                    }
                });
                name
            }
        }
    }

    // A use matters in a loop alone.
    fn add_use(&mut self, one: Use) {
        if 0 < self.loops {
            self.uses.push(one);
        }
    }

    /// Notes that something is set, asked for or ended.
    pub(crate) fn act(&mut self) {
        self.acts = self.acts.saturating_add(1);
    }

    /// Notes that the host is asked for something.
    pub(crate) fn ask(&mut self) {
        self.asks = self.asks.saturating_add(1);
        self.act();
    }

    /// Notes that a place is read.
    pub(crate) fn read(&mut self, target: Target) {
        if let Target::Local(slot) = target {
            // What a place is set to may be computed from itself: that alone is no use of it.
            if self.assigned != Some(target) {
                self.reads.insert(slot);
            }
            let is_known = self.writes.contains(&slot) || self.assigned == Some(target);
            if self.loops == 0 && !is_known {
                self.early.insert(slot);
            }
        }
        self.add_use(Use::Read(target));
    }

    /// Notes that a place is set.
    pub(crate) fn write(&mut self, target: Target) {
        if let Target::Local(slot) = target {
            self.writes.insert(slot);
        }
        self.act();
        self.add_use(Use::Write(target));
    }

    /// Takes a local as set where a comparison is in the place of an assignment to it.
    pub(crate) fn expect(&mut self, e: &Expr<Target>) {
        if let Expr::Reference(Target::Local(slot)) = e {
            self.writes.insert(*slot);
        }
    }

    /// Notes that a place is changed from what it was, and that nothing else looks at what it was.
    pub(crate) fn count(&mut self, target: Target) {
        let before = self.assigned.replace(target);
        self.read(target);
        self.assigned = before;
        self.write(target);
    }

    /// Notes that a place is changed from what it was.
    pub(crate) fn change(&mut self, target: Target) {
        self.count(target);
        if let Target::Local(slot) = target {
            self.reads.insert(slot);
        }
    }
}
