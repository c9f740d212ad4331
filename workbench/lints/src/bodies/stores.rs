//! Values that are replaced before anything reads them.

use crate::branches::are_alike;
use crate::expressions::calls::target_of_argument;
use crate::expressions::operands::referred;
use crate::expressions::stores::{is_itself, without_parentheses};
use crate::expressions::walk::Walk;
use crate::kind::MethodKind;
use crate::source::TokenIndex;
use crate::traits::quoted;
use crate::values::environment::{Storage, storage_of};
use crate::visit::{for_children, has_child};
use edd_syntax::expr::{Argument, Expr};
use edd_syntax::operators::{Builtin, RequestKind};
use edd_syntax::reference::Target;
use edd_syntax::stmt::{Declarator, Part, Stmt};
use std::collections::{BTreeMap, BTreeSet};

/// What was stored by the statements before, and not read since, with the places of the stores.
#[derive(Default)]
struct Pending<'t> {
    stores: BTreeMap<Storage, Stored<'t>>,
    /// The places that are copies of others, with how often the other one had been set by then.
    copies: BTreeMap<Storage, (Storage, usize)>,
    /// How often each place was set.
    sets: BTreeMap<Storage, usize>,
}

/// What a store stores, with its place.
#[derive(Clone, Copy)]
enum Stored<'t> {
    Value(TokenIndex),
    /// What a technician has entered, and what was asked.
    Entry(TokenIndex, Option<&'t str>),
}

// What a technician is asked.
fn question(e: &Expr<Target>) -> Option<&str> {
    match e {
        Expr::Call { arguments, .. } => match arguments.first()? {
            Argument::Text(text) => quoted(text),
            Argument::Value(_) => None,
        },
        _ => None,
    }
}

// The variable that a call asks a technician for.
fn entered(e: &Expr<Target>) -> Option<Target> {
    match e {
        Expr::Call {
            function: Target::Function(Builtin::Ask(RequestKind::GetDevVarValue)),
            arguments,
            ..
        } => target_of_argument(arguments, 1),
        _ => None,
    }
}

impl<'t> Pending<'t> {
    fn forget(&mut self, target: Target) {
        if let Some(storage) = storage_of(target) {
            self.stores.remove(&storage);
        }
    }

    // Forgets all that an expression may read. An element may be any variable, and a call may show
    // or send them all.
    fn read(&mut self, e: &Expr<Target>) {
        match e {
            Expr::Reference(target)
            | Expr::Increment(_, target)
            | Expr::CompoundAssign(_, target, _) => self.forget(*target),
            Expr::Indexed(..) | Expr::Call { .. } => {
                self.stores
                    .retain(|stored, _| matches!(stored, Storage::Local(_)));
            }
            _ => {}
        }
        for_children(e, |inner| self.read(inner));
    }

    // Notes a store, and returns the one that it replaces.
    fn store(&mut self, target: Target, stored: Stored<'t>) -> Option<Stored<'t>> {
        self.stores.insert(storage_of(target)?, stored)
    }

    // Notes what is entered by a call.
    fn enter(&mut self, e: &'t Expr<Target>, at: TokenIndex) {
        if let Some(storage) = entered(e).and_then(storage_of) {
            self.stores.insert(storage, Stored::Entry(at, question(e)));
        }
    }

    // The entry right before that another one replaces. The same question again may be a second try.
    fn entered_before(&mut self, e: &'t Expr<Target>) -> Option<TokenIndex> {
        match self.stores.remove(&storage_of(entered(e)?)?)? {
            Stored::Entry(at, asked) => (asked != question(e)).then_some(at),
            Stored::Value(_) => None,
        }
    }

    // Notes what an assignment copies, and returns whether it copies back what it was copied from.
    fn copy(&mut self, target: Target, value: &Expr<Target>) -> bool {
        let Some(to) = storage_of(target) else {
            return false;
        };
        let from = referred(value).and_then(storage_of);
        let original = from.and_then(|from| self.copies.get(&from));
        let is_back = original == Some(&(to, self.sets_of(to))) && from != Some(to);
        let sets = self.sets_of(to).saturating_add(1);
        self.sets.insert(to, sets);
        match from {
            Some(from) => self.copies.insert(to, (from, self.sets_of(from))),
            None => self.copies.remove(&to),
        };
        is_back
    }

    fn sets_of(&self, storage: Storage) -> usize {
        self.sets.get(&storage).copied().unwrap_or(0)
    }

    // Forgets all copies that an expression may change.
    fn change(&mut self, e: &Expr<Target>) {
        let is_plain = matches!(e, Expr::Assign(..) | Expr::Reference(_));
        if has_call(e) || !is_plain || has_child(e, has_assignment) {
            self.copies.clear();
        }
    }
}

fn has_assignment(e: &Expr<Target>) -> bool {
    let is_one = matches!(
        e,
        Expr::Assign(..) | Expr::CompoundAssign(..) | Expr::Increment(..)
    );
    is_one || has_child(e, has_assignment)
}

/// Whether an expression calls a function.
pub(super) fn has_call(e: &Expr<Target>) -> bool {
    matches!(e, Expr::Call { .. }) || has_child(e, has_call)
}

// Whether a local gets the code of a command.
fn is_code(to: Target, value: &Expr<Target>) -> bool {
    let is_command = matches!(
        value,
        Expr::Call {
            function: Target::Function(Builtin::Ask(
                RequestKind::SendCommand | RequestKind::SendCommandTrans
            )),
            ..
        }
    );
    is_command && matches!(to, Target::Local(_))
}

// Whether a statement is the same as the one before it, as where a command is sent again.
fn sends_again(e: &Expr<Target>, before: Option<&Expr<Target>>, walk: &Walk<'_, '_>) -> bool {
    let extent = |e| walk.context.places.expression(e).extent;
    let is_same = |one| are_alike(extent(one), extent(e), walk.context.source);
    has_call(e) && before.is_some_and(is_same)
}

/// What a branch does with places before it does anything else with them.
#[derive(Default)]
struct First {
    reads: BTreeSet<Storage>,
    sets: BTreeSet<Storage>,
    /// Whether it may read all variables.
    reads_all: bool,
    has_statement: bool,
}

impl First {
    fn of(s: &Stmt<Target>) -> First {
        let mut first = First::default();
        first.add(s);
        first
    }

    // Only what is surely done is followed; what else may read anything.
    fn add(&mut self, s: &Stmt<Target>) {
        match s {
            Stmt::Evaluate(e) => self.add_expression(e),
            Stmt::Block(parts) => {
                for part in parts {
                    match part {
                        Part::Statement(s) if !self.reads_all => self.add(s),
                        _ => self.reads_all = true,
                    }
                }
            }
            Stmt::IfElse(condition, one, other) => {
                self.read(condition);
                self.add_joined(First::of(one).joined(First::of(other)));
            }
            Stmt::Switch(on, parts) => self.add_switch(on, parts),
            Stmt::Empty => {}
            _ => self.reads_all = true,
        }
    }

    // A `switch` with a default, each of whose cases ends with a `break` or as the last one.
    fn add_switch(&mut self, on: &Expr<Target>, parts: &[Part<Target>]) {
        self.read(on);
        let mut has_default = false;
        let mut cases: Vec<First> = Vec::new();
        let mut is_open = false;
        for part in parts {
            match part {
                Part::CaseLabel { .. } | Part::DefaultLabel { .. } => {
                    has_default |= matches!(part, Part::DefaultLabel { .. });
                    if !is_open {
                        cases.push(First::default());
                    }
                    is_open = true;
                }
                Part::Statement(Stmt::Break { .. }) => is_open = false,
                Part::Statement(s) if is_open => {
                    if let Some(last) = cases.last_mut() {
                        last.add(s);
                        last.has_statement = true;
                    }
                }
                _ => self.reads_all = true,
            }
            // Statements that go on with the next case are not followed.
            let falls = matches!(part, Part::CaseLabel { .. } | Part::DefaultLabel { .. })
                && cases.last().is_some_and(|last| last.has_statement);
            self.reads_all |= falls;
        }
        let Some(first) = cases.pop().filter(|_| has_default) else {
            self.reads_all = true;
            return;
        };
        let all = cases.into_iter().fold(first, First::joined);
        self.add_joined(all);
    }

    // What one of two branches does.
    fn joined(self, other: First) -> First {
        First {
            reads: self.reads.union(&other.reads).copied().collect(),
            sets: self.sets.intersection(&other.sets).copied().collect(),
            reads_all: self.reads_all || other.reads_all,
            has_statement: true,
        }
    }

    fn add_joined(&mut self, all: First) {
        let reads = all.reads.iter().filter(|place| !self.sets.contains(place));
        self.reads.extend(reads.copied().collect::<Vec<_>>());
        let sets = all.sets.iter().filter(|place| !self.reads.contains(place));
        self.sets.extend(sets.copied().collect::<Vec<_>>());
        self.reads_all |= all.reads_all;
    }

    fn add_expression(&mut self, e: &Expr<Target>) {
        let Expr::Assign(to, value) = e else {
            return self.read(e);
        };
        self.read(value);
        if let Some(place) = storage_of(*to).filter(|place| !self.reads.contains(place))
            && !self.reads_all
        {
            self.sets.insert(place);
        }
    }

    fn read(&mut self, e: &Expr<Target>) {
        match e {
            Expr::Reference(target)
            | Expr::Increment(_, target)
            | Expr::CompoundAssign(_, target, _) => {
                let place = storage_of(*target).filter(|place| !self.sets.contains(place));
                self.reads.extend(place);
            }
            Expr::Indexed(..) | Expr::Call { .. } | Expr::Assign(..) => self.reads_all = true,
            _ => {}
        }
        for_children(e, |inner| self.read(inner));
    }
}

// The stores that both branches of an `if` replace before they read them.
fn check_branches(part: &Part<Target>, pending: &Pending<'_>, walk: &mut Walk<'_, '_>) {
    let Part::Statement(s @ (Stmt::IfElse(..) | Stmt::Switch(..))) = part else {
        return;
    };
    if pending.stores.is_empty() {
        return;
    }
    let first = First::of(s);
    for (place, stored) in &pending.stores {
        let kind = match (stored, s) {
            (Stored::Value(_), _) => MethodKind::DeadStore,
            (Stored::Entry(..), Stmt::IfElse(..)) => MethodKind::ReplacedEntry,
            // Some cases of what is entered may be replaced by the nearest one that is allowed.
            (Stored::Entry(..), _) => continue,
        };
        let (Stored::Value(at) | Stored::Entry(at, _)) = stored;
        if first.sets.contains(place) && !first.reads.contains(place) {
            walk.findings.add(*at, kind);
        }
    }
}

// A comparison of a place with what was copied from it, where neither was set since.
fn check_copy(condition: &Expr<Target>, pending: &Pending<'_>, walk: &mut Walk<'_, '_>) {
    let e = without_parentheses(condition);
    let Expr::Compare(_, first, second) = e else {
        return;
    };
    let places = referred(first)
        .and_then(storage_of)
        .zip(referred(second).and_then(storage_of));
    let is_copy = |one: &Storage, other: Storage| {
        pending.copies.get(one) == Some(&(other, pending.sets_of(other)))
    };
    if let Some((one, other)) = places
        && (is_copy(&one, other) || is_copy(&other, one))
    {
        walk.findings
            .add(walk.context.places.sign(e), MethodKind::ComparedCopy);
    }
}

// The values of declared locals that are copies.
fn declare<'t>(declarators: &'t [Declarator<Target>], pending: &mut Pending<'t>) {
    for one in declarators {
        if let Some(value) = &one.value {
            pending.read(value);
            pending.change(value);
            pending.copy(one.place, value);
        }
    }
}

// A part that is no expression: what is stored before it is not followed any more.
fn pass<'t>(part: &'t Part<Target>, pending: &mut Pending<'t>, walk: &mut Walk<'_, '_>) {
    if let Part::Declare(declarators) = part {
        pending.stores.clear();
        return declare(declarators, pending);
    }
    if let Part::Statement(Stmt::If(condition, _) | Stmt::IfElse(condition, ..)) = part {
        check_copy(condition, pending, walk);
    }
    check_branches(part, pending, walk);
    *pending = Pending::default();
}

// Checks an expression that is evaluated for what it does alone, as a question to the technician.
fn check_evaluated<'t>(
    e: &'t Expr<Target>,
    at: TokenIndex,
    pending: &mut Pending<'t>,
    walk: &mut Walk<'_, '_>,
) {
    if let Some(earlier) = pending.entered_before(e) {
        walk.findings
            .add_beside(earlier, MethodKind::ReplacedEntry, at);
    }
    pending.read(e);
    pending.enter(e, at);
}

/// Checks the stores of a block, one after the other.
pub(super) fn check_stores(parts: &[Part<Target>], walk: &mut Walk<'_, '_>) {
    let mut pending = Pending::default();
    let mut last: Option<&Expr<Target>> = None;
    for part in parts {
        let Part::Statement(Stmt::Evaluate(e)) = part else {
            pass(part, &mut pending, walk);
            continue;
        };
        let before = last.replace(e);
        pending.change(e);
        let at = walk.context.places.sign(e);
        let Expr::Assign(to, value) = e else {
            check_evaluated(e, at, &mut pending, walk);
            continue;
        };
        pending.read(value);
        if pending.copy(*to, value) {
            walk.findings.add(at, MethodKind::CopiedBack);
        }
        let replaced = match pending.store(*to, Stored::Value(at)) {
            Some(Stored::Value(earlier)) => {
                let is_again = sends_again(e, before, walk);
                (!is_again).then_some((earlier, MethodKind::DeadStore))
            }
            Some(Stored::Entry(earlier, _)) => Some((earlier, MethodKind::ReplacedEntry)),
            None => None,
        };
        if let Some((earlier, kind)) = replaced {
            walk.findings.add_beside(earlier, kind, at);
        }
        // A place that is set to itself has a warning of its own, and 0 is where many begin.
        if (has_call(value) && !is_code(*to, value))
            || is_itself(*to, value)
            || matches!(**value, Expr::Literal(0))
        {
            pending.forget(*to);
        }
        pending.enter(value, at);
    }
}
