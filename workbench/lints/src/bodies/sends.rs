//! Values that are lost: a reply replaces them before a command has sent them, or they are saved before they
//! are changed; and copies that are made too late.

use crate::context::Context;
use crate::expressions::calls::{number_of_argument, target_of_argument};
use crate::expressions::operands::referred;
use crate::instrument::variable_of;
use crate::kind::MethodKind;
use crate::source::{TokenIndex, index};
use crate::traits::classes_of;
use crate::visit::{Visitor, for_children, visit_parts, visit_statement};
use crate::warning::Findings;
use edd_constants::evaluate;
use edd_instructions::Sort;
use edd_syntax::expr::{Argument, Expr};
use edd_syntax::operators::{Builtin, RequestKind};
use edd_syntax::reference::Target;
use edd_syntax::stmt::{Part, Stmt};
use std::collections::{BTreeMap, HashMap, HashSet};

/// Of how many variables it is known at most that they are not sent.
const MOST_PENDING: usize = 64;

/// What was put into a variable, and where.
#[derive(Clone, Copy)]
enum Put {
    Entered(TokenIndex),
    Stored(TokenIndex),
}

/// A walk through the statements of a block, with what no command has sent so far.
struct Unsent<'c, 'd, 'f> {
    context: &'c Context<'d>,
    findings: &'f mut Findings<'d>,
    pending: BTreeMap<u16, Put>,
}

impl Unsent<'_, '_, '_> {
    fn call(&mut self, at: TokenIndex, function: Builtin, arguments: &[Argument<Target>]) {
        match function {
            Builtin::Ask(RequestKind::GetDevVarValue) => {
                let target = target_of_argument(arguments, 1);
                if let Some(variable) = target.and_then(variable_of) {
                    self.put(variable, Put::Entered(at));
                }
            }
            Builtin::Ask(RequestKind::SendCommand | RequestKind::SendCommandTrans) => {
                self.send(arguments);
            }
            Builtin::Ask(
                RequestKind::PutMessage | RequestKind::Acknowledge | RequestKind::Delay,
            ) => {}
            _ => self.pending.clear(),
        }
    }

    // Only what may be entered is there to be sent.
    fn put(&mut self, variable: u16, put: Put) {
        let known = self.context.instrument.variable(variable);
        let is_sent =
            known.is_some_and(|known| !known.is_read_only && !classes_of(known).contains("LOCAL"));
        let has_room = self.pending.len() < MOST_PENDING || self.pending.contains_key(&variable);
        if is_sent && has_room {
            self.pending.insert(variable, put);
        } else {
            self.pending.remove(&variable);
        }
    }

    fn send(&mut self, arguments: &[Argument<Target>]) {
        let command = number_of_argument(arguments, 0);
        let transaction = number_of_argument(arguments, 1);
        let instrument = &self.context.instrument;
        let is_known = arguments.len() == 1 || transaction.is_some();
        let exchange = command.and_then(|command| instrument.exchange(command, transaction));
        let Some(exchange) = exchange.filter(|_| is_known) else {
            return self.pending.clear();
        };
        self.pending
            .retain(|variable, _| !exchange.sent.contains(*variable));
        let is_lost = |variable: &u16| exchange.set.contains(*variable);
        for (variable, put) in self.pending.iter().filter(|(one, _)| is_lost(one)) {
            let name = instrument.name_of(*variable);
            match put {
                Put::Entered(at) => self.findings.add(*at, MethodKind::LostEntry(name)),
                Put::Stored(at) => self.findings.add(*at, MethodKind::LostStore(name)),
            }
        }
        self.pending.retain(|variable, _| !is_lost(variable));
    }

    // Follows an expression. What it reads has been of use.
    fn follow(&mut self, e: &Expr<Target>) {
        for_children(e, |inner| {
            let is_argument = matches!(e, Expr::Call { .. }) && referred(inner).is_some();
            if !is_argument {
                self.follow(inner);
            }
        });
        match e {
            Expr::Reference(target) => self.forget(*target),
            Expr::Indexed(..) => self.pending.clear(),
            Expr::Assign(to, _) => {
                if let Some(variable) = variable_of(*to) {
                    self.put(variable, Put::Stored(self.context.places.sign(e)));
                }
            }
            Expr::CompoundAssign(_, to, _) | Expr::Increment(_, to) => self.forget(*to),
            Expr::Call {
                at,
                function: Target::Function(function),
                arguments,
            } => self.call(index(*at), *function, arguments),
            _ => {}
        }
    }

    fn forget(&mut self, target: Target) {
        if let Some(variable) = variable_of(target) {
            self.pending.remove(&variable);
        }
    }

    // Follows the statements of a block, and forgets all where they do not come one after the other.
    fn parts(&mut self, parts: &[Part<Target>]) {
        for part in parts {
            match part {
                Part::Declare(declarators) => {
                    for e in declarators.iter().filter_map(|one| one.value.as_ref()) {
                        self.follow(e);
                    }
                }
                Part::Statement(Stmt::Evaluate(e)) => self.follow(e),
                Part::Statement(Stmt::If(condition, branch)) => {
                    self.follow(condition);
                    self.branch(branch);
                }
                Part::Statement(Stmt::IfElse(condition, first, otherwise)) => {
                    self.follow(condition);
                    self.branch(first);
                    self.branch(otherwise);
                }
                Part::Statement(_) | Part::CaseLabel { .. } | Part::DefaultLabel { .. } => {
                    self.pending.clear();
                }
            }
        }
    }

    // A branch that may be taken: what it has to do with is not looked at any more.
    fn branch(&mut self, s: &Stmt<Target>) {
        if self.pending.is_empty() {
            return;
        }
        let mut named = Named::default();
        visit_statement(s, &mut named);
        if named.asks {
            self.pending.clear();
        }
        self.pending
            .retain(|variable, _| !named.variables.contains(variable));
    }
}

/// The variables that statements name, and whether these send or save.
#[derive(Default)]
struct Named {
    variables: HashSet<u16>,
    asks: bool,
    set: HashSet<u16>,
}

impl<'t> Visitor<'t> for Named {
    fn expression(&mut self, e: &'t Expr<Target>, _: Sort) {
        match e {
            Expr::Reference(target) => self.variables.extend(variable_of(*target)),
            Expr::Assign(to, _) | Expr::CompoundAssign(_, to, _) | Expr::Increment(_, to) => {
                self.variables.extend(variable_of(*to));
                self.set.extend(variable_of(*to));
            }
            Expr::Indexed(..) => self.asks = true,
            Expr::Call {
                function: Target::Function(function),
                ..
            } => {
                self.asks |= !matches!(
                    function,
                    Builtin::Ask(
                        RequestKind::PutMessage | RequestKind::Acknowledge | RequestKind::Delay
                    ) | Builtin::Abort
                        | Builtin::ProcessAbort
                );
            }
            _ => {}
        }
    }
}

/// The blocks of a body.
struct Blocks<'c, 'd, 'f> {
    context: &'c Context<'d>,
    findings: &'f mut Findings<'d>,
}

impl<'t> Visitor<'t> for Blocks<'_, '_, '_> {
    fn statement(&mut self, s: &'t Stmt<Target>) {
        if let Stmt::Block(parts) = s {
            check_block(parts, self.context, self.findings);
        }
    }
}

fn check_block<'d>(parts: &[Part<Target>], context: &Context<'d>, findings: &mut Findings<'d>) {
    let mut unsent = Unsent {
        context,
        findings,
        pending: BTreeMap::new(),
    };
    unsent.parts(parts);
}

// Where a part saves, which does nothing else.
fn saving(part: &Part<Target>) -> Option<TokenIndex> {
    match part {
        Part::Statement(Stmt::Evaluate(Expr::Call {
            at,
            function: Target::Function(Builtin::Ask(RequestKind::SaveValues)),
            ..
        })) => Some(index(*at)),
        _ => None,
    }
}

/// Checks the last save of a body, behind which it sets variables and neither sends nor saves any more.
pub(super) fn check_saves(
    parts: &[Part<Target>],
    context: &Context<'_>,
    findings: &mut Findings<'_>,
) {
    let last = parts.iter().rposition(|part| saving(part).is_some());
    let Some((at, rest)) = last.and_then(|last| {
        Some((
            saving(parts.get(last)?)?,
            parts.get(last.checked_add(1)?..)?,
        ))
    }) else {
        return;
    };
    let mut named = Named::default();
    visit_parts(rest, &mut named);
    let is_kept = |number: &u16| {
        let variable = context.instrument.variable(*number);
        variable.is_some_and(|known| !known.is_read_only && !classes_of(known).contains("LOCAL"))
    };
    if !named.asks && named.set.iter().any(is_kept) {
        findings.add(at, MethodKind::EarlySave);
    }
}

/// The copies of a body: locals that keep what a variable was just set to, and those that are stored back.
#[derive(Default)]
struct Copies {
    late: HashMap<(u8, u16), TokenIndex>,
    /// How often each local is set, and read.
    sets: HashMap<u8, usize>,
    reads: HashMap<u8, usize>,
    back: HashSet<(u8, u16)>,
    /// What each local keeps of a variable, and where it is stored.
    kept: HashMap<u8, (u16, String)>,
    stored: HashMap<u8, (u16, TokenIndex)>,
    /// The variables that are set to constants.
    constants: HashSet<u16>,
}

impl<'t> Visitor<'t> for Copies {
    fn expression(&mut self, e: &'t Expr<Target>, _: Sort) {
        if let Expr::Reference(Target::Local(slot)) = e {
            let count = self.reads.entry(*slot).or_default();
            *count = count.saturating_add(1);
        }
        let Expr::Assign(to, value) = e else {
            return;
        };
        if let Some(variable) = variable_of(*to)
            && evaluate(value, Sort::Method).number().is_some()
        {
            self.constants.insert(variable);
        }
        if let Target::Local(slot) = to {
            let count = self.sets.entry(*slot).or_default();
            *count = count.saturating_add(1);
        }
        if let (Some(variable), Some(Target::Local(slot))) = (variable_of(*to), referred(value)) {
            self.back.insert((slot, variable));
        }
    }

    fn declared(&mut self, place: Target, _: &'t Expr<Target>) {
        if let Target::Local(slot) = place {
            let count = self.sets.entry(slot).or_default();
            *count = count.saturating_add(1);
        }
    }
}

impl Copies {
    // Notes the copies of a block that are made right behind a store of a constant.
    fn add_block(&mut self, parts: &[Part<Target>], context: &Context<'_>) {
        let mut constants: HashSet<u16> = HashSet::new();
        for part in parts {
            match part {
                Part::Statement(Stmt::Evaluate(Expr::Assign(to, value))) => {
                    let at = start_of_part(part, context);
                    self.note(*to, value, at, context.source.word(at));
                    self.copy(*to, value, at, &constants);
                    if let Some(variable) = variable_of(*to) {
                        let is_constant = evaluate(value, Sort::Method).number().is_some();
                        constants.remove(&variable);
                        constants.extend(is_constant.then_some(variable));
                    }
                }
                Part::Declare(declarators) => {
                    for one in declarators {
                        let at = context.places.declarator(one);
                        match &one.value {
                            Some(value) if matches!(value, Expr::Reference(_)) => {
                                self.note(one.place, value, at, context.source.word(at));
                                self.copy(one.place, value, at, &constants);
                            }
                            _ => {}
                        }
                    }
                }
                _ => constants.clear(),
            }
        }
    }

    fn copy(&mut self, to: Target, value: &Expr<Target>, at: TokenIndex, set: &HashSet<u16>) {
        if let (Target::Local(slot), Some(variable)) = (to, referred(value).and_then(variable_of))
            && set.contains(&variable)
        {
            self.late.insert((slot, variable), at);
        }
    }

    // A local that keeps a variable, which is set to a constant, and that is stored in another one alone.
    fn report_elsewhere(&self, context: &Context<'_>, findings: &mut Findings<'_>) {
        let mut all: Vec<_> = self.stored.iter().collect();
        all.sort_unstable_by_key(|(_, (_, at))| *at);
        for (slot, (to, at)) in all {
            let count = |counts: &HashMap<u8, usize>| counts.get(slot).copied().unwrap_or(0);
            let is_single = count(&self.sets) == 1 && count(&self.reads) == 1;
            let Some((from, local)) = self.kept.get(slot).filter(|_| is_single) else {
                continue;
            };
            if from != to && self.constants.contains(from) {
                let name = context.instrument.name_of(*from);
                findings.add(*at, MethodKind::RestoredElsewhere(local.clone(), name));
            }
        }
    }

    // Notes what an assignment keeps in a local, or stores of one.
    fn note(&mut self, to: Target, value: &Expr<Target>, at: TokenIndex, name: &str) {
        match (to, referred(value)) {
            (Target::Local(slot), Some(from)) => {
                if let Some(variable) = variable_of(from) {
                    self.kept.insert(slot, (variable, name.to_owned()));
                }
            }
            (_, Some(Target::Local(slot))) => {
                if let Some(variable) = variable_of(to) {
                    self.stored.insert(slot, (variable, at));
                }
            }
            _ => {}
        }
    }

    // The copies that are stored back, of locals that keep nothing else.
    fn report(self, context: &Context<'_>, findings: &mut Findings<'_>) {
        let mut all: Vec<_> = self.late.into_iter().collect();
        all.sort_unstable_by_key(|(_, at)| *at);
        for ((slot, variable), at) in all {
            let is_kept = self.sets.get(&slot).copied().unwrap_or(0) == 1;
            if is_kept && self.back.contains(&(slot, variable)) {
                let local = context.source.word(at).to_owned();
                let name = context.instrument.name_of(variable);
                findings.add(at, MethodKind::LateCopy(local, name));
            }
        }
    }
}

/// Adds the copies of the blocks of a body.
struct Gathering<'c, 'd, 's> {
    context: &'c Context<'d>,
    copies: &'s mut Copies,
}

impl<'t> Visitor<'t> for Gathering<'_, '_, '_> {
    fn statement(&mut self, s: &'t Stmt<Target>) {
        if let Stmt::Block(parts) = s {
            self.copies.add_block(parts, self.context);
        }
    }
}

/// Checks what a body sets and sends.
pub(super) fn check_sends<'d>(
    parts: &[Part<Target>],
    context: &Context<'d>,
    findings: &mut Findings<'d>,
) {
    check_block(parts, context, findings);
    visit_parts(parts, &mut Blocks { context, findings });
}

/// Checks the locals of a body that keep values of variables.
pub(super) fn check_copies<'d>(
    parts: &[Part<Target>],
    context: &Context<'d>,
    findings: &mut Findings<'d>,
) {
    let mut copies = Copies::default();
    copies.add_block(parts, context);
    let mut gathering = Gathering {
        context,
        copies: &mut copies,
    };
    visit_parts(parts, &mut gathering);
    visit_parts(parts, &mut copies);
    copies.report_elsewhere(context, findings);
    copies.report(context, findings);
}

// The first token of a statement.
fn start_of_part(part: &Part<Target>, context: &Context<'_>) -> TokenIndex {
    match part {
        Part::Statement(s) => context.places.statement(s).extent.start,
        _ => 0,
    }
}
