//! A run, followed an instruction at a time.

use crate::Description;
use crate::cursor::TokenIndex;
use crate::effect::Effect;
use crate::event::{Cause, Event, EventKind, LocalValue};
use crate::locals::{Local, Locals};
use crate::places::MethodPlaces;
use crate::rules::Entry;
use core_std::alloc::Global;
use edd_device::{Device, DeviceFault};
use edd_instructions::{Request, Status};
use edd_loader::Image;
use edd_machine::{Machine, Values, find_body, set_fault};
use edd_port::{Ending, PlayFault, Turn, execute, go_on, turn_of};
use edd_run::{MethodRun, RunError, find_method};
use edd_syntax::answer::Answer;
use edd_syntax::numbers::{MethNo, VarNo};
use std::collections::{HashMap, HashSet};
use std::mem;
use std::ops::ControlFlow;
use std::slice;

/// The most instructions and answers that are followed.
const MOST: u64 = 100_000;

/// Does a run once more, and returns what it does. The image is that of the description; with the image
/// of a simulated device, that answers too.
///
/// # Errors
///
/// As of [`edd_run::play`].
pub fn trace<'b>(
    description: &Description<'_>,
    image: &Image<'b>,
    run: &MethodRun<'_>,
    device: Option<&Image<'b>>,
) -> Result<Vec<Event>, RunError> {
    let script = edd_script::parse(Global, image, run.script)?;
    let method = find_method(image, run.method)?;
    let unit = find_body(image, method).ok_or(PlayFault::NoItem)?;
    let mut follower = Follower {
        description,
        image,
        places: MethodPlaces::find(description, image, method),
        locals: Locals::find(description, method),
        machine: Machine::open(unit),
        values: Values::new(Global, image, &script.values)?,
        device: device
            .map(|device| Device::new(Global, image, device))
            .transpose()?,
        answers: script.answers.iter(),
        left: run.steps.into(),
        requests: 0,
        token: None,
        events: Vec::new(),
    };
    follower.follow()?;
    let count = follower.answers.len();
    let mut events = follower.events;
    if 0 < count {
        let met = script.answers.len().saturating_sub(count);
        if let Some(line) = edd_script::answer_line(Global, image, run.script, met)? {
            let kind = EventKind::LeavesAnswers { count, line };
            events.push(Event { place: None, kind });
        }
    }
    Ok(events)
}

/// Where a run is, and what it did so far.
struct Follower<'f, 'b> {
    description: &'f Description<'f>,
    image: &'f Image<'b>,
    /// The places of the method that runs.
    places: MethodPlaces,
    locals: Locals,
    machine: Machine,
    values: Values,
    device: Option<Device<'f, 'b>>,
    /// The answers of the script that are left.
    answers: slice::Iter<'f, Answer>,
    /// How many instructions may still be executed.
    left: u64,
    requests: usize,
    /// Where the last instruction is in the source.
    token: Option<TokenIndex>,
    events: Vec<Event>,
}

impl Follower<'_, '_> {
    /// Tells what the last instruction did.
    fn tell(&mut self, kind: EventKind) {
        self.tell_at(self.token, kind);
    }

    fn tell_at(&mut self, token: Option<TokenIndex>, kind: EventKind) {
        let place = token.and_then(|token| self.description.span(token));
        self.events.push(Event { place, kind });
    }

    /// Tells the locals that the last instruction sees, if there are some.
    fn tell_locals(&mut self) {
        let Some(token) = self.token else { return };
        let mut names = HashSet::new();
        let seen = self.locals.seen_at(token);
        let mut values: Vec<LocalValue> = seen
            .filter_map(|local| self.value_of_local(local))
            .filter(|local| names.insert(self.description.read(local.name)))
            .collect();
        values.reverse();
        if !values.is_empty() {
            self.tell(EventKind::HasLocals(values));
        }
    }

    fn value_of_local(&self, local: Local) -> Option<LocalValue> {
        let slot = usize::from(local.slot);
        Some(LocalValue {
            name: self.description.span(local.name)?,
            value: self.machine.slots.as_slice().get(slot).copied()?,
        })
    }

    fn follow(&mut self) -> Result<(), RunError> {
        for _ in 0..MOST {
            if let ControlFlow::Break(ending) = self.advance()? {
                self.tell_at(None, EventKind::Ends(ending));
                return Ok(());
            }
        }
        self.tell_at(None, EventKind::IsCut { steps: MOST });
        Ok(())
    }

    /// Meets the pending request, or executes an instruction.
    fn advance(&mut self) -> Result<ControlFlow<Ending>, RunError> {
        let ending = match turn_of(self.machine.status) {
            Turn::Asks(request) => return self.meet(request),
            Turn::Spent if 0 < self.left => {
                self.step();
                return Ok(ControlFlow::Continue(()));
            }
            Turn::Spent => Ending::Spent,
            Turn::Ended => Ending::Ended,
            Turn::Aborted => Ending::Aborted,
            Turn::Trapped(why) => Ending::Trapped(why),
        };
        Ok(ControlFlow::Break(ending))
    }

    fn value(&self, variable: VarNo) -> i64 {
        self.values.get(variable).unwrap_or(0)
    }

    /// Executes an instruction, and tells what it did.
    fn step(&mut self) {
        self.left = self.left.saturating_sub(1);
        let here = self.places.at(self.machine.place);
        self.token = here.map(|known| known.token);
        match here.map(|known| known.effect) {
            Some(Effect::Store(variable)) => {
                let old = self.value(variable);
                self.execute();
                self.tell_change(variable, (old, self.value(variable)), Cause::Method);
            }
            Some(Effect::Abort) => {
                self.tell(EventKind::Aborts(Cause::Method));
                self.execute();
            }
            _ => {
                self.execute();
                if let Status::Trapped(why) = self.machine.status {
                    self.tell(EventKind::Traps(why));
                    self.tell_locals();
                }
            }
        }
    }

    fn execute(&mut self) {
        let values = self.values.numbers.as_mut_slice();
        let listed = self.machine.abort_methods.numbers().len();
        execute(self.image, &mut self.machine, values, 1);
        self.enter_abort_method(listed);
    }

    /// Tells that the next abort method starts, where it was taken off the list, which had so many.
    fn enter_abort_method(&mut self, listed: usize) {
        let is_taken = self.machine.abort_methods.numbers().len() < listed;
        if is_taken && matches!(self.machine.status, Status::Running) {
            let method = MethNo(self.machine.unit.item);
            self.places = MethodPlaces::find(self.description, self.image, method);
            self.locals = Locals::find(self.description, method);
            let name = self.description.method_name(method);
            self.tell_at(name, EventKind::EntersAbortMethod(method));
        }
    }

    fn tell_change(&mut self, variable: VarNo, (old, new): (i64, i64), by: Cause) {
        if old != new {
            self.tell(EventKind::Changes {
                variable,
                old,
                new,
                by,
            });
        }
    }

    /// Meets a request with the answer of the device, else with the next one of the script.
    fn meet(&mut self, request: Request) -> Result<ControlFlow<Ending>, RunError> {
        self.requests = self.requests.saturating_add(1);
        let number = self.requests;
        self.tell(EventKind::Asks { number, request });
        self.tell_locals();
        if let Some(answer) = self.ask_device(request)? {
            return Ok(self.take(&answer));
        }
        let Some(answer) = self.answers.next() else {
            return Ok(ControlFlow::Break(Ending::Waiting));
        };
        self.check_entry(request, answer)?;
        Ok(self.take(answer))
    }

    /// What a device answers, if it does. Where it has a fault the method is aborted.
    fn ask_device(&mut self, request: Request) -> Result<Option<Answer>, RunError> {
        let Some(device) = &mut self.device else {
            return Ok(None);
        };
        match device.reply(Global, &request, &self.values) {
            Ok(answer) => Ok(answer),
            Err(DeviceFault::Memory) => Err(RunError::Memory),
            Err(_) => Ok(Some(Answer::Abort)),
        }
    }

    /// Tells of a value that a technician could not have entered.
    fn check_entry(&mut self, request: Request, answer: &Answer) -> Result<(), RunError> {
        let (Request::GetDevVarValue(_, asked), Answer::Go { sets, .. }) = (request, answer) else {
            return Ok(());
        };
        for &(variable, number) in sets.iter().filter(|set| set.0 == asked) {
            let entry = Entry {
                image: self.image,
                values: &self.values,
                variable,
            };
            if let Some(why) = entry.refuse(number)? {
                self.tell(EventKind::Enters {
                    variable,
                    number,
                    why,
                });
            }
        }
        Ok(())
    }

    /// Goes on with an answer. The run was played before, so that none is refused.
    fn take(&mut self, answer: &Answer) -> ControlFlow<Ending> {
        let code = match answer {
            Answer::Go { code, sets } => {
                if !self.make_sets(sets) {
                    return ControlFlow::Break(Ending::Waiting);
                }
                Some(*code)
            }
            Answer::Abort => {
                self.tell(EventKind::Aborts(Cause::Answer));
                None
            }
        };
        let listed = self.machine.abort_methods.numbers().len();
        go_on(self.image, &mut self.machine, code);
        self.enter_abort_method(listed);
        ControlFlow::Continue(())
    }

    /// Makes the sets of an answer, and returns whether the core allows each of them.
    fn make_sets(&mut self, sets: &[(VarNo, i64)]) -> bool {
        let is_refused = |set: &(VarNo, i64)| set_fault(self.image, set.0, set.1).is_some();
        if sets.iter().any(is_refused) {
            return false;
        }
        // Where a variable is set more than once, the last one counts.
        let mut last: HashMap<u16, i64> = sets.iter().map(|set| (set.0.0, set.1)).collect();
        for &(variable, _) in sets {
            if let Some(new) = last.remove(&variable.0) {
                self.set(variable, new);
            }
        }
        true
    }

    fn set(&mut self, variable: VarNo, new: i64) {
        let numbers = &mut self.values.numbers;
        if let Some(value) = numbers.get_mut(usize::from(variable.0)) {
            let old = mem::replace(value, new);
            self.tell_change(variable, (old, new), Cause::Answer);
        }
    }
}
