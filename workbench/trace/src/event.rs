//! What a run does.

use edd_instructions::Request;
use edd_port::Ending;
use edd_source::Span;
use edd_syntax::answer::Trap;
use edd_syntax::numbers::{MethNo, VarNo};

/// One thing that a run does.
#[derive(Clone, Debug, PartialEq, Eq)]
pub struct Event {
    /// Where its source says so, as far as that is known.
    pub place: Option<Span>,
    /// What it is.
    pub kind: EventKind,
}

/// What a run does, or what is to be said of it.
#[derive(Clone, Debug, PartialEq, Eq)]
pub enum EventKind {
    /// It asks.
    Asks {
        /// The number of the request, counted from 1.
        number: usize,
        /// What it asks.
        request: Request,
    },
    /// A variable gets another value.
    Changes {
        /// Which one.
        variable: VarNo,
        /// What it was.
        old: i64,
        /// What it is.
        new: i64,
        /// What changes it.
        by: Cause,
    },
    /// An answer is a value that a technician could not have entered.
    Enters {
        /// The variable that is asked for.
        variable: VarNo,
        /// Its value.
        number: i64,
        /// Why it could not be entered.
        why: Unenterable,
    },
    /// The locals that are seen where it asks or traps, in the order of their declarations.
    HasLocals(Vec<LocalValue>),
    /// It is aborted.
    Aborts(Cause),
    /// One of its abort methods starts.
    EntersAbortMethod(MethNo),
    /// An expression has no value.
    Traps(Trap),
    /// It is over, or goes no further. The last request is without an answer where it waits.
    Ends(Ending),
    /// It goes on, and is followed no further.
    IsCut {
        /// How many instructions were followed.
        steps: u64,
    },
    /// Answers are left that no request has met.
    LeavesAnswers {
        /// How many.
        count: usize,
        /// The line of the script that has the first, counted from 1.
        line: usize,
    },
}

/// The value of a local.
#[derive(Clone, Copy, Debug, PartialEq, Eq)]
pub struct LocalValue {
    /// Where it is declared: its name in the text of the source.
    pub name: Span,
    /// Its value.
    pub value: i64,
}

/// What changes a variable or aborts a run.
#[derive(Clone, Copy, Debug, PartialEq, Eq)]
pub enum Cause {
    /// A statement of the method.
    Method,
    /// The answer to a request.
    Answer,
}

/// Why a value can't be entered for a variable.
#[derive(Clone, Copy, Debug, PartialEq, Eq)]
pub enum Unenterable {
    /// It is less than MIN_VALUE, which is this.
    UnderMin(i64),
    /// It is more than MAX_VALUE, which is this.
    OverMax(i64),
    /// No enumerator has it.
    NoEnumerator,
}
