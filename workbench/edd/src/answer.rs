//! What answers the request of a method.

use core_std::vec::Vec as CoreVec;
use edd_syntax::answer::Answer as CoreAnswer;
use edd_syntax::numbers::VarNo;

/// The answer to the request of a method.
///
/// ```
/// use edd::{Answer, VarNo};
///
/// let done = Answer::code(0);
/// let measured = Answer::Go { code: 0, sets: vec![(VarNo(3), 240)] };
/// assert_ne!(done, measured);
/// ```
#[derive(Clone, Debug, PartialEq, Eq)]
pub enum Answer {
    /// The method goes on.
    Go {
        /// The value of the request.
        code: i32,
        /// Which variables the device has set, in this order.
        sets: Vec<(VarNo, i64)>,
    },
    /// The method is aborted: its abort methods run, and then it is over.
    Abort,
}

impl Answer {
    /// An answer that sets no variables.
    pub fn code(code: i32) -> Answer {
        Answer::Go {
            code,
            sets: Vec::new(),
        }
    }

    pub(crate) fn to_core(&self) -> CoreAnswer {
        match self {
            Answer::Go { code, sets } => CoreAnswer::Go {
                code: *code,
                sets: CoreVec::from_real(sets.clone()),
            },
            Answer::Abort => CoreAnswer::Abort,
        }
    }

    pub(crate) fn from_core(answer: CoreAnswer) -> Answer {
        match answer {
            CoreAnswer::Go { code, sets } => Answer::Go {
                code,
                sets: sets.into_real(),
            },
            CoreAnswer::Abort => Answer::Abort,
        }
    }

    pub(crate) fn all_to_core(answers: &[Answer]) -> Vec<CoreAnswer> {
        answers.iter().map(Answer::to_core).collect()
    }
}
