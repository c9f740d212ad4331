//! Two hosts: one reads its answers from a list, the other computes them.

use edd_instructions::Request;
use edd_plain_std::alloc::Global;
use edd_plain_std::vec::Vec as PlainVec;
use edd_port::{Host, Reply};
use edd_syntax::answer::Answer;
use std::fmt::{self, Display};
use std::vec::IntoIter;

/// What a host has answered, and how often it did not.
#[derive(Default)]
struct Book {
    given: Vec<(Request, Answer)>,
    missing: u64,
    failed: u64,
}

impl Book {
    /// Notes the answer to a request.
    fn give(&mut self, request: &Request, answer: Answer) -> Reply {
        self.given.push((*request, answer));
        Reply::Give
    }

    /// Returns the last answer, or an abort before the first.
    fn last(&self) -> &Answer {
        self.given
            .last()
            .map_or(&Answer::Abort, |(_, answer)| answer)
    }
}

impl Display for Book {
    fn fmt(&self, formatter: &mut fmt::Formatter<'_>) -> fmt::Result {
        let (given, missing, failed) = (self.given.len(), self.missing, self.failed);
        write!(
            formatter,
            "{given} given, {missing} missing, {failed} failed"
        )
    }
}

/// A host that gives the answers of a list.
#[derive(Default)]
pub struct Script {
    answers: IntoIter<Answer>,
    book: Book,
}

impl Script {
    pub fn new(answers: Vec<Answer>) -> Self {
        let answers = answers.into_iter();
        Script {
            answers,
            book: Book::default(),
        }
    }
}

impl Host for Script {
    fn reply(&mut self, request: &Request) -> Reply {
        let Some(answer) = self.answers.next() else {
            self.book.missing = self.book.missing.saturating_add(1);
            return Reply::Nothing;
        };
        self.book.give(request, answer)
    }

    fn given(&self) -> &Answer {
        self.book.last()
    }
}

impl Display for Script {
    fn fmt(&self, formatter: &mut fmt::Formatter<'_>) -> fmt::Result {
        self.book.fmt(formatter)
    }
}

/// A host that answers each command with seven times its number, after some failures.
#[derive(Default)]
pub struct Device {
    failures_to_come: u8,
    book: Book,
}

impl Device {
    pub fn new(failures_to_come: u8) -> Self {
        Device {
            failures_to_come,
            book: Book::default(),
        }
    }
}

fn answer_to(request: Request) -> Answer {
    match request {
        Request::SendCommand(number) => Answer::Go {
            code: number.wrapping_mul(7),
            sets: PlainVec::new(Global),
        },
        _ => Answer::Abort,
    }
}

impl Host for Device {
    fn reply(&mut self, request: &Request) -> Reply {
        if let Some(left) = self.failures_to_come.checked_sub(1) {
            self.failures_to_come = left;
            self.book.failed = self.book.failed.saturating_add(1);
            return Reply::Failed;
        }
        self.book.give(request, answer_to(*request))
    }

    fn given(&self) -> &Answer {
        self.book.last()
    }
}

impl Display for Device {
    fn fmt(&self, formatter: &mut fmt::Formatter<'_>) -> fmt::Result {
        self.book.fmt(formatter)
    }
}

#[cfg(test)]
mod tests {
    use super::*;

    #[test]
    fn a_script_gives_its_answers_in_order() {
        let mut script = Script::new(vec![answer_to(Request::SendCommand(3))]);
        assert_eq!(script.reply(&Request::SaveValues), Reply::Give);
        assert!(matches!(script.given(), Answer::Go { code: 21, .. }));
        assert_eq!(script.reply(&Request::SaveValues), Reply::Nothing);
        assert_eq!(script.to_string(), "1 given, 1 missing, 0 failed");
    }

    #[test]
    fn a_device_fails_as_often_as_it_is_told() {
        let mut device = Device::new(1);
        assert_eq!(device.reply(&Request::SendCommand(2)), Reply::Failed);
        assert_eq!(device.reply(&Request::SendCommand(2)), Reply::Give);
        assert!(matches!(device.given(), Answer::Go { code: 14, .. }));
        assert_eq!(device.reply(&Request::SaveValues), Reply::Give);
        assert!(matches!(device.given(), Answer::Abort));
        assert_eq!(device.to_string(), "2 given, 0 missing, 1 failed");
    }
}
