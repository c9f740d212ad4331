//! The lines of a trace. Each begins with `trace`, as no line of a run does.

use crate::event::{Cause, Event, EventKind, LocalValue, Unenterable};
use edd_display::trap_word;
use edd_loader::Image;
use edd_source::{Source, Span};
use edd_syntax::numbers::ItemNo;
use std::collections::BTreeMap;
use std::fmt;

/// Prints what a run did, a line for each event; none of how it ended, which the lines of the run say.
#[derive(Clone, Copy)]
pub struct TraceLines<'a> {
    /// The source of the method.
    pub source: &'a Source<'a>,
    /// Its image.
    pub image: &'a Image<'a>,
    /// What the run did.
    pub events: &'a [Event],
}

impl fmt::Debug for TraceLines<'_> {
    fn fmt(&self, f: &mut fmt::Formatter<'_>) -> fmt::Result {
        f.debug_struct("TraceLines")
            .field("events", &self.events)
            .finish_non_exhaustive()
    }
}

impl fmt::Display for TraceLines<'_> {
    fn fmt(&self, f: &mut fmt::Formatter<'_>) -> fmt::Result {
        // Loops come to the same places again and again.
        let mut heads = BTreeMap::new();
        for event in self.events {
            let head = heads
                .entry(event.place)
                .or_insert_with(|| self.head(event.place));
            self.write_event(f, head, event)?;
        }
        Ok(())
    }
}

impl TraceLines<'_> {
    fn write_event(&self, f: &mut fmt::Formatter<'_>, head: &str, event: &Event) -> fmt::Result {
        if let EventKind::Ends(_) = event.kind {
            return Ok(());
        }
        f.write_str(head)?;
        self.write_kind(f, event)?;
        f.write_str("\n")
    }

    fn write_kind(&self, f: &mut fmt::Formatter<'_>, event: &Event) -> fmt::Result {
        match event.kind {
            EventKind::Asks { number, request } => {
                write!(f, "request {number} {}", request.kind().name())
            }
            EventKind::Changes {
                variable,
                old,
                new,
                by,
            } => {
                let name = self.name(ItemNo::Variable(variable));
                write!(f, "{name} from {old} to {new}{}", cause(by))
            }
            EventKind::Enters {
                variable,
                number,
                why,
            } => {
                let name = self.name(ItemNo::Variable(variable));
                write!(f, "warning: {name} is set to {number}, {why}")
            }
            EventKind::HasLocals(ref locals) => self.write_locals(f, locals),
            EventKind::Aborts(by) => write!(f, "aborted{}", cause(by)),
            EventKind::EntersAbortMethod(method) => {
                write!(
                    f,
                    "abort method {} starts",
                    self.name(ItemNo::Method(method))
                )
            }
            EventKind::Traps(why) => {
                write!(f, "trapped {}", trap_word(why))?;
                self.write_line_of(f, event.place)
            }
            EventKind::Ends(_) => Ok(()),
            EventKind::IsCut { steps } => {
                write!(f, "no more than {steps} instructions are followed")
            }
            EventKind::LeavesAnswers { count, line } => write_left_answers(f, count, line),
        }
    }

    fn write_locals(&self, f: &mut fmt::Formatter<'_>, locals: &[LocalValue]) -> fmt::Result {
        let text = self.source.lines.text();
        let mut before = "locals";
        for LocalValue { name, value } in locals {
            write!(f, "{before} {} = {value}", name.read(text))?;
            before = ",";
        }
        Ok(())
    }

    /// What a line begins with, up to what is told.
    fn head(&self, place: Option<Span>) -> String {
        match place.map(|place| self.source.spot(place)) {
            Some(spot) => format!("trace {}:{}:{}: ", spot.file, spot.line, spot.column),
            None => "trace: ".to_owned(),
        }
    }

    /// Writes the line of the source that a trap is on.
    fn write_line_of(&self, f: &mut fmt::Formatter<'_>, place: Option<Span>) -> fmt::Result {
        match place.map(|place| self.source.spot(place).text.trim()) {
            Some(line) if !line.is_empty() => write!(f, " in {line}"),
            _ => Ok(()),
        }
    }

    fn name(&self, item: ItemNo) -> &str {
        self.image.name(item).unwrap_or_default()
    }
}

impl fmt::Display for Unenterable {
    fn fmt(&self, f: &mut fmt::Formatter<'_>) -> fmt::Result {
        match self {
            Unenterable::UnderMin(least) => write!(f, "under MIN_VALUE {least}"),
            Unenterable::OverMax(greatest) => write!(f, "over MAX_VALUE {greatest}"),
            Unenterable::NoEnumerator => f.write_str("which no enumerator is"),
        }
    }
}

/// What follows what the answer to a request does.
fn cause(by: Cause) -> &'static str {
    match by {
        Cause::Method => "",
        Cause::Answer => ", by the answer",
    }
}

fn write_left_answers(f: &mut fmt::Formatter<'_>, count: usize, line: usize) -> fmt::Result {
    match count {
        1 => write!(
            f,
            "warning: the answer on line {line} of the script is left over"
        ),
        _ => write!(
            f,
            "warning: {count} answers are left over, the first on line {line} of the script"
        ),
    }
}
