//! How a run of a method came about: where its source asks, changes variables, aborts and traps.
//!
//! [`trace`] does a run once more with the core's machine, an instruction at a time, and returns what it
//! did as [`Event`]s. [`TraceLines`] prints them.
//!
//! ```
//! use core_std::alloc::Global;
//! use edd_run::MethodRun;
//! use edd_source::Source;
//! use edd_trace::{Description, TraceLines, trace};
//!
//! let text = b"MANUFACTURER 1, DEVICE_TYPE 2, DEVICE_REVISION 3, DD_REVISION 4
//! VARIABLE x { TYPE INTEGER; }
//! METHOD m { DEFINITION { x = 5; x = 1 / (x - 5); } }";
//! let description = Description::compile(text)?;
//! let image = edd_loader::load(Global, description.image())?;
//! let run = MethodRun { method: "m", script: b"", language: "en", steps: 100 };
//! let events = trace(&description, &image, &run, None)?;
//! let source = Source::new("s.edd", text);
//! let lines = TraceLines { source: &source, image: &image, events: &events };
//! assert_eq!(
//!     lines.to_string(),
//!     "trace s.edd:3:27: x from 0 to 5\n\
//!      trace s.edd:3:38: trapped DIV_ZERO in METHOD m { DEFINITION { x = 5; x = 1 / (x - 5); } }\n"
//! );
//! # Ok::<(), edd_run::RunError>(())
//! ```

mod cursor;
mod description;
mod effect;
mod event;
mod expressions;
mod follower;
mod lines;
mod locals;
mod places;
mod rules;
mod statements;
mod walk;

pub use description::Description;
pub use event::{Cause, Event, EventKind, LocalValue, Unenterable};
pub use follower::trace;
pub use lines::TraceLines;
