//! Device descriptions of field instruments in EDDL: compiled to images, checked, read and run.
//!
//! A maker's source becomes an [`Image`], and a communicator works with the image alone:
//!
//! ```
//! use edd::{Answer, Image, ItemNo, Request, Session, Turn};
//!
//! let source = br#"MANUFACTURER 1, DEVICE_TYPE 2, DEVICE_REVISION 3, DD_REVISION 4
//! VARIABLE p { LABEL "|en|Pressure|de|Druck"; TYPE INTEGER (2); }
//! METHOD zero { LABEL "Set to zero"; DEFINITION { if (send_command(7) == 0) { p = 0; } } }"#;
//!
//! // A maker compiles the source, or reads why it is refused.
//! let image = edd::compile(source)?;
//! assert!(edd::check(source).diagnostics.is_empty());
//!
//! // A communicator loads the bytes of the image, which are checked.
//! let image = Image::load(image.bytes())?;
//! let mut values = image.values();
//! let Some(ItemNo::Variable(p)) = image.find("p") else { panic!("a variable") };
//! values.set(p, 120)?;
//! assert_eq!(image.label(ItemNo::Variable(p), "de", &values)?.to_string(), "Druck");
//!
//! // It runs a method, which asks.
//! let Some(ItemNo::Method(zero)) = image.find("zero") else { panic!("a method") };
//! let mut session = Session::start(&image, zero, values).map_err(|(fault, _)| fault)?;
//! assert_eq!(session.advance(1000), Turn::Asks(Request::SendCommand(7)));
//! session.answer(&Answer::code(0))?;
//! assert_eq!(session.advance(1000), Turn::Ended);
//! assert_eq!(session.into_values().get(p), Some(0));
//! # Ok::<(), Box<dyn std::error::Error>>(())
//! ```
//!
//! | To | Use |
//! |---|---|
//! | compile, check and lay out a source | [`compile`], [`check()`], [`format()`] |
//! | load an image, and list what it has | [`Image`] |
//! | hold device values, and read attributes under them | [`Values`], [`Image::attribute`] |
//! | make and take the octets of a command's messages | [`Image::encode`], [`Image::decode`] |
//! | show how the octets of a message are divided | [`Image::message_fields`] |
//! | find the command that reads or writes a variable | [`Image::readers`], [`Image::writers`] |
//! | run a method | [`Session`], [`drive`], [`play`] |
//! | simulate the device | [`Device`] |
//! | show menus and edit variables | [`Panel`] |
//!
//! # What is proved
//!
//! The crate decides nothing. The core does, which is proved with the Rattle kit to do what its
//! contracts say. What stands here is the core with its contracts left out, so what the contracts
//! ask of callers is kept by types: an [`Image`] is always valid, and [`Values`] are always values
//! of their image. A call that gets what it must not get returns an error. Tests try that, and that
//! nothing panics.
//!
//! Not proved, but tested, is what stands between this crate and the core: the reports of
//! [`check()`], the layout of [`format()`], and the screens and lines of a [`Panel`].
//!
//! Where memory is refused, the program ends as the rest of Rust does: by
//! [`handle_alloc_error`](std::alloc::handle_alloc_error).

mod answer;
mod attributes;
mod check;
mod device;
mod driving;
mod faults;
mod format;
mod image;
mod memory;
mod octets;
mod opened;
mod panel;
mod playing;
mod refusal;
mod screens;
mod session;
#[cfg(doctest)]
mod unwritable;
mod values;

pub use answer::Answer;
pub use check::{Diagnostic, Edit, Fix, Related, Report, Severity, check};
pub use device::{Device, DeviceFault, Trial};
pub use driving::{Drive, Host, drive};
pub use faults::{
    AnswerFault, EditFault, LoadFault, PlayFault, ReadFault, SetFault, StartFault, ValuesFault,
};
pub use format::format;
pub use image::{Counts, Identification, Image, Item, compile};
pub use octets::{Carried, MessageField, MessagePart, OctetsFault};
pub use opened::Opened;
pub use panel::{Command, Field, Happened, Line, Panel, Place, WrongValues};
pub use playing::{Transcript, play};
pub use refusal::Refusal;
pub use screens::{Bound, Choice, Content, Format, Leads, Radix, Row, Screen, Sheet, Words};
pub use session::Session;
pub use values::Values;

// Plain data of the core.
pub use edd_image::VarKind;
pub use edd_instructions::{Record, Request};
pub use edd_loader::Text;
pub use edd_octets::{Message, Side};
pub use edd_port::{Ending, Turn};
pub use edd_syntax::answer::Trap;
pub use edd_syntax::numbers::{
    ArrNo, Attr, AttrRef, CmdNo, CollNo, Element, ItemNo, Kind, MenuNo, MethNo, StrNo, VarNo,
};
pub use edd_syntax::types::{Handling, VarType};

/// The code of the page for programs.
#[cfg(doctest)]
#[doc = include_str!("../../../docs/RUST.md")]
mod page {}
