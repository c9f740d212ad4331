//! A language server for descriptions: the Language Server Protocol 3.17 over [`edd_ide`].
//!
//! [`Framing`] cuts messages out of a stream of bytes, [`Server`] is a machine from messages to
//! messages, [`Session`] has those that wait, and [`serve`] runs it over an input and an output. What
//! belongs to a document and is not open comes from [`Files`].
//! Parameters are read as far as they can be: a member that is missing never ends a conversation.
//!
//! ```
//! use edd_lsp::{Ending, NoFiles, serve};
//!
//! let mut sent = Vec::new();
//! let exit = br#"{"method": "exit"}"#;
//! let mut input = [b"Content-Length: 18\r\n\r\n", exit.as_slice()].concat();
//! assert_eq!(serve(&mut input.as_slice(), &mut sent, NoFiles)?, Ending::Unclean);
//! # Ok::<(), edd_lsp::ServeError>(())
//! ```

pub mod answers;
mod client;
mod colours;
mod diagnostics;
mod documents;
mod files;
mod framing;
mod inbox;
mod messages;
mod others;
mod params;
mod positions;
mod requests;
mod serve;
mod server;
mod session;
mod uri;
mod view;

pub use files::{Disk, Files, NoFiles, Stored};
pub use framing::{Framing, HeaderError};
pub use messages::{
    ErrorCode, Id, Incoming, Notification, Outgoing, Request, ResponseError, Version,
};
pub use positions::{Encoding, Position, Range};
pub use serve::{ServeError, serve};
pub use server::{Ending, Server};
pub use session::Session;
