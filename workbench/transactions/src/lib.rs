//! The messages of a command's transactions as lines: octets, and beside them what they carry.
//!
//! ```
//! use edd_transactions::Transaction;
//!
//! let image = edd::compile(
//!     b"MANUFACTURER 1, DEVICE_TYPE 2, DEVICE_REVISION 3, DD_REVISION 4
//!       VARIABLE flow { CONSTANT_UNIT \"l/min\"; TYPE INTEGER (2); }
//!       COMMAND read_flow { NUMBER 1; OPERATION READ; TRANSACTION { REPLY { flow, 7 } } }",
//! )?;
//! let values = image.values();
//! let transaction = Transaction::find(&image, &values, "read_flow", None)?;
//! let reply = edd_transactions::decode(&image, &values, transaction, &[0xFE, 0xD4, 7], "en")?;
//! assert_eq!(
//!     reply,
//!     "command read_flow 1 transaction 0
//! reply 3 octets
//!    0  FE D4        flow = -300 l/min
//!    2  07           constant 7
//! set flow = -300 l/min
//! "
//! );
//! # Ok::<(), Box<dyn std::error::Error>>(())
//! ```

mod fault;
mod items;
mod lines;
mod octets;
mod transaction;
mod values;

pub use fault::TransactionFault;
pub use lines::{decode, encode};
pub use octets::{Octets, OctetsError};
pub use transaction::Transaction;
