//! A user's sitting at an instrument: the lines or keys that are typed, one after the other, what the
//! panel and a simulated device make of them, and what is printed or drawn.
#![no_std]
#[macro_use]
extern crate std;
use std::prelude::v1::*;

mod conversation;
mod device_faults;
mod fault;
mod input;
mod keys;

pub use conversation::{Console, converse};
pub use device_faults::fault_text;
pub use fault::SittingFault;
pub use input::Lines;
pub use keys::{Size, Terminal, converse_by_keys};
