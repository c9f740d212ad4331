//! Calls that cannot be written, since they would break what the core asks of its callers.
//!
//! `edd_loader::reopen` asks for a valid image, so nobody makes an [`Image`](crate::Image) of bytes
//! that were not checked, or changes them:
//!
//! ```compile_fail,E0451
//! let image = edd::Image { bytes: Vec::new().into() };
//! ```
//!
//! ```compile_fail,E0594
//! let image = edd::compile(b"MANUFACTURER 1").unwrap();
//! image.bytes()[0] = 0;
//! ```
//!
//! Device values stay in their ranges, so nobody gets at their numbers:
//!
//! ```compile_fail,E0616
//! let image = edd::compile(b"MANUFACTURER 1").unwrap();
//! let mut values = image.values();
//! values.core.numbers.clear();
//! ```
//!
//! ```compile_fail,E0594
//! let image = edd::compile(b"MANUFACTURER 1").unwrap();
//! let mut values = image.values();
//! values.numbers()[0] = i64::MAX;
//! ```
//!
//! `edd_port::Session::resume` asks for a state of a method, so nobody changes the values of a
//! session that runs, or its state:
//!
//! ```compile_fail,E0596
//! fn break_it(session: &mut edd::Session) {
//!     session.values().set(edd::VarNo(0), 1);
//! }
//! ```
//!
//! ```compile_fail,E0616
//! fn break_it(session: &mut edd::Session) {
//!     session.machine.place = 1;
//! }
//! ```
//!
//! A panel and a device borrow what they show, so it stays while they are used:
//!
//! ```compile_fail,E0597
//! let image = edd::compile(b"MANUFACTURER 1").unwrap();
//! let panel = {
//!     let opened = image.open();
//!     edd::Panel::open(&opened, "en", image.values())
//! };
//! panel.is_ok();
//! ```
//!
//! ```compile_fail,E0505
//! let image = edd::compile(b"MANUFACTURER 1").unwrap();
//! let opened = image.open();
//! let device = edd::Device::start(&opened, &opened);
//! drop(image);
//! device.numbers();
//! ```
