//! The core's format of texts and qualifiers, as std strings.
//!
//! ```
//! assert_eq!(edd_dump::core_format::quoted("10\t\"bar\""), r#""10\t\"bar\"""#);
//! assert_eq!(edd_dump::core_format::menu_qualifiers(6), "(READ_ONLY HIDDEN)");
//! assert_eq!(edd_dump::core_format::mask_and_qualifiers(15, 1), "<15>(INFO)");
//! ```

use core_std::alloc::Global;
use core_std::string::String as CoreString;
use edd_display::{DATA_QUALIFIERS, MENU_QUALIFIERS, push_qualifiers, push_quoted};
use std::alloc::{Layout, handle_alloc_error};

/// A text between quotes, with its escapes.
pub fn quoted(text: &str) -> String {
    printed(|line| push_quoted(line, text))
}

/// The qualifiers of a menu entry in parentheses; empty where it has none.
pub fn menu_qualifiers(bits: u16) -> String {
    printed(|line| push_qualifiers(line, bits, &MENU_QUALIFIERS))
}

/// What follows the name of a variable in a message: its mask and its qualifiers, if it has some.
pub fn mask_and_qualifiers(mask: u32, bits: u8) -> String {
    let qualifiers = printed(|line| push_qualifiers(line, u16::from(bits), &DATA_QUALIFIERS));
    match mask {
        0 => qualifiers,
        mask => format!("<{mask}>{qualifiers}"),
    }
}

/// What the core appends to a line. It fails only when it is out of memory.
fn printed<E>(print: impl FnOnce(&mut CoreString) -> Result<(), E>) -> String {
    let mut line = CoreString::new(Global);
    match print(&mut line) {
        Ok(()) => line.as_str().to_owned(),
        Err(_) => handle_alloc_error(Layout::new::<CoreString>()),
    }
}
