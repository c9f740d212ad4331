//! What the plain edition needs of macros: `#[test]` on a function that takes the handle of the
//! system, and `#[derive(Error)]` for the texts of errors, without std.
mod error;
mod test;

use proc_macro::TokenStream;

/// A test that takes the handle of the system and may end with a `Fail`.
#[proc_macro_attribute]
pub fn test(_: TokenStream, item: TokenStream) -> TokenStream {
    test::wrapped(item)
}

/// `Display` by the text of each variant, and `Error`.
#[proc_macro_derive(Error, attributes(error))]
pub fn error(item: TokenStream) -> TokenStream {
    error::shown(item)
}

/// A mistake that the compiler prints.
fn refused(why: &str) -> TokenStream {
    format!("compile_error!({why:?});")
        .parse()
        .expect("a macro call")
}
