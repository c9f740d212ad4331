//! A test function is put into one without parameters, which calls it and looks at what it gives.
use proc_macro::{TokenStream, TokenTree};

pub fn wrapped(item: TokenStream) -> TokenStream {
    let words: Vec<TokenTree> = item.clone().into_iter().collect();
    let at = words.iter().position(|it| it.to_string() == "fn");
    let Some(TokenTree::Ident(name)) = at.and_then(|at| words.get(at + 1)) else {
        return crate::refused("a test is a function");
    };
    let name = name.to_string();
    let text = format!(
        "#[::core::prelude::v1::test] fn {name}() {{ {item} ::std::test::end({name}(::std::rt::HostRuntime)) }}"
    );
    text.parse()
        .unwrap_or_else(|_| crate::refused("a test that can't be wrapped"))
}
