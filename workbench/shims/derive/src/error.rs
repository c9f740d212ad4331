//! The texts of errors: each variant of an enum has `#[error("..")]`, in which `{line}` is a field by
//! its name, `{0}` one by its place, and after the text `.0` stands for a field as an argument.
use proc_macro::{Delimiter, Group, TokenStream, TokenTree};

/// The arms of `fmt`, one for each variant.
struct Arms {
    name: String,
    made: String,
}

pub fn shown(item: TokenStream) -> TokenStream {
    match arms_of(item) {
        Ok(arms) => text_of(&arms)
            .parse()
            .unwrap_or_else(|_| crate::refused("a text of an error")),
        Err(why) => crate::refused(why),
    }
}

fn text_of(arms: &Arms) -> String {
    let Arms { name, made } = arms;
    format!(
        "#[allow(unused_variables)] impl ::core::fmt::Display for {name} {{ \
         fn fmt(&self, f: &mut ::core::fmt::Formatter<'_>) -> ::core::fmt::Result {{ \
         match self {{ {made} }} }} }} \
         impl ::core::error::Error for {name} {{}}"
    )
}

fn arms_of(item: TokenStream) -> Result<Arms, &'static str> {
    let words: Vec<TokenTree> = item.into_iter().collect();
    let at = words
        .iter()
        .position(|it| it.to_string() == "enum")
        .ok_or("an error is an enum")?;
    let name = words.get(at + 1).ok_or("an enum has a name")?.to_string();
    let Some(TokenTree::Group(body)) = words.get(at + 2) else {
        return Err("an error has no parameters");
    };
    let mut made = String::new();
    let mut text = None;
    let mut left = body.stream().into_iter().peekable();
    while let Some(it) = left.next() {
        match it {
            TokenTree::Punct(mark) if mark.as_char() == '#' => {
                let Some(TokenTree::Group(attribute)) = left.next() else {
                    return Err("an attribute has brackets");
                };
                text = error_text(&attribute)?.or(text);
            }
            TokenTree::Ident(variant) => {
                let fields = match left.peek() {
                    Some(TokenTree::Group(fields)) => Some(fields.clone()),
                    _ => None,
                };
                let text = text.take().ok_or("a variant has a text")?;
                made += &arm(&name, &variant.to_string(), fields.as_ref(), &text)?;
            }
            _ => {}
        }
    }
    Ok(Arms { name, made })
}

/// What stands in `#[error(..)]`; nothing of another attribute.
fn error_text(attribute: &Group) -> Result<Option<TokenStream>, &'static str> {
    let words: Vec<TokenTree> = attribute.stream().into_iter().collect();
    match words.as_slice() {
        [TokenTree::Ident(name), TokenTree::Group(inner)] if name.to_string() == "error" => {
            Ok(Some(inner.stream()))
        }
        [TokenTree::Ident(name), ..] if name.to_string() == "doc" => Ok(None),
        _ => Err("an attribute of a variant is a text or a comment"),
    }
}

fn arm(
    name: &str,
    variant: &str,
    fields: Option<&Group>,
    text: &TokenStream,
) -> Result<String, &'static str> {
    let pattern = match fields {
        None => String::new(),
        Some(fields) => pattern_of(fields),
    };
    let mut words = text.clone().into_iter();
    let said = words.next().ok_or("a variant has a text")?.to_string();
    let said = with_places(&said) + &with_dots(&words.collect::<TokenStream>().to_string());
    Ok(format!(
        "{name}::{variant}{pattern} => f.write_fmt(::core::format_args!({said})),"
    ))
}

/// `{0}` as `{f0}`.
fn with_places(text: &str) -> String {
    let mut made = String::new();
    let mut last = ' ';
    for c in text.chars() {
        if last == '{' && c.is_ascii_digit() {
            made.push('f');
        }
        made.push(c);
        last = c;
    }
    made
}

/// `.0` as `f0`.
fn with_dots(arguments: &str) -> String {
    let mut made = String::new();
    let mut left = arguments.chars().peekable();
    while let Some(c) = left.next() {
        let is_place = c == '.' && matches!(left.peek(), Some(next) if next.is_ascii_digit());
        made.push(if is_place { 'f' } else { c });
    }
    made
}

/// The fields by their names, or by their places as `f0` and so on.
fn pattern_of(fields: &Group) -> String {
    let mut names = Vec::new();
    let mut starts = true;
    let mut depth = 0;
    let mut words = fields.stream().into_iter().peekable();
    while let Some(it) = words.next() {
        let word = it.to_string();
        depth += i32::from(word == "<") - i32::from(word == ">");
        if word == "#" {
            words.next();
        } else if starts {
            names.push(word);
            starts = false;
        }
        starts |= depth == 0 && matches!(words.peek(), Some(it) if it.to_string() == ",");
        if starts {
            words.next();
        }
    }
    if fields.delimiter() == Delimiter::Brace {
        return format!(" {{ {} }}", names.join(", "));
    }
    let places: Vec<String> = (0..names.len()).map(|at| format!("f{at}")).collect();
    format!("({})", places.join(", "))
}
