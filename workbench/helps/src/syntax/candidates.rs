//! What is tried in place of a token that does not fit, and before it.

use crate::near::Nearest;
use edd_lexer::token::TokenKind;
use edd_syntax::operators::{BUILTINS, Comparison};
use edd_syntax::symbols::{KEYWORDS, Keyword, Symbol};

/// The signs that may be missing after a token, and before one.
pub(super) const BEHIND: [&str; 5] = [";", ",", ")", "}", "]"];

pub(super) const BEFORE: [&str; 4] = ["(", "{", "[", ":"];

/// What may be missing before a token: how it could be written, and what it is called.
type Missing = (&'static str, &'static str);

const NAME: Missing = ("x", "a name");

const VALUE: Missing = ("1", "a value");

const TEXT: Missing = ("\"\"", "a text");

const STATEMENT: Missing = ("DEFINITION {", "DEFINITION {");

const DEFINITION: Missing = ("DEFINITION", "DEFINITION");

const TRANSACTION: Missing = ("TRANSACTION", "TRANSACTION");

/// What may be missing before a brace.
const BEFORE_BRACES: [Missing; 4] = [DEFINITION, TRANSACTION, VALUE, TEXT];

/// What may be missing before a brace that stands right behind another one.
const AFTER_BRACES: [Missing; 5] = [("ELSE", "ELSE"), DEFINITION, TRANSACTION, VALUE, TEXT];

// What may be missing after a token, whatever comes.
fn missing_after(before: Option<TokenKind>) -> Option<&'static [Missing]> {
    let Some(TokenKind::Keyword(word)) = before else {
        return None;
    };
    match word {
        Keyword::Collection => Some(&[("OF VARIABLE", "OF with a kind of item"), NAME]),
        Keyword::Array => Some(&[("OF VARIABLE", "OF VARIABLE"), NAME]),
        Keyword::Of => Some(&[("VARIABLE", "a kind of item such as VARIABLE")]),
        Keyword::Type => Some(&[("INTEGER", "a type")]),
        Keyword::Variable | Keyword::Command | Keyword::Menu | Keyword::Method => Some(&[NAME]),
        Keyword::Int | Keyword::Long | Keyword::Class => Some(&[NAME]),
        _ => None,
    }
}

/// What may be missing between a token and one of this kind and spelling.
pub(super) fn missing_before(
    before: Option<TokenKind>,
    kind: TokenKind,
    word: &str,
) -> &'static [Missing] {
    if let Some(found) = missing_after(before) {
        return found;
    }
    match (kind, word) {
        (_, "INTEGER" | "UNSIGNED_INTEGER" | "ENUMERATED" | "BIT_ENUMERATED") => {
            &[("TYPE", "TYPE")]
        }
        (TokenKind::Name | TokenKind::Keyword(_), _) => &[STATEMENT],
        (TokenKind::Symbol(Symbol::OpenBrace), _) => match before {
            Some(TokenKind::Symbol(Symbol::CloseBrace)) => &AFTER_BRACES,
            _ => &BEFORE_BRACES,
        },
        (TokenKind::Symbol(Symbol::OpenParenthesis), _) => &[("IF", "IF"), VALUE, TEXT],
        (TokenKind::Integer(_), _) => &[
            ("CASE", "CASE"),
            ("NUMBER", "NUMBER"),
            TRANSACTION,
            ("MAX_VALUE", "a word such as MAX_VALUE"),
        ],
        (TokenKind::String, _) => &[("LABEL", "a word such as LABEL")],
        _ => &[VALUE, TEXT],
    }
}

/// The signs that may be meant by a sign.
pub(super) fn signs_for(kind: TokenKind) -> &'static [&'static str] {
    let TokenKind::Symbol(sign) = kind else {
        return &[];
    };
    match sign {
        Symbol::Equals => &[","],
        Symbol::Comparison(Comparison::Equal) => &["="],
        Symbol::Semicolon => &[",", ":"],
        Symbol::Comma => &[";", ":"],
        Symbol::Colon => &[";", ","],
        Symbol::Dot => &[","],
        Symbol::OpenParenthesis => &["{", "["],
        Symbol::OpenBrace => &["(", "["],
        Symbol::OpenBracket => &["(", "{"],
        Symbol::CloseParenthesis => &["}", "]"],
        Symbol::CloseBrace => &[")", "]"],
        Symbol::CloseBracket => &[")", "}"],
        _ => &[],
    }
}

/// Whether a name is one for which the grammar asks.
pub(super) fn is_option(name: &str) -> bool {
    NAMES.contains(&name)
}

/// The word of the language, the function or the type with this spelling.
pub(super) fn word_spelled(word: &str) -> Option<&'static str> {
    let keywords = KEYWORDS.iter().map(|keyword| keyword.spelling());
    let functions = BUILTINS.iter().map(|function| function.name());
    let mut words = keywords.chain(functions).chain(NAMES).chain(TYPES);
    words.find(|other| *other == word)
}

/// The types whose names have several parts.
const TYPES: [&str; 2] = ["UNSIGNED_INTEGER", "BIT_ENUMERATED"];

/// The names for which the grammar asks in their places.
const NAMES: [&str; 17] = [
    "READ",
    "WRITE",
    "TRUE",
    "FALSE",
    "SUCCESS",
    "MISC_WARNING",
    "DATA_ENTRY_WARNING",
    "DATA_ENTRY_ERROR",
    "MODE_ERROR",
    "PROCESS_ERROR",
    "MISC_ERROR",
    "INFO",
    "INDEX",
    "DISPLAY_VALUE",
    "READ_ONLY",
    "HIDDEN",
    "REVIEW",
];

// Whether a word is reserved and the grammar never asks for it.
fn is_of_others(word: Keyword) -> bool {
    matches!(
        word,
        Keyword::Char
            | Keyword::Short
            | Keyword::Unsigned
            | Keyword::Signed
            | Keyword::Float
            | Keyword::Double
            | Keyword::Goto
    )
}

/// The word that is nearest to a word, of those for which the grammar asks. Of two that are as near,
/// as MIN_VALUE and MAX_VALUE may be, none is meant for sure.
pub(super) fn nearest_word(word: &str) -> Option<&'static str> {
    let mut nearest = Nearest::to_word(word);
    for keyword in KEYWORDS {
        if !is_of_others(keyword) {
            nearest.look(keyword.spelling());
        }
    }
    for name in NAMES {
        nearest.look(name);
    }
    nearest.alone()
}

/// What EDDL has for a word of another language; for some it is nothing.
pub(super) fn word_for(word: &str) -> Option<&'static str> {
    let other = match word {
        "then" | "THEN" => "",
        "and" | "AND" => "&&",
        "or" | "OR" => "||",
        "not" | "NOT" => "!",
        "MOD" | "mod" => "%",
        "XOR" | "xor" => "^",
        "DIV" | "div" => "/",
        "SHL" | "shl" => "<<",
        "SHR" | "shr" => ">>",
        "SWITCH" | "switch" => "SELECT",
        "SELECT" => "switch",
        "ELIF" | "ELSIF" | "ELSEIF" => "ELSE IF",
        "ELSE" | "OTHERWISE" => "DEFAULT",
        "NAME" => "LABEL",
        "DESCRIPTION" => "HELP",
        "DEFAULT" => "DEFAULT_VALUE",
        "MIN" => "MIN_VALUE",
        "MAX" => "MAX_VALUE",
        "EXECUTE" | "RUN" => "COMMAND",
        "bool" | "boolean" | "byte" | "integer" | "var" => "int",
        _ => return None,
    };
    Some(other)
}
