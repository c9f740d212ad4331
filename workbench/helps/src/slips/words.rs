//! Words of other languages, and what is said where they stand.

use super::Slip;
use crate::near::Nearest;

/// A word before a name that other languages have there.
pub(crate) fn slip_of_type(word: &str) -> Option<Slip> {
    let slip = match word {
        "const" | "volatile" | "register" | "auto" | "extern" | "inline" => {
            Slip::LocalHasTypeAndName
        }
        "static" => Slip::LocalBeginsAnew,
        "int8_t" | "int16_t" | "int32_t" | "int64_t" | "uint8_t" | "uint16_t" | "uint32_t"
        | "uint64_t" | "size_t" | "bool" | "BOOL" | "boolean" | "byte" | "BYTE" | "word"
        | "WORD" | "DWORD" | "integer" | "INTEGER" | "UNSIGNED_INTEGER" | "var" | "string"
        | "String" | "DD_STRING" | "void" => Slip::LocalTypes,
        _ => return None,
    };
    Some(slip)
}

/// A word that begins a statement in other languages.
pub(crate) fn slip_of_statement(word: &str) -> Option<Slip> {
    let slip = match word {
        "begin" | "BEGIN" | "end" | "END" => Slip::StatementsBetweenBraces,
        "repeat" | "REPEAT" => Slip::DoWhileIsWritten,
        "try" | "catch" | "throw" => Slip::NoTry,
        "print" | "printf" => Slip::TextIsShown,
        "unless" => Slip::NoUnless,
        "until" | "UNTIL" => Slip::NoUntil,
        "and" | "AND" => Slip::JoinedByAnd,
        "or" | "OR" => Slip::JoinedByOr,
        "foreach" | "loop" => Slip::LoopIsWritten,
        "set" | "let" | "call" => Slip::WordLeftOut,
        "then" => Slip::ThenLeftOut,
        "THEN" => Slip::CapitalThenLeftOut,
        "otherwise" => Slip::OtherBranch,
        "exit" | "leave" => Slip::LoopIsLeft,
        "this" | "self" => Slip::NamedAlone,
        "enum" | "struct" | "union" | "typedef" => Slip::NumbersAlone,
        "goto" => Slip::NoLabels,
        "function" | "def" | "sub" => Slip::NoFunctions,
        _ => return None,
    };
    Some(slip)
}

/// A name with a `:` behind it, where a label begins.
pub(crate) fn slip_of_label(word: &str) -> Slip {
    let mut nearest = Nearest::to_word(word);
    nearest.look("default");
    nearest.look("case");
    match (word, nearest.alone()) {
        ("otherwise" | "others" | "OTHERWISE", _) | (_, Some("default")) => Slip::DefaultMeant,
        (_, Some("case")) => Slip::CaseMeant,
        _ => Slip::NoLabels,
    }
}

/// A branch or a loop whose word is written in capitals.
pub(crate) fn slip_of_branch(word: &str) -> Option<Slip> {
    [
        ("if", Slip::IfMeant),
        ("while", Slip::WhileMeant),
        ("for", Slip::ForMeant),
        ("switch", Slip::SwitchMeant),
    ]
    .into_iter()
    .find(|(branch, _)| word.eq_ignore_ascii_case(branch))
    .map(|(_, slip)| slip)
}

/// The word of a branch or a loop that is meant by a word with a slip of typing.
pub(crate) fn branch_meant(word: &str) -> Option<&'static str> {
    let mut nearest = Nearest::to_word(word);
    for branch in ["if", "while", "for", "switch"] {
        nearest.look(branch);
    }
    nearest.alone()
}

/// Whether a word is an operator of other languages, which have words for them.
pub(crate) fn is_operator(word: &str) -> bool {
    matches!(
        word,
        "not" | "NOT" | "and" | "AND" | "or" | "OR" | "mod" | "MOD" | "div" | "DIV" | "xor" | "XOR"
    )
}

/// Whether a word is `int` or `long` by a slip of typing.
pub(crate) fn is_misspelled_type(word: &str) -> bool {
    matches!(
        word,
        "Int"
            | "INT"
            | "in"
            | "itn"
            | "nit"
            | "ints"
            | "Long"
            | "LONG"
            | "lng"
            | "lon"
            | "logn"
            | "longs"
    )
}

/// Whether a word is a unit.
pub(crate) fn is_unit(word: &str) -> bool {
    matches!(
        word,
        "s" | "ms" | "sec" | "seconds" | "min" | "minutes" | "mm" | "mA" | "mV" | "bar" | "Hz"
    )
}

/// Whether a word begins another condition of a branch in other languages.
pub(crate) fn is_else_if(word: &str) -> bool {
    matches!(
        word,
        "elseif" | "elsif" | "elif" | "ELSEIF" | "ELSIF" | "ELIF"
    )
}

/// Whether two words are the name of a function without the `_` between them.
pub(crate) fn are_one_function(first: &str, last: &str) -> bool {
    matches!(
        (first, last),
        ("PUT", "MESSAGE")
            | ("send", "command")
            | ("save", "values")
            | ("process", "abort")
            | ("ivar" | "lvar", "value")
    )
}
