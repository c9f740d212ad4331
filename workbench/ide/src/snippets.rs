//! What is written in the place of a word by an editor that takes snippets: the rest of what it
//! begins, with places to fill in.

use edd_syntax::symbols::Keyword;

/// What an item is that a word begins.
pub(crate) fn item_snippet(word: Keyword) -> Option<&'static str> {
    Some(match word {
        Keyword::Variable => {
            "VARIABLE ${1:name} {\n\tLABEL \"$2\";\n\tTYPE ${3:INTEGER} (${4:2});\n}"
        }
        Keyword::Command => concat!(
            "COMMAND ${1:name} {\n\tNUMBER ${2:1};\n\tOPERATION ${3|READ,WRITE,COMMAND|};\n",
            "\tTRANSACTION {\n\t\tREQUEST { $4 }\n\t\tREPLY { $5 }\n\t}\n}"
        ),
        Keyword::Menu => "MENU ${1:name} {\n\tLABEL \"$2\";\n\tITEMS { $3 }\n}",
        Keyword::Collection => {
            "COLLECTION OF ${1:VARIABLE} ${2:name} {\n\tMEMBERS {\n\t\t$3\n\t}\n}"
        }
        Keyword::Method => "METHOD ${1:name} {\n\tLABEL \"$2\";\n\tDEFINITION {\n\t\t$3\n\t}\n}",
        Keyword::Array => {
            "ARRAY OF VARIABLE ${1:name} {\n\tELEMENTS {\n\t\t${2:1}, ${3:variable};\n\t}\n}"
        }
        _ => return None,
    })
}

/// What an attribute or a part of one is that a word begins.
pub(crate) fn attribute_snippet(word: Keyword) -> Option<&'static str> {
    Some(match word {
        Keyword::Label => "LABEL \"$1\";",
        Keyword::Help => "HELP \"$1\";",
        Keyword::ConstantUnit => "CONSTANT_UNIT \"$1\";",
        Keyword::Class => "CLASS $1;",
        Keyword::Handling => "HANDLING ${1:READ};",
        Keyword::Validity => "VALIDITY $1;",
        Keyword::Type => "TYPE ${1:INTEGER} (${2:2});",
        Keyword::Number => "NUMBER $1;",
        Keyword::Operation => "OPERATION ${1|READ,WRITE,COMMAND|};",
        Keyword::Transaction => "TRANSACTION {\n\tREQUEST { $1 }\n\tREPLY { $2 }\n}",
        Keyword::Request => "REQUEST { $1 }",
        Keyword::Reply => "REPLY { $1 }",
        Keyword::ResponseCodes => "RESPONSE_CODES {\n\t0, SUCCESS, \"$1\";\n}",
        Keyword::Items => "ITEMS { $1 }",
        Keyword::Members => "MEMBERS {\n\t$1\n}",
        Keyword::Elements => "ELEMENTS {\n\t$1\n}",
        Keyword::Definition => "DEFINITION {\n\t$1\n}",
        Keyword::DefaultValue => "DEFAULT_VALUE $1;",
        Keyword::MinValue => "MIN_VALUE $1;",
        Keyword::MaxValue => "MAX_VALUE $1;",
        Keyword::DisplayFormat => "DISPLAY_FORMAT \"${1:d}\";",
        Keyword::EditFormat => "EDIT_FORMAT \"${1:d}\";",
        _ => return None,
    })
}

/// What a statement is that a word begins.
pub(crate) fn statement_snippet(word: Keyword) -> Option<&'static str> {
    Some(match word {
        Keyword::Int => "int ${1:name};",
        Keyword::MethodIf => "if ($1) {\n\t$2\n}",
        Keyword::MethodElse => "else {\n\t$1\n}",
        Keyword::While => "while ($1) {\n\t$2\n}",
        Keyword::Do => "do {\n\t$2\n} while ($1);",
        Keyword::For => "for ($1; $2; $3) {\n\t$4\n}",
        Keyword::Switch => "switch ($1) {\n\tcase ${2:0}:\n\t\t$3\n\t\tbreak;\n}",
        Keyword::Break => "break;",
        Keyword::Continue => "continue;",
        Keyword::Return => "return;",
        _ => return None,
    })
}
