//! Words that this profile leaves out, and what is done without them.

use super::SyntaxHelp;
use super::braces::say_response_codes;
use crate::Finding;
use crate::recovery::is_item_word;
use crate::slips::At;
use edd_source::Outline;
use edd_syntax::symbols::Keyword;

/// Says what helps where a word stands that this profile leaves out.
pub(super) fn say_unsupported(at: At<'_>, outline: &Outline, word: &str, finding: &mut Finding) {
    if word == Keyword::ResponseCodes.spelling() {
        say_response_codes(at, outline, finding);
    } else if is_item_word(word) {
        // The word of a kind of item is left out after ARRAY OF alone.
        finding.say(SyntaxHelp::ArraysOfVariables);
    } else {
        let word = word.to_owned();
        let instead = instead_of(&word);
        finding.say(SyntaxHelp::Unsupported { word, instead });
    }
}

// What is written instead of a word.
fn instead_of(word: &str) -> &'static str {
    match word {
        "LIKE" => "write the item with all its attributes",
        "float" | "double" => "numbers are whole: take int or long",
        "char" | "short" | "unsigned" => "take int or long",
        "goto" => "take a loop or an if",
        "IMPORT" => "copy the items that are needed, or have a preprocessor put them in",
        "UNIT" => "write CONSTANT_UNIT of each variable, with IF where the unit changes",
        "REFRESH" => "leave the item out: conditions follow the values by themselves",
        "WRITE_AS_ONE" => "put the variables into one REQUEST",
        "SCALING_FACTOR" => "take a smaller unit in CONSTANT_UNIT",
        "ROWBREAK" | "COLUMNBREAK" => "leave it out, or put a text there",
        "AXIS" | "CHART" | "GRAPH" | "GRID" | "IMAGE" | "SOURCE" | "WAVEFORM" => {
            "leave the item out, and show its variables in a menu"
        }
        "LIST" | "RECORD" | "VARIABLE_LIST" => "take a COLLECTION or an ARRAY OF VARIABLE",
        "FLOAT" | "DOUBLE" => "numbers are whole: take INTEGER (4) in a smaller unit",
        _ if word.starts_with("MIN_VALUE") || word.starts_with("MAX_VALUE") => {
            "take MIN_VALUE and MAX_VALUE, with IF where they change"
        }
        _ => "leave it out",
    }
}
