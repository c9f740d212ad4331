//! Why a word of a script is wrong.

use crate::near::Nearest;
use crate::sentences::sentences;
use edd_display::type_word;
use edd_image::VarKind;
use edd_loader::Image;
use edd_syntax::numbers::{CmdNo, ItemNo, MethNo, VarNo};
use edd_syntax::types::VarType;
use std::fmt;

sentences! {
    /// What is said of a word of a script, whatever the word.
    pub enum ScriptSlip {
        VariableMissing => "the variable and its value are missing: `set NAME N`",
        SpaceBetween => "a space parts the variable and its value: `set NAME N`",
        ValueMissing => "the value is missing: `set NAME N`",
        NothingBehindValue => "nothing stands behind the value: `set NAME N`",
        SettingIsWritten => "a setting is NAME=N, without spaces: `answer CODE NAME=N ..`",
        CodeMissing => "the code is missing: `answer CODE NAME=N ..`",
        NothingBehindAbort => "nothing stands behind `abort`",
        TabIsNoSpace => "words are parted by spaces, and a TAB is none",
        NoComments => "a script has no comments",
    }
}

/// Why a word is wrong.
#[derive(Clone, Copy)]
pub(super) enum Why {
    Slip(ScriptSlip),
    NoVariable,
    NoNumber,
    NoCode,
    NoBeginning,
}

/// What is said of a word of a script.
#[derive(Clone, Debug, PartialEq, Eq)]
pub enum ScriptHelp {
    /// A sentence that is the same for all words.
    Slip(ScriptSlip),
    /// An item that is no variable.
    NotAVariable {
        /// The word.
        word: String,
    },
    /// A name that no variable has.
    NoVariable {
        /// The word.
        word: String,
        /// The nearest name of a variable.
        near: Option<String>,
    },
    /// A word that is no number.
    NoNumber {
        /// The word.
        word: String,
    },
    /// A word that is no code.
    NoCode {
        /// The word.
        word: String,
    },
    /// A word with which no line begins.
    NoBeginning {
        /// Whether it is one in capitals.
        is_capital: bool,
    },
    /// A value that a variable does not hold.
    OutOfRange {
        /// The variable.
        name: String,
        /// The word of its type.
        word: &'static str,
        /// Its size in octets.
        size: u8,
        /// The least value.
        least: i64,
        /// The greatest value.
        greatest: i64,
    },
}

impl fmt::Display for ScriptHelp {
    fn fmt(&self, f: &mut fmt::Formatter<'_>) -> fmt::Result {
        match self {
            ScriptHelp::Slip(slip) => slip.fmt(f),
            ScriptHelp::NotAVariable { word } => write!(f, "`{word}` is no variable"),
            ScriptHelp::NoVariable { word, near } => {
                write!(f, "no variable has the name `{word}`")?;
                match near {
                    Some(near) => write!(f, "; `{near}` may be meant"),
                    None => Ok(()),
                }
            }
            ScriptHelp::NoNumber { word } => {
                write!(f, "`{word}` is no decimal number of 64 bits")
            }
            ScriptHelp::NoCode { word } => write!(
                f,
                "`{word}` is no code, a decimal number of 32 bits: `answer CODE NAME=N ..`"
            ),
            ScriptHelp::NoBeginning { is_capital } => {
                let more = if *is_capital {
                    ", in small letters"
                } else {
                    ""
                };
                write!(
                    f,
                    "a line of a script begins with set, answer or abort{more}"
                )
            }
            ScriptHelp::OutOfRange {
                name,
                word,
                size,
                least,
                greatest,
            } => write!(
                f,
                "{name} is {word} ({size}), which holds {least} to {greatest}"
            ),
        }
    }
}

/// What is said of a word that is wrong for a reason.
pub(super) fn help_of(image: &Image<'_>, word: &str, why: Why) -> ScriptHelp {
    let text = || word.to_owned();
    match why {
        Why::Slip(slip) => ScriptHelp::Slip(slip),
        Why::NoVariable if image.find(word).is_some() => ScriptHelp::NotAVariable { word: text() },
        Why::NoVariable => ScriptHelp::NoVariable {
            word: text(),
            near: nearest_variable(image, word).map(str::to_owned),
        },
        Why::NoNumber => ScriptHelp::NoNumber { word: text() },
        Why::NoCode => ScriptHelp::NoCode { word: text() },
        Why::NoBeginning => ScriptHelp::NoBeginning {
            is_capital: ["set", "answer", "abort"]
                .iter()
                .any(|known| word.eq_ignore_ascii_case(known)),
        },
    }
}

/// The variable of an image whose name is nearest to a word.
pub fn nearest_variable<'b>(image: &Image<'b>, word: &str) -> Option<&'b str> {
    let mut nearest = Nearest::to(word);
    let variables = (0..image.counts().variables).map(|number| ItemNo::Variable(VarNo(number)));
    for name in variables.filter_map(|variable| image.name(variable)) {
        nearest.look(name);
    }
    nearest.found
}

/// The method of an image whose name is like one that no method has.
pub fn nearest_method<'b>(image: &Image<'b>, name: &str) -> Option<&'b str> {
    let methods = (0..image.counts().methods).map(|number| ItemNo::Method(MethNo(number)));
    nearest_of(image, methods, name)
}

/// The command of an image whose name is like one that no command has.
pub fn nearest_command<'b>(image: &Image<'b>, name: &str) -> Option<&'b str> {
    let commands = (0..image.counts().commands).map(|number| ItemNo::Command(CmdNo(number)));
    nearest_of(image, commands, name)
}

fn nearest_of<'b>(
    image: &Image<'b>,
    items: impl Iterator<Item = ItemNo>,
    name: &str,
) -> Option<&'b str> {
    let mut nearest = Nearest::to(name);
    for name in items.filter_map(|item| image.name(item)) {
        nearest.look(name);
    }
    nearest.alone()
}

/// What is said of a value that a variable does not hold; nothing where it is in its range.
pub(super) fn range_help(image: &Image<'_>, variable: VarNo, value: i64) -> Option<ScriptHelp> {
    let kind = image.variable(variable)?;
    let (least, greatest) = range_of(kind);
    if (least..=greatest).contains(&value) {
        return None;
    }
    let name = image.name(ItemNo::Variable(variable)).unwrap_or_default();
    Some(ScriptHelp::OutOfRange {
        name: name.to_owned(),
        word: type_word(kind.var_type),
        size: kind.size,
        least,
        greatest,
    })
}

// The least and the greatest number of a variable.
fn range_of(kind: VarKind) -> (i64, i64) {
    let modulus: i64 = match kind.size {
        1 => 256,
        2 => 65_536,
        3 => 16_777_216,
        _ => 4_294_967_296,
    };
    match kind.var_type {
        VarType::Integer => {
            let half = modulus >> 1;
            (half.saturating_neg(), half.saturating_sub(1))
        }
        _ => (0, modulus.saturating_sub(1)),
    }
}
