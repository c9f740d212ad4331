//! What is said where a token does not fit.

use super::Fitting;
use crate::sentences::worded;
use edd_syntax::operators::Builtin;

worded! {
    /// What is said where a token does not fit.
    pub enum SyntaxHelp {
        /// A description begins with its identification.
        Identification => "a description begins with MANUFACTURER .., DEVICE_TYPE .., DEVICE_REVISION .., DD_REVISION ..";
        /// A sign is missing at the place of the fault.
        MissingHere {
            /// The sign.
            sign: &'static str,
        } => "a {sign} is missing here";
        /// A sign is missing up to the place of the fault, for one that is open elsewhere.
        MissingUpTo {
            /// The sign that opens.
            opens: &'static str,
            /// The sign that is missing.
            closes: &'static str,
        } => "a {closes} is missing, up to here, for the {opens} that is open";
        /// A parenthesis is missing before a comparison, which stands in those of a function.
        ParenthesisOfCall {
            /// The function.
            function: Builtin,
            /// The sign of the comparison.
            sign: String,
        } => "a ) is missing before {sign}, for the ( of {function}", function = function.name();
        /// A sign is missing before a token.
        SignBefore {
            /// The sign.
            sign: &'static str,
            /// The token as it is written.
            word: String,
        } => "a {sign} is missing before {word}";
        /// Something that is no sign is missing before a token.
        WantedBefore {
            /// What it is called.
            wanted: &'static str,
            /// The token as it is written.
            word: String,
        } => "{wanted} is missing before {word}";
        /// Another word or sign may be meant.
        Instead {
            /// The other one.
            meant: &'static str,
            /// The one that is there.
            word: String,
        } => "{meant} may be meant in place of {word}";
        /// A token may be left out.
        LeftOut {
            /// The token as it is written.
            word: String,
        } => "{word} may be left out";
        /// Quotes may be missing around a word.
        Quotes {
            /// The word.
            word: String,
        } => "quotes may be missing around {word}";
        /// A reserved word stands for a name.
        Reserved {
            /// The word.
            word: String,
        } => "{word} is a reserved word and can be no name";
        /// A text belongs in the place of a word.
        TextBelongsHere => "a text belongs here: quotes may be missing";
        /// What fits in the place of a token.
        Fits {
            /// What fits.
            fitting: Vec<Fitting>,
            /// The token as it is written.
            word: String,
        } => "{all} fits here, and not {word}", all = all_of(fitting);
        /// Nothing is known that fits in the place of a token.
        FitsNothing {
            /// The token as it is written.
            word: String,
        } => "{word} fits nothing here";
        /// The text ends too early.
        TextEnds => "the text ends here, and something is missing";
        /// More levels stand inside one another than are read.
        TooDeep => "more than 100 levels stand inside one another here: give a part to a name of its own";
        /// A brace is open, which was opened at a second place.
        BraceIsOpen => "a brace is still open, which was opened";
        /// A brace that was opened closes at a second place, as far as the layout shows it.
        ClosedByLayout => "by the layout it is closed by the brace";
        /// A brace that closes another one than it seems to, as far as the layout shows it.
        ClosesByLayout => "by the layout it closes the brace that was opened";
        /// A brace stands further in than the one that it closes.
        FurtherIn => "it stands further in than what it closes, which was opened";
        /// An option stands outside of the braces of TYPE.
        OptionOfType {
            /// The word of the option.
            word: &'static str,
        } => "{word} stands in the braces of TYPE, as in TYPE INTEGER {{ {word} ..; }}";
        /// A line stands twice, one right below the other.
        LineTwice => "this line stands here twice";
        /// An attribute stands among the options of TYPE.
        AttributeInType {
            /// The word of the attribute.
            word: &'static str,
        } => "{word} stands in the braces of VARIABLE, and not in those of TYPE";
        /// A message stands outside of its TRANSACTION.
        PartOfTransaction {
            /// The word of the message.
            word: &'static str,
        } => "{word} stands in the braces of TRANSACTION";
        /// An attribute stands in an item of a kind that has none such.
        AttributeOfOthers {
            /// The kind of the item.
            kind: &'static str,
            /// The word of the attribute.
            word: &'static str,
            /// The kinds that have it.
            owners: Vec<&'static str>,
        } => "{kind} has no {word}; it stands in {owners}", owners = owners.join(", ");
        /// A condition stands behind the word of an attribute that has none.
        NoCondition {
            /// The word of the attribute.
            word: String,
        } => "{word} has no condition";
        /// A condition stands around an attribute.
        ConditionBehindWord => "a condition stands behind the word of an attribute, as in LABEL IF (..) {{ ..; }}";
        /// RESPONSE_CODES stands in other braces than those of its command.
        CodesInCommand => "RESPONSE_CODES stands in the braces of COMMAND, after those of TRANSACTION";
        /// The same, and a brace is too many.
        CodesBehindBrace => "RESPONSE_CODES stands in the braces of COMMAND: a }} may be too many before it";
        /// Arrays of something else than variables.
        ArraysOfVariables => "this profile of EDDL has arrays of VARIABLE alone";
        /// A word that this profile leaves out.
        Unsupported {
            /// The word.
            word: String,
            /// What is written instead.
            instead: &'static str,
        } => "this profile of EDDL does not have {word}: {instead}";
    }
}

// What fits, one or the other.
fn all_of(fitting: &[Fitting]) -> String {
    let fitting: Vec<&str> = fitting.iter().map(|fitting| fitting.called()).collect();
    fitting.join(" or ")
}
