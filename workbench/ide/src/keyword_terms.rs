//! What the reserved words mean, and where the page on the language tells of them.

use edd_syntax::symbols::Keyword;

/// A section of the page LANGUAGE.
#[derive(Clone, Copy, Debug)]
pub(crate) enum Section {
    Grammar,
    Names,
    Attributes,
    Methods,
    LeftOut,
}

impl Section {
    /// The heading of the section.
    pub(crate) fn heading(self) -> &'static str {
        match self {
            Section::Grammar => "Grammar",
            Section::Names => "Names",
            Section::Attributes => "What an attribute means",
            Section::Methods => "Methods",
            Section::LeftOut => "Words that are left out",
        }
    }
}

/// What is said of a reserved word.
#[derive(Clone, Copy, Debug)]
struct Term {
    word: Keyword,
    section: Section,
    /// What it means, in a line.
    meaning: &'static str,
    /// What else one has to know to write it.
    more: &'static str,
}

const fn term(word: Keyword, section: Section, meaning: &'static str, more: &'static str) -> Term {
    Term {
        word,
        section,
        meaning,
        more,
    }
}

/// The reserved words, in the order in which the core counts them.
const TERMS: [Term; 58] = [
    term(
        Keyword::Manufacturer,
        Section::Grammar,
        "The number of the device's manufacturer.",
        "The header begins with it, and DEVICE_TYPE comes next.",
    ),
    term(
        Keyword::DeviceType,
        Section::Grammar,
        "The number of the type of device.",
        "It comes behind MANUFACTURER in the header.",
    ),
    term(
        Keyword::DeviceRevision,
        Section::Grammar,
        "The revision of the device.",
        "It comes behind DEVICE_TYPE in the header.",
    ),
    term(
        Keyword::DdRevision,
        Section::Grammar,
        "The revision of this description.",
        "The header ends with it, and the items come next.",
    ),
    term(
        Keyword::Variable,
        Section::Grammar,
        "A value that the device has: its type, its limits and how it is shown.",
        "It must have a TYPE.",
    ),
    term(
        Keyword::Command,
        Section::Grammar,
        "A command of the device's protocol, with the messages that it carries.",
        "It must have a NUMBER, an OPERATION and a TRANSACTION.",
    ),
    term(
        Keyword::Menu,
        Section::Grammar,
        "Lines that a technician is shown: variables, texts, methods and other menus.",
        "It must have ITEMS.",
    ),
    term(
        Keyword::Collection,
        Section::Names,
        "Items of one kind under names of its own: c.m is the item of the member m.",
        "It must have MEMBERS, which are of the kind behind OF.",
    ),
    term(
        Keyword::Method,
        Section::Grammar,
        "Statements that a technician can run.",
        "It must have a DEFINITION, whose statements are like those of C.",
    ),
    term(
        Keyword::Array,
        Section::Names,
        "Variables under numbers: a[e] is the value of the one with the number e.",
        "It must have ELEMENTS, and expressions can only read them.",
    ),
    term(
        Keyword::Of,
        Section::Names,
        "Before the kind of item that a collection or an array has.",
        "A collection is OF VARIABLE, COMMAND, MENU, COLLECTION or METHOD, an array OF VARIABLE.",
    ),
    term(
        Keyword::Label,
        Section::Attributes,
        "What the item is called on a screen, in one or more languages.",
        "A text in two languages is written |en|Pressure|de|Druck.",
    ),
    term(
        Keyword::Help,
        Section::Attributes,
        "What a technician can ask for on the item.",
        "It is written as a LABEL is, in one or more languages.",
    ),
    term(
        Keyword::Class,
        Section::Attributes,
        "Words that sort a variable or a method, with & between them.",
        "Any word is kept, and a host decides what it does with it.",
    ),
    term(
        Keyword::Handling,
        Section::Attributes,
        "Whether the variable may be read, written, or both: READ, WRITE or READ & WRITE.",
        "Without it the variable may be read and written.",
    ),
    term(
        Keyword::ConstantUnit,
        Section::Attributes,
        "The unit that is shown after the value.",
        "It is a text, in one or more languages.",
    ),
    term(
        Keyword::Validity,
        Section::Attributes,
        "Whether the item is there for the technician: TRUE or FALSE.",
        "It may depend on the device's values by IF or SELECT. Without it the item is there.",
    ),
    term(
        Keyword::Type,
        Section::Attributes,
        "The type of the variable, its size in octets from 1 to 4, and its limits.",
        "Without a size in parentheses the value has one octet.",
    ),
    term(
        Keyword::Number,
        Section::Attributes,
        "The number of the command in the device's protocol.",
        "Methods send the command by it, as in send_command(1).",
    ),
    term(
        Keyword::Operation,
        Section::Attributes,
        "What the command does: READ, WRITE or COMMAND.",
        "It does not change which messages the command carries.",
    ),
    term(
        Keyword::Transaction,
        Section::Attributes,
        "A message of the command and its answer; a number tells several apart.",
        "In its braces are a REQUEST and a REPLY.",
    ),
    term(
        Keyword::ResponseCodes,
        Section::Attributes,
        "What the codes of the answers mean: number, class, text.",
        "One of them is 0, SUCCESS, \"No fault\";",
    ),
    term(
        Keyword::Request,
        Section::Attributes,
        "What the message to the device carries: variables, and constants of one octet.",
        "A mask behind a variable, as <0x0F>, carries these bits alone.",
    ),
    term(
        Keyword::Reply,
        Section::Attributes,
        "What the device's answer carries: variables, and constants of one octet.",
        "It is written as a REQUEST is, with masks and with INFO or INDEX in parentheses.",
    ),
    term(
        Keyword::Items,
        Section::Attributes,
        "The lines of the menu: variables, menus, collections, methods and texts.",
        "An entry may have DISPLAY_VALUE, READ_ONLY, HIDDEN or REVIEW in parentheses behind it.",
    ),
    term(
        Keyword::Members,
        Section::Attributes,
        "The members of the collection: name, item, text, help;",
        "The item is of the kind behind OF; text and help may be left out.",
    ),
    term(
        Keyword::Definition,
        Section::Attributes,
        "The body of the method.",
        "It has declarations of locals and statements in its braces.",
    ),
    term(
        Keyword::Elements,
        Section::Attributes,
        "The elements of the array: number, variable, text, help;",
        "The numbers may leave gaps and come in any order.",
    ),
    term(
        Keyword::If,
        Section::Attributes,
        "IF (e) { .. } ELSE { .. }: what applies where e is not 0, and else.",
        "The braces of ELSE may be left out.",
    ),
    term(
        Keyword::Else,
        Section::Attributes,
        "What applies where the condition of IF is 0.",
        "It belongs to the nearest IF that has none.",
    ),
    term(
        Keyword::Select,
        Section::Attributes,
        "SELECT (e) { CASE n: .. DEFAULT: .. }: what applies by the value of e.",
        "The first CASE that has the value applies.",
    ),
    term(
        Keyword::Case,
        Section::Attributes,
        "What applies where the value of SELECT is this number.",
        "The number may be negative, and a colon comes behind it.",
    ),
    term(
        Keyword::Default,
        Section::Attributes,
        "What applies where the value of SELECT is that of no CASE.",
        "It may stand before a CASE, and a SELECT has one at most.",
    ),
    term(
        Keyword::DefaultValue,
        Section::Attributes,
        "The value of the variable that is set back.",
        "It stands in the braces of TYPE, and may depend on conditions.",
    ),
    term(
        Keyword::MinValue,
        Section::Attributes,
        "The least value that may be entered.",
        "It stands in the braces of TYPE. A method stores any value that the type holds.",
    ),
    term(
        Keyword::MaxValue,
        Section::Attributes,
        "The greatest value that may be entered.",
        "It stands in the braces of TYPE. A method stores any value that the type holds.",
    ),
    term(
        Keyword::DisplayFormat,
        Section::Attributes,
        "How the value is shown, as 4d.",
        "It stands in the braces of TYPE.",
    ),
    term(
        Keyword::EditFormat,
        Section::Attributes,
        "How the value is entered, as 4d.",
        "It stands in the braces of TYPE.",
    ),
    term(
        Keyword::Int,
        Section::Names,
        "Declares locals, which have 32 bits.",
        "A declaration without a value sets 0.",
    ),
    term(
        Keyword::Long,
        Section::Names,
        "Declares locals, which have 32 bits, as int does.",
        "A declaration without a value sets 0.",
    ),
    term(
        Keyword::MethodIf,
        Section::Methods,
        "if (e) statement else statement: the first where e is not 0.",
        "The part with else may be left out.",
    ),
    term(
        Keyword::MethodElse,
        Section::Methods,
        "The statement where the condition of if is 0.",
        "It belongs to the nearest if that has none.",
    ),
    term(
        Keyword::While,
        Section::Methods,
        "while (e) statement: again as long as e is not 0.",
        "break leaves the loop, and continue begins its next turn.",
    ),
    term(
        Keyword::Do,
        Section::Methods,
        "do statement while (e); again as long as e is not 0, and once at least.",
        "break leaves the loop, and continue goes on at its condition.",
    ),
    term(
        Keyword::For,
        Section::Methods,
        "for (first; condition; step) statement: again as long as the condition is not 0.",
        "Each of the three may be left out; without a condition the loop is endless.",
    ),
    term(
        Keyword::Switch,
        Section::Methods,
        "switch (e) { case n: .. default: .. } goes on at the case of the value of e.",
        "Without a break it runs on into the next case.",
    ),
    term(
        Keyword::MethodCase,
        Section::Methods,
        "Where switch goes on for this number.",
        "The number may be negative, and no two cases of a switch have the same.",
    ),
    term(
        Keyword::MethodDefault,
        Section::Methods,
        "Where switch goes on for numbers of no case.",
        "It may stand before a case, and a switch has one at most.",
    ),
    term(
        Keyword::Break,
        Section::Methods,
        "Leaves the loop or the switch around it.",
        "It is refused where none is around it.",
    ),
    term(
        Keyword::Continue,
        Section::Methods,
        "Goes on with the next turn of the loop around it.",
        "In a for the step is done first.",
    ),
    term(
        Keyword::Return,
        Section::Methods,
        "Ends the method.",
        "A method gives no value, so nothing comes behind it.",
    ),
    term(
        Keyword::Char,
        Section::LeftOut,
        "A word of other languages, which methods do not have.",
        "Locals are int, which has 32 bits.",
    ),
    term(
        Keyword::Short,
        Section::LeftOut,
        "A word of other languages, which methods do not have.",
        "Locals are int, which has 32 bits.",
    ),
    term(
        Keyword::Unsigned,
        Section::LeftOut,
        "A word of other languages, which methods do not have.",
        "Locals are int, which has 32 bits.",
    ),
    term(
        Keyword::Signed,
        Section::LeftOut,
        "A word of other languages, which methods do not have.",
        "Locals are int, which has 32 bits.",
    ),
    term(
        Keyword::Float,
        Section::LeftOut,
        "A word of other languages, which methods do not have.",
        "Numbers are whole, and instruments scale them.",
    ),
    term(
        Keyword::Double,
        Section::LeftOut,
        "A word of other languages, which methods do not have.",
        "Numbers are whole, and instruments scale them.",
    ),
    term(
        Keyword::Goto,
        Section::LeftOut,
        "A word of other languages, which methods do not have.",
        "Loops and switch take its place.",
    ),
];

fn term_of(word: Keyword) -> Option<&'static Term> {
    TERMS.iter().find(|term| term.word == word)
}

/// What a reserved word means, in a line.
pub(crate) fn meaning_of(word: Keyword) -> &'static str {
    term_of(word).map_or("", |term| term.meaning)
}

/// What a reserved word means, in two or three sentences.
pub(crate) fn documentation_of(word: Keyword) -> String {
    term_of(word).map_or_else(String::new, |term| {
        format!("{} {}", term.meaning, term.more)
    })
}

/// Where a reserved word is told of.
pub(crate) fn section_of(word: Keyword) -> Section {
    term_of(word).map_or(Section::Grammar, |term| term.section)
}

#[cfg(test)]
mod tests {
    use super::*;
    use edd_syntax::symbols::KEYWORDS;

    #[test]
    fn each_reserved_word_is_told_of_in_sentences() {
        let words: Vec<_> = TERMS.iter().map(|term| term.word).collect();
        assert_eq!(words, KEYWORDS);
        for Term { meaning, more, .. } in TERMS {
            assert!(meaning.ends_with(['.', ';']), "{meaning}");
            assert!(more.ends_with(['.', ';']), "{more}");
        }
    }
}
