//! Why a source is refused.

use edd_breaches::RuleFault;
use edd_compiler::Fault;
use edd_lexer::fault::LexFault;
use edd_syntax::limits::Limit;
use edd_token_reader::fault::ParseFault;
use std::fmt;

/// Why a source is refused: the fault of its tokens, a syntax error, or a rule that it breaks.
///
/// It prints what the program `edd` prints behind `refused`. docs/REFUSALS.md explains each number.
///
/// ```
/// use edd_report::Refusal;
///
/// let refusal = Refusal::on_line(10, "SYNTAX", 2);
/// assert_eq!((refusal.number(), refusal.name(), refusal.detail()), (10, "SYNTAX", "line 2"));
/// assert_eq!(refusal.to_string(), "10 SYNTAX line 2");
/// ```
#[derive(Clone, Debug, PartialEq, Eq)]
pub struct Refusal {
    number: u16,
    name: &'static str,
    detail: String,
    line: Option<u32>,
}

impl Refusal {
    /// A refusal with the names at fault; they may be empty.
    pub fn new(number: u16, name: &'static str, detail: impl Into<String>) -> Refusal {
        Refusal {
            number,
            name,
            detail: detail.into(),
            line: None,
        }
    }

    /// A refusal that reports a line.
    pub fn on_line(number: u16, name: &'static str, line: u32) -> Refusal {
        Refusal {
            line: Some(line),
            ..Refusal::new(number, name, format!("line {line}"))
        }
    }

    /// The number of the refusal.
    pub fn number(&self) -> u16 {
        self.number
    }

    /// The kind of the refusal: the word behind its number.
    pub fn name(&self) -> &'static str {
        self.name
    }

    /// The names or the line at fault, as they are printed. It may be empty.
    pub fn detail(&self) -> &str {
        &self.detail
    }

    /// The line at fault, counted from 1, where the refusal reports a line.
    pub fn line(&self) -> Option<u32> {
        self.line
    }

    /// The refusal of a source for a fault that the compiler found. `line` is that of the token at
    /// fault, where it has one. There is none where memory was refused.
    pub fn of_fault(fault: &Fault, line: Option<u32>) -> Option<Refusal> {
        match fault {
            Fault::Lex(fault) => Refusal::of_text(fault, fault.line()),
            Fault::Parse(fault) => Refusal::of_grammar(fault, line),
            Fault::Rule(fault) => Refusal::of_rule(fault, line),
            Fault::TooManyStrings => {
                Some(Refusal::new(40, "TOO_MANY", limit_word(&Limit::Strings)))
            }
            Fault::Memory => None,
        }
    }

    /// The refusal of a source that has no tokens, by the line of its fault.
    pub fn of_text(fault: &LexFault, line: Option<u32>) -> Option<Refusal> {
        let (number, name) = match fault {
            LexFault::NotUtf8 { .. } => (1, "NOT_UTF8"),
            LexFault::TooLong => (2, "TOO_LONG"),
            LexFault::BadCharacter { .. } => (3, "BAD_CHARACTER"),
            LexFault::OpenComment { .. } => (4, "OPEN_COMMENT"),
            LexFault::OpenString { .. } => (5, "OPEN_STRING"),
            LexFault::BadEscape { .. } => (6, "BAD_ESCAPE"),
            LexFault::BadNumber { .. } => (7, "BAD_NUMBER"),
            LexFault::Directive { .. } => (8, "DIRECTIVE"),
            LexFault::Memory => return None,
        };
        Some(Refusal::at(number, name, line))
    }

    /// The refusal of a source whose tokens spell no description, by the line of the token at fault.
    pub fn of_grammar(fault: &ParseFault, line: Option<u32>) -> Option<Refusal> {
        match fault {
            ParseFault::Syntax { .. } => Some(Refusal::at(10, "SYNTAX", line)),
            ParseFault::TooDeep { .. } => Some(Refusal::at(11, "TOO_DEEP", line)),
            ParseFault::Unsupported { word, .. } => {
                Some(Refusal::new(12, "UNSUPPORTED", word.as_str()))
            }
            ParseFault::Memory => None,
        }
    }

    /// The refusal of a source that breaks a rule, by the line of the token at fault.
    pub fn of_rule(fault: &RuleFault, line: Option<u32>) -> Option<Refusal> {
        let refusal = match fault {
            RuleFault::DuplicateName(name) => Refusal::new(20, "DUPLICATE_NAME", name.as_str()),
            RuleFault::UnknownName(name) => Refusal::new(21, "UNKNOWN_NAME", name.as_str()),
            RuleFault::WrongKind(name) => Refusal::new(22, "WRONG_KIND", name.as_str()),
            RuleFault::DuplicateAttribute(word) => Refusal::new(23, "DUPLICATE_ATTRIBUTE", *word),
            RuleFault::MissingAttribute { item, word } => {
                Refusal::new(24, "MISSING_ATTRIBUTE", format!("{item} {word}"))
            }
            RuleFault::FloatVariable(name) => Refusal::new(30, "FLOAT_VARIABLE", name.as_str()),
            RuleFault::OtherType { variable, word } => {
                Refusal::new(31, "OTHER_TYPE", format!("{variable} {word}"))
            }
            RuleFault::BadSize(name) => Refusal::new(32, "BAD_SIZE", name.as_str()),
            RuleFault::Mismatch { .. } => Refusal::at(33, "MISMATCH", line),
            RuleFault::FloatValue { .. } => Refusal::at(34, "FLOAT_VALUE", line),
            RuleFault::BreakOutside { .. } => Refusal::at(35, "BREAK_OUTSIDE", line),
            RuleFault::ConstRange { .. } => Refusal::at(36, "CONST_RANGE", line),
            RuleFault::DuplicateCase { .. } => Refusal::at(37, "DUPLICATE_CASE", line),
            RuleFault::DuplicateElement { .. } => Refusal::at(38, "DUPLICATE_ELEMENT", line),
            RuleFault::TooMany(limit) => Refusal::new(40, "TOO_MANY", limit_word(limit)),
            RuleFault::Memory => return None,
        };
        Some(refusal)
    }

    fn at(number: u16, name: &'static str, line: Option<u32>) -> Refusal {
        match line {
            Some(line) => Refusal::on_line(number, name, line),
            None => Refusal::new(number, name, ""),
        }
    }
}

fn limit_word(limit: &Limit) -> &'static str {
    match limit {
        Limit::Items => "items",
        Limit::Transactions => "transactions",
        Limit::Locals => "locals",
        Limit::Nodes => "nodes",
        Limit::Strings => "strings",
    }
}

impl fmt::Display for Refusal {
    fn fmt(&self, f: &mut fmt::Formatter<'_>) -> fmt::Result {
        write!(f, "{} {}", self.number, self.name)?;
        if self.detail.is_empty() {
            return Ok(());
        }
        write!(f, " {}", self.detail)
    }
}

impl std::error::Error for Refusal {}
