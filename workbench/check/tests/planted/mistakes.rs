//! The kinds of mistakes.

use super::Original;
use super::letters::Letters;
use edd_lexer::token::{Token, TokenKind};
use edd_source::tokens::{item_kind, word_of};
use edd_source::{Edit, Outline, Span};
use edd_syntax::operators::Builtin;
use edd_syntax::symbols::Keyword;

/// A mistake that can be made at some tokens.
#[derive(Clone, Copy, Debug)]
pub(crate) enum Mistake {
    /// Something else stands in the place of a word or a sign.
    Instead(&'static str, &'static str),
    /// Something else stands in the place of the first of these two.
    Before(&'static str, &'static str, &'static str),
    /// Something else stands in the place of the second of these two.
    Behind(&'static str, &'static str, &'static str),
    /// A reserved word has a slip of typing.
    Keyword(Letters),
    /// A function's name has one.
    Function(Letters),
    /// A name that is used has one.
    Use(Letters),
    /// The name of an item has one.
    Declaration(Letters),
    /// A text has these in place of its quotes.
    Quotes(&'static str, &'static str),
    /// A number is another one, or none.
    Number(&'static str),
    /// The last argument of a function is left out.
    DroppedArgument,
    /// A function has this argument too.
    AddedArgument,
    /// An attribute stands behind its item.
    OutsideOfItem,
    /// An attribute is there twice.
    AttributeTwice,
    /// An attribute, from its word to its `;`, is left out.
    AttributeDropped,
    /// An item has the name of the one before.
    NameOfOther,
    /// A line that opens braces is there twice.
    LineTwice,
}

use Mistake::{
    AddedArgument, AttributeDropped, AttributeTwice, Before, Behind, Declaration, DroppedArgument,
    Function, Instead, LineTwice, NameOfOther, Number, OutsideOfItem, Quotes, Use,
};

/// What a mistake is called, and what it is.
pub(crate) const MISTAKES: &[(&str, Mistake)] = &[
    ("dropped ;", Instead(";", "")),
    ("dropped }", Instead("}", "")),
    ("dropped {", Instead("{", "")),
    ("dropped )", Instead(")", "")),
    ("dropped (", Instead("(", "")),
    ("dropped ,", Instead(",", "")),
    ("dropped >", Instead(">", "")),
    ("dropped opening quote", Quotes("", "\"")),
    ("dropped closing quote", Quotes("\"", "")),
    ("doubled }", Instead("}", "}}")),
    ("doubled {", Instead("{", "{{")),
    ("doubled )", Instead(")", "))")),
    ("doubled (", Instead("(", "((")),
    ("doubled ,", Instead(",", ",,")),
    ("doubled ;", Behind("\"", ";", ";;")),
    ("doubled quote", Quotes("\"\"", "\"")),
    ("apostrophes", Quotes("'", "'")),
    ("typographic quotes", Quotes("\u{201c}", "\u{201d}")),
    (", for ;", Instead(";", ",")),
    (": for ;", Instead(";", ":")),
    ("; for ,", Instead(",", ";")),
    (". for ,", Instead(",", ".")),
    ("; for :", Instead(":", ";")),
    ("( for {", Instead("{", "(")),
    (") for }", Instead("}", ")")),
    ("] for }", Instead("}", "]")),
    ("[ for (", Instead("(", "[")),
    ("{ for (", Instead("(", "{")),
    ("] for )", Instead(")", "]")),
    ("} for )", Instead(")", "}")),
    ("( for [", Instead("[", "(")),
    (", before }", Instead("}", ", }")),
    ("; behind }", Instead("}", "};")),
    ("; behind )", Before(")", "{", ");")),
    ("; behind {", Instead("{", "{;")),
    ("= for ==", Instead("==", "=")),
    ("== for =", Instead("=", "==")),
    ("=== for ==", Instead("==", "===")),
    ("<> for !=", Instead("!=", "<>")),
    (":= for =", Instead("=", ":=")),
    ("=< for <=", Instead("<=", "=<")),
    ("and for &&", Instead("&&", "and")),
    ("OR for ||", Instead("||", "OR")),
    (
        "swapped letters of a word",
        Mistake::Keyword(Letters::Swapped),
    ),
    (
        "dropped letter of a word",
        Mistake::Keyword(Letters::Dropped),
    ),
    (
        "doubled letter of a word",
        Mistake::Keyword(Letters::Doubled),
    ),
    (
        "word of the other case",
        Mistake::Keyword(Letters::OtherCase),
    ),
    ("word with a hyphen", Mistake::Keyword(Letters::Hyphen)),
    ("word with a blank", Mistake::Keyword(Letters::Blank)),
    ("swapped letters of a function", Function(Letters::Swapped)),
    ("dropped letter of a function", Function(Letters::Dropped)),
    ("doubled letter of a function", Function(Letters::Doubled)),
    ("function of the other case", Function(Letters::OtherCase)),
    ("function with a blank", Function(Letters::Blank)),
    ("swapped letters of a name", Use(Letters::Swapped)),
    ("dropped letter of a name", Use(Letters::Dropped)),
    ("doubled letter of a name", Use(Letters::Doubled)),
    ("name of the other case", Use(Letters::OtherCase)),
    ("name with a hyphen", Use(Letters::Hyphen)),
    ("name with a blank", Use(Letters::Blank)),
    (
        "swapped letters of a declared name",
        Declaration(Letters::Swapped),
    ),
    (
        "dropped letter of a declared name",
        Declaration(Letters::Dropped),
    ),
    ("missing ELSE", Instead("ELSE", "")),
    ("missing else", Instead("else", "")),
    ("missing OF", Instead("OF", "")),
    ("missing kind after OF", Behind("OF", "VARIABLE", "")),
    ("missing TYPE", Instead("TYPE", "")),
    ("missing DEFINITION", Instead("DEFINITION", "")),
    ("missing LABEL", Instead("LABEL", "")),
    ("missing IF", Instead("IF", "")),
    ("missing if", Instead("if", "")),
    ("missing CASE", Instead("CASE", "")),
    ("missing case", Instead("case", "")),
    ("missing NUMBER", Instead("NUMBER", "")),
    ("missing METHOD", Instead("METHOD", "")),
    ("missing VARIABLE", Instead("VARIABLE", "")),
    ("missing TRANSACTION", Instead("TRANSACTION", "")),
    ("missing do", Instead("do", "")),
    ("missing &", Instead("&", "")),
    ("missing =", Instead("=", "")),
    ("FLOAT for INTEGER", Instead("INTEGER", "FLOAT")),
    (
        "UNSIGNED for UNSIGNED_INTEGER",
        Instead("UNSIGNED_INTEGER", "UNSIGNED"),
    ),
    ("ENUM for ENUMERATED", Instead("ENUMERATED", "ENUM")),
    ("float for int", Instead("int", "float")),
    ("unsigned int for int", Instead("int", "unsigned int")),
    ("until for while", Instead("while", "until")),
    ("elseif for else if", Before("else", "if", "else")),
    ("switch for SELECT", Instead("SELECT", "SWITCH")),
    ("FOR for for", Instead("for", "FOR")),
    ("= behind a word", Instead("LABEL", "LABEL =")),
    (": behind a word", Instead("HANDLING", "HANDLING:")),
    (
        "DEFAULT for DEFAULT_VALUE",
        Instead("DEFAULT_VALUE", "DEFAULT"),
    ),
    ("NAME for LABEL", Instead("LABEL", "NAME")),
    ("UNIT for CONSTANT_UNIT", Instead("CONSTANT_UNIT", "UNIT")),
    ("READ_WRITE", Before("READ", "&", "READ_")),
    (
        "attribute of another item",
        Instead("LABEL", "ITEMS { } LABEL"),
    ),
    (
        "attribute in an option",
        Instead("MAX_VALUE", "HELP \"x\"; MAX_VALUE"),
    ),
    ("number over all", Number("4294967296")),
    ("number with a 0 in front", Number("007")),
    ("number with a point", Number("1.5")),
    ("number with a comma", Number("1,5")),
    ("hexadecimal number with a wrong digit", Number("0x1G")),
    ("number with its unit", Number("5s")),
    ("missing number", Number("")),
    ("dropped argument", DroppedArgument),
    ("added argument", AddedArgument),
    ("attribute outside of its item", OutsideOfItem),
    ("attribute twice", AttributeTwice),
    ("attribute left out", AttributeDropped),
    ("name of another item", NameOfOther),
    ("line that opens braces twice", LineTwice),
    ("comment that is not closed", Instead("METHOD", "/* METHOD")),
    ("no-break space", Instead("TYPE", "TYPE\u{a0}")),
    ("full-width ;", Instead(";", "\u{ff1b}")),
];

impl Mistake {
    /// The mistake at a token, where it can be made.
    pub(crate) fn edits(self, original: &Original, number: usize) -> Option<Vec<Edit>> {
        let place = Place { original, number };
        match self {
            OutsideOfItem => place.outside(),
            _ => self.edit(place).map(|edit| vec![edit]),
        }
    }

    fn edit(self, place: Place<'_>) -> Option<Edit> {
        match self {
            Instead(was, text) => Some(place.spelled(0, was)?.replaced(text)),
            Before(was, next, text) => {
                place.spelled(1, next)?;
                Some(place.spelled(0, was)?.replaced(text))
            }
            Behind(before, was, text) => {
                place.follows(before)?;
                Some(place.spelled(0, was)?.replaced(text))
            }
            Mistake::Keyword(letters) | Function(letters) | Use(letters) | Declaration(letters) => {
                self.may_slip(place)
                    .then(|| place.slipped(letters))
                    .flatten()
            }
            Quotes(opening, closing) => place.quoted(opening, closing),
            Number(text) => {
                matches!(place.token(0)?.kind, TokenKind::Integer(_)).then(|| place.replaced(text))
            }
            DroppedArgument => place.dropped_argument(),
            AddedArgument => {
                place.call()?;
                place.before(", 0")
            }
            AttributeTwice => place.repeated(),
            AttributeDropped => place.left_out(),
            NameOfOther => place.name_of_other(),
            LineTwice => place.line_twice(),
            OutsideOfItem => None,
        }
    }

    // Whether the word at a place is of the sort that has a slip of typing.
    fn may_slip(self, place: Place<'_>) -> bool {
        let word = place.word(0).unwrap_or_default();
        match self {
            Mistake::Keyword(_) => place
                .token(0)
                .is_some_and(|token| matches!(token.kind, TokenKind::Keyword(_))),
            Function(_) => Builtin::named(word).is_some(),
            // In brackets a name stands for a text that is looked up elsewhere.
            Use(_) => place.is_name() && !place.is_declared() && !place.is_in_dictionary(),
            Declaration(_) => place.is_declared() && 1 < place.original.uses(word),
            _ => false,
        }
    }
}

fn insertion(at: usize, text: &str) -> Edit {
    Edit {
        span: Span::before(at),
        text: text.to_owned(),
    }
}

/// A token of a source.
#[derive(Clone, Copy)]
struct Place<'o> {
    original: &'o Original,
    number: usize,
}

impl<'o> Place<'o> {
    fn tokens(self) -> &'o [Token] {
        &self.original.tokens
    }

    /// The token so many further on.
    fn token(self, ahead: usize) -> Option<&'o Token> {
        self.tokens().get(self.number.checked_add(ahead)?)
    }

    fn word(self, ahead: usize) -> Option<&'o str> {
        Some(word_of(self.original.text.as_bytes(), self.token(ahead)?))
    }

    fn spelled(self, ahead: usize, word: &str) -> Option<Place<'o>> {
        (self.word(ahead)? == word).then_some(self)
    }

    /// Whether a word or a sign is right before; a quote stands for a text.
    fn follows(self, before: &str) -> Option<()> {
        let number = self.number.checked_sub(1)?;
        let word = Place { number, ..self }.word(0)?;
        let is_so = word == before || (before == "\"" && word.starts_with('"'));
        is_so.then_some(())
    }

    fn span(self) -> Span {
        self.token(0).map_or(Span::before(0), Span::of)
    }

    fn replaced(self, text: &str) -> Edit {
        Edit {
            span: self.span(),
            text: text.to_owned(),
        }
    }

    fn before(self, text: &str) -> Option<Edit> {
        Some(insertion(self.span().start, text))
    }

    /// The word with a slip, at a letter that its place chooses.
    fn slipped(self, letters: Letters) -> Option<Edit> {
        let slipped = letters.slip(self.word(0)?, self.number)?;
        Some(self.replaced(&slipped))
    }

    /// Whether it is a name of the source, of at least three letters.
    fn is_name(self) -> bool {
        let is_own = |word: &str| Builtin::named(word).is_none() && 2 < word.len();
        self.token(0)
            .is_some_and(|token| token.kind == TokenKind::Name)
            && self.word(0).is_some_and(is_own)
    }

    /// Whether it is the name of an item where that is declared.
    fn is_declared(self) -> bool {
        let before = self.number.checked_sub(1);
        let before = before.and_then(|before| self.tokens().get(before));
        let is_item = before.is_some_and(|token| item_kind(token).is_some());
        self.is_name() && is_item && self.spelled(1, "{").is_some()
    }

    /// Whether it names a text of the dictionary.
    fn is_in_dictionary(self) -> bool {
        self.follows("[").is_some() && self.spelled(2, ";").is_some()
    }

    fn quoted(self, opening: &str, closing: &str) -> Option<Edit> {
        let text = self.word(0)?.strip_prefix('"')?.strip_suffix('"')?;
        Some(self.replaced(&format!("{opening}{text}{closing}")))
    }

    /// The `(` of the call of a function of which this is the `)`.
    fn call(self) -> Option<usize> {
        self.spelled(0, ")")?;
        let at = |number| Place { number, ..self }.word(0);
        let opens = |number: &usize| at(*number).is_some_and(|word| word == "(");
        let open = (0..self.number).rev().find(opens)?;
        let name = at(open.checked_sub(1)?)?;
        Builtin::named(name).map(|_| open)
    }

    fn dropped_argument(self) -> Option<Edit> {
        let open = self.call()?;
        let is_comma = |number: &usize| {
            let place = Place {
                number: *number,
                ..self
            };
            place.spelled(0, ",").is_some()
        };
        let comma = (open..self.number).rev().find(is_comma)?;
        let start = Span::of(self.tokens().get(comma)?).start;
        let end = self.span().start;
        Some(Edit {
            span: Span { start, end },
            text: String::new(),
        })
    }

    /// An attribute that ends with the first `;`, from its word.
    fn attribute(self) -> Option<Span> {
        let is_simple = matches!(
            self.token(0)?.kind,
            TokenKind::Keyword(
                Keyword::Label
                    | Keyword::Class
                    | Keyword::Number
                    | Keyword::Operation
                    | Keyword::ConstantUnit
            )
        );
        let ends = |ahead: &usize| self.word(*ahead) == Some(";");
        let end = (1..8).find(ends).filter(|_| is_simple)?;
        Some(Span {
            start: self.span().start,
            end: Span::of(self.token(end)?).end,
        })
    }

    /// The line of a brace that opens, and ends it, once more.
    fn line_twice(self) -> Option<Edit> {
        self.spelled(0, "{")?;
        let behind = self.original.text.get(self.span().end..)?;
        behind.starts_with('\n').then_some(())?;
        let before = self.original.text.get(..self.span().end)?;
        let line = before.rsplit('\n').next()?;
        Some(insertion(self.span().end, &format!("\n{line}")))
    }

    /// The attribute once more behind itself.
    fn repeated(self) -> Option<Edit> {
        let span = self.attribute()?;
        let text = span.read(self.original.text.as_bytes());
        Some(insertion(span.end, &format!(" {text}")))
    }

    /// Nothing in place of an attribute that its item needs.
    fn left_out(self) -> Option<Edit> {
        let is_needed = matches!(self.word(0)?, "NUMBER" | "OPERATION");
        let span = self.attribute().filter(|_| is_needed)?;
        Some(Edit {
            span,
            text: String::new(),
        })
    }

    fn outside(self) -> Option<Vec<Edit>> {
        let span = self.attribute()?;
        let outline = Outline::of(self.tokens());
        let closes = |number: &usize| {
            let is_outer = outline.opened(self.tokens(), *number).is_none();
            let place = Place {
                number: *number,
                ..self
            };
            is_outer && place.spelled(0, "}").is_some()
        };
        let end = (self.number..self.tokens().len()).find(closes)?;
        let end = Span::of(self.tokens().get(end)?).end;
        let text = span.read(self.original.text.as_bytes());
        let removed = Edit {
            span,
            text: String::new(),
        };
        Some(vec![removed, insertion(end, &format!("\n{text}"))])
    }

    fn name_of_other(self) -> Option<Edit> {
        let is_used = 1 < self.original.uses(self.word(0)?);
        (is_used && self.is_declared()).then_some(())?;
        let earlier = (0..self.number).rev().find(|number| {
            Place {
                number: *number,
                ..self
            }
            .is_declared()
        })?;
        let name = Place {
            number: earlier,
            ..self
        };
        Some(self.replaced(name.word(0)?))
    }
}
