//! What is said of faults of the characters of a text.

use crate::sentences::sentences;

sentences! {
    /// What is said of a text that has no tokens.
    pub enum TextHelp {
        DigitsWithoutSign => "the digits of a number stand side by side, without a sign",
        DigitsWithoutUnderscore => "the digits of a number stand side by side, without _",
        FormatIsText => "a format is a text: it stands between two \"",
        NumberIsDecimal => "a number is decimal, or to the base 16 as 0x1F",
        NumberIsOne => "a number is one: a range has a CASE for each",
        NumberHasNoZero => "a number has no 0 in front, unless it is as 0x1F",
        NumberIsTooLarge => "a number is at most 4294967295",
        NumberIsWhole => "numbers are whole, without a point or letters behind it: take a smaller unit",
        NoLettersBehind => "a number has no letters behind it",
        HexDigits => "after 0x stand the digits 0 to 9 and A to F alone, as in 0x1F",
        MemberIsNamed => "after the . of c.m stands the name of a member, and no number",
        ForIsWritten => "a for has three parts, as in for (i = 0; i < 3; i++)",
        CarriageReturns => "the lines end with CR alone, so that a comment goes on to the end of the text: save the source with LF at their ends",
        QuoteInText => "a quote inside of a text is written \\\", and one may stand",
        HexIsWritten => "a number to the base 16 is written as 0x1F",
        NumberOrName => "a number has no letters behind it, and a name begins with a letter or _",
        NameBegins => "a name begins with a letter or _",
        CharacterIsNumber => "a text stands between two \", and a character is written as its number",
        NoSignBefore => "a number has no sign such as # before it",
        CommentIsWritten => "a comment is written // .. or /* .. */",
        NoToken => "no token has this character outside of strings and comments",
        NameIsTooLong => "a name has at most 255 letters, digits and _",
        TextIsTooLong => "a text has at most 1048576 bytes",
        SaveAsUtf8 => "save the source as UTF-8",
        CommentGoesOn => "a */ may be missing: another comment begins in the one that begins",
        CommentIsOpen => "the comment that begins here is never closed by */",
        StringIsOpen => "the string that begins here is never closed; a quote may be missing before it",
        Escapes => "the escapes are \\\" \\\\ \\n \\t and \\|",
        RunPreprocessor => "run the preprocessor first",
        LongString => "a string goes over several lines, which begins",
        QuoteBefore => "a quote may be missing before this, at the beginning of a text",
        QuoteAtBeginning => "a quote may be missing at the beginning of the text that ends",
        QuoteAtEnd => "a quote may be missing at the end of the text that begins",
    }
}
