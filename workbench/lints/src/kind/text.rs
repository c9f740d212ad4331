//! Warnings on texts and comments.

use super::kinds;

kinds! {
    /// What a warning on a text or a comment is about.
    TextKind {
        StrayBar StrayBar
            "a bar in this text opens no language"
        MissingLanguage(code: String) MissingLanguage
            "this text lacks {code}, which most texts have"
        RepeatedLanguage(code: String) RepeatedLanguage
            "{code} is twice in this text"
        EmptyLanguage(code: String) EmptyLanguage
            "this text has no words in {code}"
        UnknownLanguage(code: String) UnknownLanguage
            "{code} is no code of a language"
        UnevenChoices(count: usize, first: String, other: usize, second: String) UnevenChoices
            "{count} choices in {first}, but {other} in {second}"
        Placeholder UnreadPlaceholder
            "texts are shown as they are: nothing is put in place of this %"
        JoinedTexts JoinedTexts
            "this text and the one before it are one: a comma or a space is missing"
        TurnedText BidirectionalText
            "this text has a character that turns its direction and is not seen"
        TurnedComment(character: u32) BidirectionalComment
            "this comment has a character that turns its direction and is not seen, U+{character:X}"
        EmptyText EmptyText
            "this text is empty"
        UnevenNumbers(first: String, code: String, other: String, second: String) UnevenNumbers
            "this text has {first} in {code}, but {other} in {second}"
        ExchangedLanguages ExchangedLanguages
            "the languages of this text are exchanged"
        OppositeTranslation OppositeTranslation
            "one language of this text says the opposite of the other"
        SameSentence UntranslatedText
            "this sentence is the same in two languages"
        EscapedPath EscapedPath
            "this begins a new line or a tab: two backslashes show one"
        SwallowedCode SwallowedCode
            "another comment begins in this one: it was not closed, and what stands between is no code"
        Untranslated(code: String) UntranslatedText
            "this text is in {code} alone, and most texts are in more languages"
        BracedItem(item: String) BracedItem
            "texts are shown as they are: nothing is put in place of {{{item}}}"
        EscapedEscape EscapedEscape
            "this is shown as a backslash and an n: one backslash begins a line"
        CommaChoices CommaChoices
            "this is one choice: semicolons part choices"
        EmptyChoice EmptyChoice
            "a choice of this list has no words"
        RepeatedChoice RepeatedChoice
            "a choice of this list is there twice"
        UnknownLint(word: String) UnknownLint
            "no lint has the name {word}"
        MisspelledLint(word: String, near: &'static str) UnknownLint
            "no lint has the name {word}: {near} may be meant"
    }
}
