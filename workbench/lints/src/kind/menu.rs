//! Warnings on menus, on their entries, and on items that nothing uses.

use super::kinds;

kinds! {
    /// What a warning on menus and on uses is about.
    MenuKind {
        Cyclic(menu: String) CyclicMenu
            "the menu {menu} contains itself"
        Empty(menu: String) EmptyMenu
            "the menu {menu} has no entries"
        RepeatedEntry(item: String) RepeatedEntry
            "{item} is in this list already"
        MissingLabel(item: String) MissingLabel
            "{item} has no LABEL, and a menu shows it"
        UnknownClass(word: String) UnknownClass
            "{word} is no class"
        MisspelledClass(word: String, near: &'static str) UnknownClass
            "{word} is no class: {near} may be meant"
        Unused(item: String) UnusedItem
            "nothing refers to {item}"
        UnreachedMethod(item: String) UnreachedMethod
            "no menu leads to {item}"
        UnreachedMenu(item: String) UnreachedMenu
            "no other menu leads to {item}"
        RepeatedLabel(item: String, other: String) RepeatedLabel
            "{item} has the LABEL of {other} in this list"
        QuotedItem(item: String) QuotedItem
            "this is a text: without quotes it is the item {item}"
        HiddenMenu(menu: String) HiddenMenu
            "the menu {menu} hides all of its entries"
        InvalidEntry(item: String) InvalidEntry
            "{item} is not valid under this condition, so it is never shown"
        NeverValid(item: String) InvalidEntry
            "{item} is never valid, so it is never shown"
        MisplacedQualifier(qualifier: &'static str, item: String) MisplacedQualifier
            "{qualifier} does nothing for {item}"
        RepeatedQualifier(qualifier: String) RepeatedQualifier
            "{qualifier} is there already"
        HiddenQualifiers HiddenQualifier
            "this entry is HIDDEN, so its other qualifiers do nothing"
        UnreadableEntry(item: String) UnreadableValue
            "the HANDLING of {item} is WRITE: there is no value to show"
        RepeatedMember(item: String) RepeatedMember
            "{item} is in this list already"
        LeftOverName(word: String, expected: String) LeftOverName
            "this is {word}, where {expected} may be meant: the items of the same name have their own number here"
        LeftOverNumber(number: u32, own: u32) LeftOverName
            "this is the LABEL of the item with the number {number}, and this one has {own}"
        EmptyList(item: String) EmptyList
            "{item} has nothing in it"
        EmptyMethod(method: String) EmptyMethod
            "the method {method} does nothing"
    }
}
