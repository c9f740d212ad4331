//! Warnings on commands.

use super::kinds;

kinds! {
    /// What a warning on a command is about.
    CommandKind {
        RepeatedCommand(number: i64) RepeatedCommandNumber
            "the command number {number} is there already"
        RepeatedResponseCode(number: i64) RepeatedResponseCode
            "the response code {number} is there already"
        RepeatedTransaction(number: i64) RepeatedTransactionNumber
            "the transaction number {number} is there already"
        RepeatedDataItem(variable: String) RepeatedDataItem
            "{variable} is in this reply already"
        OverlappingMask OverlappingMasks
            "this mask has bits that one before it has, of the same variable"
        WideMask(mask: u32, most: i64) WideMask
            "{mask} has bits that its variable, of at most {most}, does not have"
        ReadsNothing SilentRead
            "this READ sends variables and gets none: REPLY is meant"
        WritesNothing SilentWrite
            "this WRITE sends nothing: its REQUEST has no data"
        WrittenReadOnly(variable: String) WrittenReadOnly
            "the HANDLING of {variable} is READ, and no method sets it: only what was read is written"
        WideNumber(number: u32) WideCommandNumber
            "two octets do not hold {number}"
        AmbiguousTransaction AmbiguousTransaction
            "this transaction can't be told from another one: without a number it counts as 0"
        EqualRequests AmbiguousTransaction
            "this transaction sends what another one sends: a device can't tell them apart"
        FailingZero FailingZero
            "0 is the code of what went well, and this is no SUCCESS"
        NoResponseCodes EmptyResponseCodes
            "there are no response codes here"
        NarrowMask(mask: u32, count: usize, variable: String) NarrowMask
            "{mask} has too few bits for the {count} enumerators of {variable}"
        CrossingMasks(other: String) OverlappingMasks
            "this mask has bits of the mask of {other} before it, and others"
        KeepsNothing SilentRead
            "this READ keeps nothing: all of its reply is INFO"
        ReadsUnreadable(variable: String) UnreadableValue
            "this READ gets {variable}, and its HANDLING is WRITE"
        RepeatedCodeText(number: u32) RepeatedResponseText
            "the response code {number} has the same class and text"
        OppositeClass(text: &'static str) OppositeClass
            "this class is that of what went well, and the text says {text}"
        SuccessfulError(text: &'static str) OppositeClass
            "this class is that of an error, and the text says {text}"
        OtherEcho(echo: u32, selector: u32) UnevenEcho
            "the reply begins with {echo} and the request with {selector}: in the others both are the same"
        OtherReply UnevenEcho
            "the reply has none of what the request sends, and something else: others have the same in both"
        UnsharedCondition(variable: String) UnsharedCondition
            "no message carries {variable}: who receives this can't tell which of the branches it is"
        UnorderedResponseCode(number: u32) UnorderedResponseCodes
            "{number} is smaller than the response code before it"
    }
}
