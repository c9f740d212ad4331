//! Warnings on variables and their types.

use super::kinds;
use crate::range::Range;
use edd_syntax::numbers::NumberOption;
use std::fmt;

/// What a number of a type is for.
#[derive(Clone, Copy, Debug, PartialEq, Eq)]
pub enum NumberRole {
    /// It is an enumerator.
    Enumerator,
    /// It is the value of an option.
    Option(NumberOption),
}

impl fmt::Display for NumberRole {
    fn fmt(&self, f: &mut fmt::Formatter<'_>) -> fmt::Result {
        match self {
            NumberRole::Enumerator => write!(f, "the enumerator"),
            NumberRole::Option(option) => write!(f, "{}", option.attr().word()),
        }
    }
}

kinds! {
    /// What a warning on a variable is about.
    VariableKind {
        OutOfRange(role: NumberRole, number: i64, range: Range) ValueOutOfRange
            "{role} {number} is outside of the type's {range}"
        CrossedLimits(least: i64, greatest: i64) LimitsCrossed
            "MIN_VALUE {least} is over MAX_VALUE {greatest}"
        LimitsApart(over: i64) LimitsCrossed
            "MIN_VALUE is always {over} over MAX_VALUE"
        DefaultBelow(default: i64, least: i64) DefaultOutsideLimits
            "DEFAULT_VALUE {default} is below MIN_VALUE {least}"
        DefaultOver(default: i64, greatest: i64) DefaultOutsideLimits
            "DEFAULT_VALUE {default} is over MAX_VALUE {greatest}"
        DefaultApart(over: i64) DefaultOutsideLimits
            "DEFAULT_VALUE is always {over} over MAX_VALUE"
        DefaultApartBelow(below: i64) DefaultOutsideLimits
            "DEFAULT_VALUE is always {below} below MIN_VALUE"
        RepeatedEnumerator(number: i64) RepeatedEnumerator
            "the enumerator {number} is there already"
        NoBit EnumeratorBits
            "0 has no bit, and each enumerator names one"
        SeveralBits(number: i64, bits: u32) EnumeratorBits
            "{number} has {bits} bits, and each enumerator names one"
        UnnamedBits(number: i64) UnlistedValue
            "{number} has bits that no enumerator names"
        Unlisted(number: i64, variable: String) UnlistedValue
            "{number} is no enumerator of {variable}"
        NoneMeets(variable: String) UnlistedValue
            "no enumerator of {variable} is so"
        UnlistedCase(number: i64, variable: String) UnlistedValue
            "the case {number} is no enumerator of {variable}"
        MeaninglessFormat MeaninglessFormat
            "this is no format of a whole number, as 4d or 04x is"
        NoEnumerators(variable: String) MissingEnumerators
            "{variable} has no enumerators"
        RepeatedText RepeatedEnumeratorText
            "an enumerator before this one has the same text"
        SingleEnumerator(variable: String) SingleEnumerator
            "{variable} has one enumerator: there is nothing to choose"
        SingleValue(number: i64) SingleValueLimits
            "MIN_VALUE and MAX_VALUE are both {number}: no other value can be entered"
        SameLimits SingleValueLimits
            "MIN_VALUE and MAX_VALUE are always the same: no other value can be entered"
        CircularLimits(variable: String) CircularLimits
            "the limits of {variable} depend on {variable} itself"
        CircularDefault(variable: String) CircularLimits
            "the DEFAULT_VALUE of {variable} depends on {variable} itself"
        CircularValidity(variable: String) CircularValidity
            "whether {variable} is valid depends on {variable} itself"
        CircularHandling(variable: String) CircularHandling
            "the HANDLING of {variable} depends on {variable} itself"
        RepeatedClass(class: String) RepeatedClass
            "{class} is in this CLASS already"
        ConstantAndDynamic ConflictingClasses
            "a value that is CONSTANT is not DYNAMIC"
        UnreadableDynamic(variable: String) UnreadableDynamic
            "{variable} is DYNAMIC, and its HANDLING keeps it from being read"
        WideFormat(width: u32) WideFormat
            "no number has {width} digits"
        UnreadDynamic(variable: String) UnreadDynamic
            "no command reads {variable}, which is DYNAMIC"
        ConditionalDefault(number: i64) ConditionalDefault
            "the DEFAULT_VALUE {number} is an enumerator under a condition alone"
        UnreachableEnumerator(number: i64, variable: String) UnreachableEnumerator
            "{number} can be chosen only where {variable} is {number} already"
        NamedUnit(named: &'static str, own: &'static str) ContradictingUnit
            "this names the unit {named}, and the CONSTANT_UNIT is {own}"
        OtherUnit(own: &'static str, usual: &'static str) ContradictingUnit
            "this is in {own}, and the variables of the same name are in {usual}"
        UnitOfBits UnitOfBits
            "bits have no unit"
        SetConstant(variable: String) ConflictingClasses
            "{variable} is CONSTANT, and a method sets it"
        NamedRange(low: i64, high: i64, least: i64, greatest: i64) ContradictingRange
            "this says {low} to {high}, and the limits are {least} to {greatest}"
        NamedDefault(named: i64, default: i64) ContradictingRange
            "this says that {named} is the default, and the DEFAULT_VALUE is {default}"
        OppositeLabel(word: &'static str, other: &'static str) ContradictingName
            "this says {word}, and the name says {other}"
        OppositeLimit(limit: NumberRole, other: String) ContradictingName
            "this {limit} is {other}, which its name puts at the other end"
        OppositeOperation(operation: &'static str, verb: &'static str) ContradictingName
            "this says {operation}, and the name of the command says {verb}"
        OppositeMember(member: String, item: String) ContradictingName
            "{member} names {item}: the other one may be meant"
        ExchangedMembers(one: String, other: String) ContradictingName
            "{one} and {other} are exchanged in this list"
        OtherVariable(command: String, variable: String) ContradictingName
            "{command} does not carry {variable}, which its name has"
        LockedOut(variable: String, number: i64) LockedOut
            "nothing lets {variable} be changed where it is {number}"
        Unsent(variable: String) UnsentVariable
            "{variable} may be written, and no command sends it: the next reply replaces what is entered"
        Ineffective(variable: String) IneffectiveVariable
            "what is entered for {variable} has no effect: no command sends it, and nothing reads it"
    }
}
