//! Warnings on expressions and on conditions.

use super::kinds;
use crate::range::Range;

kinds! {
    /// What a warning on an expression or a condition is about.
    ConditionKind {
        DivisionByZero TrappingExpression
            "this always traps: it divides by 0"
        BadShift(number: i64) TrappingExpression
            "this always traps: it shifts by {number}"
        Constant(number: i64) ConstantCondition
            "this condition is always {number}"
        Literal(number: i64) LiteralCondition
            "this condition is always {number}"
        RepeatedCase(number: i64) RepeatedCase
            "the CASE {number} is there already"
        ComparedBits MisreadOperators
            "comparisons are evaluated before this sign: parentheses say what is meant"
        ComparedTruth MisreadOperators
            "this compares 0 or 1, which the comparison before it gives"
        NegatedFirst MisreadOperators
            "! is evaluated before this sign: parentheses say what is meant"
        NeverBoth SettledComparison
            "the comparisons on both sides of this sign never hold together"
        AlwaysOne SettledComparison
            "one of the comparisons on both sides of this sign always holds"
        Settled(gives: bool, range: Range) SettledComparison
            "this is always {gives}: the variable holds {range}"
        SettledCase(label: i64, range: Range) SettledComparison
            "the case {label} is never taken: the variable holds {range}"
        NoPower(number: i64) MisreadOperators
            "^ is the exclusive or, and no power: this is {number}"
        ShiftedSum MisreadOperators
            "a sum is evaluated before this shift: parentheses say what is meant"
        AddedState MisreadOperators
            "the sum is evaluated before this: parentheses say what is meant"
        NegatedNumber MisreadOperators
            "! of this number is 0: ~ inverts its bits"
        NegatedMask MisreadOperators
            "! gives 0 or 1: ~ inverts bits"
        TwoUnits(one: &'static str, other: &'static str) MixedUnits
            "one value is in {one} and the other in {other}, and nothing converts them"
        ExchangedText(other: i64) ExchangedText
            "this is the text of the enumerator {other}"
        OtherSelection(other: String) ExchangedText
            "these are the texts of the enumerators of {other}, and not of what is selected on"
        ShiftedCases(label: i64, missing: i64) UnenterableCase
            "the limits keep {label} from being entered, and {missing} has no case"
        UntestedDivisor(variable: String, number: i64) UntestedDivisor
            "this traps where {variable} is {number}"
        ImpossibleCase(label: i64) SettledComparison
            "the case {label} is never taken: this never gives it"
        EqualOperands EqualOperands
            "both sides of this sign are the same"
        EqualChoice EqualBranches
            "this gives the same in either case"
        EqualBranches EqualBranches
            "both branches of this condition are the same"
        RepeatedCondition RepeatedCondition
            "an earlier condition of this chain is the same, so this branch is never taken"
        MissingElement(number: i64) MissingElement
            "this always traps: the array has no element {number}"
        LateTrap TrapAfterAbortMethod
            "this can trap, and a trap runs no abort methods"
        IdleValidity MissingElse
            "this condition changes nothing: without ELSE the item is valid where it fails, too"
        IdleHandling MissingElse
            "this condition changes nothing: without ELSE the HANDLING is READ & WRITE where it fails, too"
        MissingCase(number: i64, variable: String) MissingCase
            "there is no case for the enumerator {number} of {variable}, and no DEFAULT"
        NothingUnderCondition EmptyCondition
            "nothing is under this condition"
        SettledHere(gives: bool) SettledCondition
            "this is always {gives} here"
        SettledTest(gives: bool) SettledCondition
            "these bits are always {gives} as a condition"
        SettledSelection(number: i64) SettledCondition
            "this is always {number} here, so that the same case is always taken"
        TruthOfNumber(number: u32) TruthOfNumber
            "{number} is always true: this compares nothing with it"
        AlwaysZero AlwaysZero
            "this is always 0"
        ZeroQuotient ZeroQuotient
            "this gives 0: a division has no fraction"
        CutQuotient(number: i64) ZeroQuotient
            "this gives {number}, which is multiplied: a division has no fraction"
        Overflow(number: i64) OverflowingConstant
            "{number} does not fit in 32 bits"
        DoubleSign DoubleSign
            "the + after this sign does nothing"
        UnnamedBits(number: i64, variable: String) UnnamedBits
            "{number} has bits that no enumerator of {variable} names"
        UntestedIndex(variable: String, number: i64) UntestedIndex
            "{variable} may be {number}, and the array has no element of that number"
        UntestedSum(number: i64) UntestedIndex
            "this may be {number}, and the array has no element of that number"
        CountedPastElements(number: i64) LoopLeavesArray
            "the loop comes to {number}, and the array has no element of that number"
    }
}
