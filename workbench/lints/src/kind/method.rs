//! Warnings on the bodies of methods.

use super::kinds;
use crate::range::Range;

kinds! {
    /// What a warning on the body of a method is about.
    MethodKind {
        DroppedComparison DroppedComparison
            "what this comparison gives is not used: = assigns"
        DroppedValue DroppedValue
            "this statement does nothing: its value is not used"
        DroppedOperator DroppedValue
            "what this operator gives is not used"
        AssignedCondition AssignedCondition
            "this assigns, and what it assigned is the condition: == compares"
        AssignedSelection AssignedCondition
            "this assigns, and what it assigned selects the case: a second pair of parentheses says so"
        AssignedToItself AssignedToItself
            "this assigns a value to itself"
        CopiedBack AssignedToItself
            "this copies back what was copied before: both are the same already"
        SetAsTested AssignedToItself
            "the condition says that this has the value already"
        EmptyStatement EmptyBranch
            "nothing is done where this condition holds: a ; stands right after it"
        EmptyBlock EmptyBranch
            "nothing is done where this condition holds"
        DetachedBlock EmptyBranch
            "a ; stands between this and the block after it"
        EmptyLoop EmptyBranch
            "this loop only counts: a ; stands right after its head"
        StoreOutOfRange(number: i64, range: Range) StoreOutOfRange
            "{number} is outside of the variable's {range}, so another number is kept"
        WrappedNumber(number: u32, kept: i64) WrappedNumber
            "{number} is {kept} here: methods compute with 32 bits"
        MissingCommand(command: i64) MissingCommand
            "no command has the number {command}"
        UndeclaredCommand(command: i64) UndeclaredCommand
            "no command has the number {command}"
        MissingTransaction(command: i64, transaction: i64) MissingTransaction
            "the command {command} has no transaction {transaction}"
        UnwritableVariable(variable: String) UnwritableVariable
            "{variable} can't be entered: its HANDLING is READ"
        Unreachable(end: String) UnreachableStatement
            "what stands behind this {end} is never reached"
        NothingEnds EndlessLoop
            "nothing ends this loop: it has no break, no return and no request"
        NothingChanges EndlessLoop
            "nothing in this loop changes what its condition reads"
        SingleTurn UnreachableStatement
            "this loop ends in its first turn, so its third part is never reached"
        NeverRuns DeadLoop
            "this loop never runs"
        NeverBegins(start: i64) DeadLoop
            "this loop never runs: it begins at {start}"
        CountsAway BackwardLoop
            "this loop counts away from its limit"
        FallsThrough FallThrough
            "the case before this one goes on here: a break is missing, or a comment"
        NinthAbortMethod AbortMethodLimit
            "this lists nothing: eight are listed"
        NestedAbortMethod(method: String) NestedAbortMethod
            "{method} is an abort method, in which this lists nothing"
        UnreadLocal(local: String) UnreadLocal
            "the local {local} is never read"
        NeverSetLocal(local: String) UnsetLocal
            "nothing ever sets the local {local}: it is 0"
        EarlyLocal(local: String) UnsetLocal
            "the local {local} is read before anything sets it"
        HidingLocal(item: String) HidingLocal
            "this local hides the item {item}"
        ReversedAssignment(sign: String) ReversedAssignment
            "this is = with a {sign} after it: {sign}= is meant, or a blank between"
        SteppedAssignment SteppedAssignment
            "this sets a place to what it counts: one of both is enough"
        StoredAnswer(variable: String) StoredAnswer
            "this replaces what was entered for {variable} by the code of the answer"
        StoredCode StoredAnswer
            "this stores the code of the answer, and not what was entered"
        ComparedAnswer StoredAnswer
            "this compares the code of the answer, and not what was entered"
        DroppedChoice DroppedChoice
            "what is chosen here makes no difference"
        MissingChoice(number: i64) MissingChoice
            "there is no choice {number}: choices are counted from 0"
        NegativeDelay(seconds: i64) NegativeDelay
            "a DELAY of {seconds} seconds has no time"
        LongDelay(seconds: i64) LongDelay
            "this waits for {seconds} seconds: milliseconds are meant"
        UnlistedCode(code: i64, command: i64) UnlistedResponseCode
            "{code} is no response code of the command {command}"
        ComparedArgument ComparedArgument
            "this takes 0 or 1, which the comparison gives: the parenthesis closes too late"
        StoreBelowLimit(number: i64, least: i64) StoreOutsideLimits
            "{number} is below the variable's MIN_VALUE {least}"
        StoreOverLimit(number: i64, greatest: i64) StoreOutsideLimits
            "{number} is over the variable's MAX_VALUE {greatest}"
        DeadStore DeadStore
            "what is stored here is replaced before anything reads it"
        ReplacedEntry DeadStore
            "what is entered here is replaced before anything reads it"
        EmptyThen EmptyThen
            "nothing is done where this condition holds: negate it, and leave out the else"
        EmptyElse EmptyElse
            "nothing is done in this else: a ; stands right after it"
        EmptySwitch EmptySwitch
            "this switch has no cases"
        LooksInner(word: String) MisleadingIndentation
            "this looks like part of the {word} before it, and is executed in any case"
        DanglingElse DanglingElse
            "this else belongs to the inner if, and not to the one that it stands below"
        UnmovedCounter UnmovedCounter
            "nothing in this loop changes what its condition reads, so only the host ends it"
        CountsByZero UnmovedCounter
            "this loop counts by 0"
        StaysAt(number: i64) UnmovedCounter
            "this loop stays at {number}"
        UnrefreshedWait(variable: String) UnrefreshedWait
            "nothing in this loop reads {variable} from the device: a command does"
        CountedTwice CountedTwice
            "the head of this loop counts this as well"
        SharedCounter CountedTwice
            "the loop around this one counts the same"
        SkippedLimit(limit: i64) SkippedLimit
            "this loop counts past {limit} and never comes to it"
        OwnAbortMethod OwnAbortMethod
            "this method is its own abort method"
        RepeatedAbortMethod RepeatedAbortMethod
            "this abort method is added already"
        IdleAbortMethod EmptyMethod
            "this abort method does nothing but abort"
        LateAbortMethod LateAbortMethod
            "nothing comes behind this that could abort"
        LoopedAbortMethod LoopedAbortMethod
            "this adds the abort method again in each turn"
        ExchangedNumbers(command: i64, transaction: i64) MissingCommand
            "no command has the number {transaction}: the transaction {transaction} of the command {command} is meant"
        EveryChoice MissingChoice
            "this holds for each of the choices"
        LostEntry(variable: String) LostValue
            "the reply replaces what was entered for {variable}, and nothing has sent it"
        LostStore(variable: String) LostValue
            "the reply replaces what was stored in {variable}, and nothing has sent it"
        EarlySave EarlySave
            "this saves before the values are changed"
        LateCopy(local: String, variable: String) LateCopy
            "{local} keeps what {variable} was just set to, and not what it was before"
        OpensSame EndlessLoop
            "this begins the same turn again: nothing has changed before it"
        MissedEnd(counter: String, number: i64) MissedEnd
            "where its condition ends this loop {counter} is {number}"
        StoredElement StoredElement
            "this keeps an element where the number of an element is meant"
        StoredNumber StoredElement
            "this keeps the number of an element where the element is meant"
        OtherQuestion(asked: String, set: String) OtherQuestion
            "this asks for {asked} and sets {set}"
        FailsOnSuccess ExchangedBranches
            "this is done where the command has succeeded: 0 is the code of what went well"
        LoopsOnSuccess ExchangedBranches
            "this loop goes on as long as the command succeeds: 0 is the code of what went well"
        RestartedSum RestartedSum
            "this is 0 again in each turn before something is added"
        RepeatedTurns RepeatedTurns
            "each turn of this loop does the same: nothing in it depends on its counter"
        NamedDelay(named: i64, seconds: i64) ContradictingRange
            "this says {named} seconds, and the delay is {seconds}"
        ExchangedChoice(choice: String) ExchangedText
            "the choice is {choice}, which is another enumerator"
        ReplacedInTurns DeadStore
            "each turn of this loop replaces what the one before has stored, and nothing reads it"
        UnevenAverage(turns: i64, divisor: i64) UnevenAverage
            "the loop before adds up {turns} values, and this divides by {divisor}"
        RestoredElsewhere(local: String, variable: String) LateCopy
            "{local} keeps {variable}, which was set since, and is stored in another variable"
        StoreAtMost(greatest: i64) StoreOutsideLimits
            "this is never below the variable's MAX_VALUE {greatest}"
        StoreAtLeast(least: i64) StoreOutsideLimits
            "this is never over the variable's MIN_VALUE {least}"
        OppositeState(says: String, state: String) OppositeState
            "the method says {says}, and this sets {state}"
        ComparedCopy ComparedCopy
            "both sides are the same: one was copied from the other, and nothing has changed since"
        SucceedsOnFailure ExchangedBranches
            "this is said where the command has failed: 0 is the code of what went well"
        HidingLocals(local: String) HidingLocal
            "this local hides the local {local} around it"
    }
}
