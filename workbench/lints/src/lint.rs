//! The lints.

use crate::levels::Level;
use crate::table::Row;

/// Defines the lints, and the list of all of them.
macro_rules! lints {
    ($( $lint:ident )*) => {
        /// What a warning may be about. [`Lint::summary`] says it of each.
        #[derive(Clone, Copy, Debug, PartialEq, Eq, PartialOrd, Ord, Hash)]
        #[expect(missing_docs, reason = "the table describes each lint")]
        pub enum Lint {
            $( $lint, )*
        }

        /// How many lints there are.
        const COUNT: usize = [ $( stringify!($lint), )* ].len();

        /// The lints in their order.
        pub const LINTS: [Lint; COUNT] = [ $( Lint::$lint, )* ];
    };
}

lints! {
    ValueOutOfRange
    LimitsCrossed
    DefaultOutsideLimits
    RepeatedEnumerator
    EnumeratorBits
    UnlistedValue
    MeaninglessFormat
    MissingEnumerators
    RepeatedEnumeratorText
    SingleValueLimits
    CircularLimits
    CircularValidity
    RepeatedClass
    ConflictingClasses
    UnreadableDynamic
    WideFormat
    UnreadDynamic
    UnsentVariable
    ConditionalDefault
    UnreachableEnumerator
    ContradictingUnit
    ContradictingRange
    ContradictingName
    LockedOut
    UnitOfBits
    RepeatedCommandNumber
    RepeatedResponseCode
    RepeatedTransactionNumber
    RepeatedDataItem
    OverlappingMasks
    WideMask
    SilentRead
    SilentWrite
    WrittenReadOnly
    WideCommandNumber
    AmbiguousTransaction
    FailingZero
    EmptyResponseCodes
    NarrowMask
    RepeatedResponseText
    UnevenEcho
    OppositeClass
    UnsharedCondition
    TrappingExpression
    ConstantCondition
    RepeatedCase
    MisreadOperators
    SettledComparison
    EqualOperands
    EqualBranches
    RepeatedCondition
    MissingElement
    MissingElse
    MissingCase
    EmptyCondition
    SettledCondition
    TruthOfNumber
    AlwaysZero
    ZeroQuotient
    OverflowingConstant
    DoubleSign
    UnnamedBits
    UntestedIndex
    MixedUnits
    ExchangedText
    UnenterableCase
    UntestedDivisor
    CyclicMenu
    EmptyMenu
    RepeatedEntry
    MissingLabel
    UnknownClass
    RepeatedLabel
    QuotedItem
    HiddenMenu
    InvalidEntry
    MisplacedQualifier
    RepeatedQualifier
    HiddenQualifier
    RepeatedMember
    EmptyList
    EmptyMethod
    UnreadableValue
    LeftOverName
    StrayBar
    MissingLanguage
    RepeatedLanguage
    EmptyLanguage
    UnknownLanguage
    UnevenChoices
    UnreadPlaceholder
    JoinedTexts
    BidirectionalText
    BidirectionalComment
    EmptyText
    UntranslatedText
    BracedItem
    EscapedEscape
    CommaChoices
    EmptyChoice
    RepeatedChoice
    UnknownLint
    UnevenNumbers
    ExchangedLanguages
    OppositeTranslation
    EscapedPath
    SwallowedCode
    UnusedItem
    DroppedComparison
    DroppedValue
    AssignedCondition
    AssignedToItself
    EmptyBranch
    StoreOutOfRange
    WrappedNumber
    MissingCommand
    MissingTransaction
    UnwritableVariable
    ReversedAssignment
    SteppedAssignment
    StoredAnswer
    DroppedChoice
    MissingChoice
    NegativeDelay
    LongDelay
    UnlistedResponseCode
    ComparedArgument
    StoreOutsideLimits
    DeadStore
    EmptyThen
    EmptyElse
    EmptySwitch
    MisleadingIndentation
    DanglingElse
    LostValue
    EarlySave
    LateCopy
    StoredElement
    OtherQuestion
    ExchangedBranches
    ComparedCopy
    OppositeState
    UnreachableStatement
    EndlessLoop
    DeadLoop
    BackwardLoop
    FallThrough
    AbortMethodLimit
    NestedAbortMethod
    UnreadLocal
    UnsetLocal
    HidingLocal
    UnmovedCounter
    UnrefreshedWait
    CountedTwice
    SkippedLimit
    LoopLeavesArray
    OwnAbortMethod
    RepeatedAbortMethod
    LateAbortMethod
    LoopedAbortMethod
    MissedEnd
    RestartedSum
    RepeatedTurns
    UnevenAverage
    LiteralCondition
    UndeclaredCommand
    UnreachedMethod
    UnreachedMenu
    TrapAfterAbortMethod
    SingleEnumerator
    CircularHandling
    UnorderedResponseCodes
    IneffectiveVariable
}

impl Lint {
    fn row(self) -> &'static Row {
        Row::of(self)
    }

    /// The name of the lint, in lower-case words with hyphens between.
    ///
    /// ```
    /// use edd_lints::Lint;
    ///
    /// assert_eq!(Lint::UnusedItem.name(), "unused-item");
    /// assert_eq!(Lint::from_name("unused-item"), Some(Lint::UnusedItem));
    /// ```
    pub fn name(self) -> &'static str {
        self.row().name
    }

    /// The lint of a name, if there is one.
    pub fn from_name(name: &str) -> Option<Lint> {
        Row::named(name).map(|row| row.lint)
    }

    /// The level of the lint where none is set.
    pub fn level(self) -> Level {
        self.row().level
    }

    /// What it finds, in a few words that follow its name.
    pub fn summary(self) -> &'static str {
        self.row().summary
    }

    /// What it finds and where it draws the line, as docs/WARNINGS.md has it.
    pub fn details(self) -> &'static str {
        self.row().details
    }

    /// Items in which it finds something.
    pub fn example(self) -> &'static str {
        self.row().example
    }

    /// Items near the example in which it finds nothing.
    pub fn counterexample(self) -> &'static str {
        self.row().counterexample
    }

    /// What else is without a warning; nothing where the counterexample says enough.
    pub fn notes(self) -> &'static str {
        self.row().notes
    }
}
