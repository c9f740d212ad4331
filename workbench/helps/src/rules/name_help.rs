//! What is said of a name that means nothing where it is, or something of another kind.

use super::Foreign;
use super::sentences::named_kind;
use crate::sentences::worded;
use edd_source::tokens::kind_word;
use edd_syntax::numbers::Kind;
use edd_syntax::operators::Builtin;

worded! {
    /// What is said of a name.
    pub enum NameHelp {
        [
            /// A name that other languages have, or EDDL elsewhere.
            Foreign(Foreign)
        ]
        /// The nearest name.
        Meant {
            /// It.
            near: String,
        } => "{near} may be meant";
        /// A name that nothing uses, which is near to one that several places use.
        NothingUses {
            /// It.
            near: String,
        } => "nothing uses {near}, which is declared";
        /// A name that is used and that nothing has.
        NothingHas {
            /// It.
            name: String,
        } => "{name} may be meant: nothing has this name, which is used";
        /// Two names that are as near.
        EitherMeant {
            /// One of them.
            near: String,
            /// The other one.
            other: String,
        } => "{near} or {other} may be meant";
        /// The enumerator of a variable.
        EnumeratorIsThere {
            /// The variable.
            variable: String,
        } => "the enumerator of {variable} is";
        /// Names that have a word of this one.
        Alike {
            /// They.
            names: Vec<String>,
        } => "nothing has this name; {alike}", alike = alike(names);
        /// The text of an enumerator in place of its number.
        TextOfEnumerator {
            /// The name.
            name: String,
            /// The number of the enumerator, as it is written.
            number: String,
            /// The variable.
            variable: String,
        } => "{name} is the text of the enumerator {number} of {variable}: write {number}";
        /// A name in capitals, as macros have.
        Macro {
            /// The name.
            name: String,
        } => "if {name} is a macro, run a preprocessor that has its #define, or write its number";
        /// A qualifier of what a menu shows.
        Qualifier {
            /// What is shown.
            item: String,
            /// The qualifier.
            qualifier: &'static str,
        } => "a qualifier stands in parentheses, as in {item} ({qualifier})";
        /// A collection has no such member.
        NoMember {
            /// The name.
            name: String,
        } => "the collection has no member {name}";
        /// No function has the name.
        NoFunction {
            /// The name.
            name: String,
        } => "no function has the name {name}";
        /// Nothing has the name: how a local is declared.
        DeclareLocal {
            /// The name.
            name: String,
        } => "nothing has this name: a local is declared before it is used, by int {name};";
        /// Nothing has the name: how an item is declared.
        DeclareItem {
            /// The kind of the item.
            kind: Kind,
            /// The name.
            name: String,
        } => "nothing has this name: an item is declared by {item}", item = declaration(*kind, name);
        /// A method is named as an argument.
        MethodWithoutParentheses {
            /// The method.
            name: String,
        } => "a METHOD is named here without parentheses; {name} is declared";
        /// A method is called.
        MethodIsNotCalled {
            /// The method.
            name: String,
        } => "{name} is a METHOD, which no method calls; it is declared";
        /// An array is read by an element.
        ElementOfArray {
            /// The array.
            name: String,
        } => "an element of an ARRAY is read as {name}[..]; {name} is declared";
        /// A collection is read by a member.
        MemberOfCollection {
            /// The collection.
            name: String,
        } => "a member of a COLLECTION is read as {name}.member; {name} is declared";
        /// A command is sent by its number.
        CommandByNumber {
            /// The command.
            name: String,
        } => "a command is sent by its NUMBER, as in send_command(1); {name} is declared";
        /// An item is called as a function.
        NotAFunction {
            /// The item.
            name: String,
            /// Its kind.
            kind: Kind,
        } => "{name} is {kind} and no function; it is declared", kind = named_kind(*kind);
        /// A name means something elsewhere.
        MeansNothingHere {
            /// The name.
            name: String,
        } => "{name} means nothing here, but is declared";
        /// What an item is.
        IsOfKind {
            /// The item.
            name: String,
            /// Its kind.
            kind: Kind,
        } => "{name} is {kind}, which is declared", kind = named_kind(*kind);
        /// A name is that of a local.
        IsLocal {
            /// The local.
            name: String,
        } => "{name} is a local, which is declared";
        /// A local has the name of a variable of the device.
        HidesVariable {
            /// The name.
            name: String,
        } => "{name} is a local here, which hides the VARIABLE {name}; it is declared";
        /// A function without its parentheses.
        CallFunction {
            /// The function.
            function: Builtin,
        } => "{call}", call = call_of(*function);
        /// A member that has no members.
        HasNoMembers {
            /// The member.
            name: String,
        } => "{name} has no members: only those of a COLLECTION OF COLLECTION have";
        /// A member of another kind.
        OtherKindOfMember {
            /// The member.
            name: String,
        } => "the member {name} is of another kind than fits here";
    }
}

// That these names are like another one.
fn alike(names: &[String]) -> String {
    match names {
        [others @ .., last] if !others.is_empty() => {
            format!("{} and {last} are names like it", others.join(", "))
        }
        names => format!("{} is one like it", names.concat()),
    }
}

// How a function is called.
fn call_of(function: Builtin) -> String {
    let name = function.name();
    if function.parameters().is_empty() {
        format!("a function is called with parentheses: {name}();")
    } else {
        format!("{name} is a function: its arguments stand in ( )")
    }
}

// How an item of a kind is declared, in short.
fn declaration(kind: Kind, name: &str) -> String {
    let (of, attributes) = match kind {
        Kind::Variable => ("", "{ TYPE ..; }"),
        Kind::Command => ("", "{ NUMBER ..; OPERATION ..; TRANSACTION { .. } }"),
        Kind::Menu => ("", "{ ITEMS { .. } }"),
        Kind::Collection => (" OF VARIABLE", "{ MEMBERS { .. } }"),
        Kind::Method => ("", "{ DEFINITION { .. } }"),
        Kind::Array => (" OF VARIABLE", "{ ELEMENTS { .. } }"),
    };
    let word = kind_word(kind);
    format!("{word}{of} {name} {attributes}")
}
