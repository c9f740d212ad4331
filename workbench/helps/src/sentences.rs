//! Sentences that have no data: each is a case of an enum.

/// Declares an enum whose cases print one sentence each.
macro_rules! sentences {
    (
        $(#[$outer:meta])*
        pub enum $name:ident {
            $($(#[$inner:meta])* $case:ident => $sentence:literal,)*
        }
    ) => {
        $(#[$outer])*
        #[derive(Clone, Copy, Debug, PartialEq, Eq, Hash)]
        pub enum $name {
            $($(#[$inner])* #[doc = concat!("`", $sentence, "`")] $case,)*
        }

        impl $name {
            /// Every case, in order.
            pub const ALL: &'static [$name] = &[$($name::$case),*];

            /// The sentence.
            pub fn sentence(self) -> &'static str {
                match self {
                    $($name::$case => $sentence,)*
                }
            }
        }

        impl ::std::fmt::Display for $name {
            fn fmt(&self, f: &mut ::std::fmt::Formatter<'_>) -> ::std::fmt::Result {
                f.write_str(self.sentence())
            }
        }
    };
}

pub(crate) use sentences;

/// Defines what may be said with words of the source: each variant has the sentence that it prints, with the
/// names of its fields in braces. What is behind the sentence says otherwise what stands for a name. A variant in
/// brackets prints what it holds.
macro_rules! worded {
    (
        $(#[$about:meta])*
        pub enum $name:ident {
            $( [ $(#[$within:meta])* $inner:ident($of:ty) ] )*
            $(
                $(#[$doc:meta])*
                $variant:ident $( { $( $(#[$note:meta])* $field:ident: $type:ty ),* $(,)? } )?
                    => $sentence:literal $(, $word:ident = $value:expr)*;
            )*
        }
    ) => {
        $(#[$about])*
        #[derive(Clone, Debug, PartialEq, Eq)]
        pub enum $name {
            $( $(#[$within])* $inner($of), )*
            $( $(#[$doc])* $variant $( { $( $(#[$note])* $field: $type ),* } )?, )*
        }

        impl std::fmt::Display for $name {
            fn fmt(&self, f: &mut std::fmt::Formatter<'_>) -> std::fmt::Result {
                match self {
                    $( $name::$inner(inner) => inner.fmt(f), )*
                    $( $name::$variant $( { $( $field ),* } )? => {
                        write!(f, $sentence $(, $word = $value)*)
                    } )*
                }
            }
        }
    };
}

pub(crate) use worded;
