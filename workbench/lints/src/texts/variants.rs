//! The languages of a text.

/// What a text has for a language.
#[derive(Clone, Copy)]
pub(crate) struct Variant<'r> {
    pub(crate) code: &'r [u8],
    pub(crate) words: &'r [u8],
}

/// The languages of a text, in their order.
pub(crate) struct Variants<'r> {
    /// The language that comes next, and all that is behind its code.
    next: Option<Variant<'r>>,
    /// Whether a bar was passed that opens no language.
    pub(crate) has_stray_bar: bool,
}

// The code that a bar opens before these bytes, and what is behind the bar that closes it.
fn opened(behind: &[u8]) -> Option<Variant<'_>> {
    let length = match behind {
        [b'a'..=b'z', b'a'..=b'z', b'|', ..] => 2,
        [b'0'..=b'9', b'0'..=b'9', b'0'..=b'9', b'|', ..] => 3,
        [
            b'a'..=b'z',
            b'a'..=b'z',
            b' ',
            b'a'..=b'z',
            b'a'..=b'z',
            b'|',
            ..,
        ] => 5,
        _ => return None,
    };
    let (code, rest) = behind.split_at_checked(length)?;
    Some(Variant {
        code,
        words: rest.get(1..)?,
    })
}

impl<'r> Variants<'r> {
    /// All languages of a text. What is before the first code is English.
    pub(crate) fn of(raw: &'r [u8]) -> Variants<'r> {
        let first = raw.strip_prefix(b"|").and_then(opened);
        let english = Variant {
            code: b"en",
            words: raw,
        };
        Variants {
            next: first.or(Some(english)),
            has_stray_bar: false,
        }
    }
}

impl<'r> Iterator for Variants<'r> {
    type Item = Variant<'r>;

    // A backslash and the byte after it are passed together.
    fn next(&mut self) -> Option<Variant<'r>> {
        let Variant { code, words } = self.next.take()?;
        let mut rest = words;
        while let [byte, behind @ ..] = rest {
            rest = match (*byte, behind) {
                (b'\\', [_, tail @ ..]) => tail,
                _ => behind,
            };
            if *byte != b'|' {
                continue;
            }
            self.next = opened(behind);
            if self.next.is_some() {
                let bar = words.len().saturating_sub(behind.len()).saturating_sub(1);
                let words = words.get(..bar).unwrap_or_default();
                return Some(Variant { code, words });
            }
            // Before a blank it parts words.
            self.has_stray_bar |= behind.first() != Some(&b' ');
        }
        Some(Variant { code, words })
    }
}

/// What a text says in its first language, without blanks around.
pub(crate) fn first_words(text: &str) -> &str {
    let first = Variants::of(text.as_bytes()).next();
    let words = first.map_or("", |one| str::from_utf8(one.words).unwrap_or_default());
    words.trim()
}
