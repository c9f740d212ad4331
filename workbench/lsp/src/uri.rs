//! The names that editors give documents, and the paths that they stand for.

use std::fmt::Write;

/// How the names of files begin.
const FILE: &str = "file://";

/// The path that a name stands for: of a file its own, of anything else the name without its escapes.
pub(crate) fn path_of(uri: &str) -> String {
    decoded(rooted(uri).unwrap_or(uri))
}

/// Whether a name is that of a file.
pub(crate) fn is_file(uri: &str) -> bool {
    rooted(uri).is_some()
}

/// The path in a name of a file, with its escapes: what comes behind the host.
fn rooted(uri: &str) -> Option<&str> {
    let rest = uri.strip_prefix(FILE)?;
    rest.get(rest.find('/')?..)
}

/// The part of a name or a path up to its last `/`.
pub(crate) fn folder_of(name: &str) -> &str {
    let end = name.rfind('/').map_or(0, |slash| slash.saturating_add(1));
    name.get(..end).unwrap_or_default()
}

/// A text with each `%` and its two digits as the byte that they stand for.
fn decoded(text: &str) -> String {
    let mut bytes = Vec::with_capacity(text.len());
    let mut rest = text.as_bytes();
    while let Some((first, behind)) = rest.split_first() {
        let escaped = behind.split_at_checked(2).filter(|_| *first == b'%');
        let byte = escaped.and_then(|(digits, behind)| {
            let digits = std::str::from_utf8(digits).ok()?;
            let is_hex = digits.bytes().all(|digit| digit.is_ascii_hexdigit());
            let byte = u8::from_str_radix(digits, 16).ok().filter(|_| is_hex)?;
            Some((byte, behind))
        });
        let (byte, behind) = byte.unwrap_or((*first, behind));
        bytes.push(byte);
        rest = behind;
    }
    String::from_utf8_lossy(&bytes).into_owned()
}

/// A path as a part of a name.
pub(crate) fn encoded(path: &str) -> String {
    let mut name = String::with_capacity(path.len());
    for byte in path.bytes() {
        match char::from(byte) {
            plain @ ('a'..='z' | 'A'..='Z' | '0'..='9' | '-' | '.' | '_' | '~' | '/') => {
                name.push(plain);
            }
            // Nothing is refused by a `String`.
            _ => drop(write!(name, "%{byte:02X}")),
        }
    }
    name
}

#[cfg(test)]
mod tests {
    use super::*;

    #[test]
    fn names_of_files_stand_for_paths() {
        for (uri, path) in [
            ("file:///a%20b/c.edd", "/a b/c.edd"),
            ("file:///%C3%A4.edd", "/\u{e4}.edd"),
            ("file://host/a.edd", "/a.edd"),
            ("file:///100%.edd", "/100%.edd"),
            ("file:///a%+1%zz%2", "/a%+1%zz%2"),
            ("f:d", "f:d"),
        ] {
            assert_eq!(path_of(uri), path);
        }
        assert!(is_file("file:///a.edd"));
        assert!(!is_file("file://"));
        assert!(!is_file("untitled:a.edd"));
    }

    #[test]
    fn a_path_is_encoded() {
        assert_eq!(
            encoded("tests/a b\u{e4}%.test"),
            "tests/a%20b%C3%A4%25.test"
        );
        assert_eq!(folder_of("file:///a/b.edd"), "file:///a/");
        assert_eq!(folder_of("f:d"), "");
    }
}
