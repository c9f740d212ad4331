//! The names of files, and which files belong together by their names.

use core_std::alloc::Global;
use edd_cases::beside;

/// What a file is, as its name says.
#[derive(Clone, Copy, Debug, PartialEq, Eq)]
pub(crate) enum FileKind {
    /// A description, of an instrument or a device.
    Description,
    /// A file of tests.
    Tests,
    /// A script of a run.
    Script,
}

const DESCRIPTION: &str = ".edd";
const DEVICE: &str = ".device.edd";
const TESTS: &str = ".test";
const SCRIPT: &str = ".script";

impl FileKind {
    pub(crate) fn of(path: &str) -> FileKind {
        if path.ends_with(TESTS) {
            FileKind::Tests
        } else if path.ends_with(SCRIPT) {
            FileKind::Script
        } else {
            FileKind::Description
        }
    }
}

/// The path of the instrument whose device has this path.
pub(crate) fn instrument_of(device: &str) -> Option<String> {
    Some([device.strip_suffix(DEVICE)?, DESCRIPTION].concat())
}

/// The paths of the descriptions for which a script may be, the likeliest first: that of
/// `a.b.script` is `a.b.edd`, or else `a.edd`.
pub(crate) fn descriptions_of(script: &str) -> Vec<String> {
    let name = script.strip_suffix(SCRIPT).unwrap_or_default();
    let file = name.rfind('/').map_or(0, |slash| slash.saturating_add(1));
    let dots = name.rmatch_indices('.').map(|(dot, _)| dot);
    let ends = std::iter::once(name.len()).chain(dots.take_while(|dot| *dot > file));
    let stems = ends.filter_map(|end| name.get(..end));
    stems.map(|stem| [stem, DESCRIPTION].concat()).collect()
}

/// The path of a file that another one names.
pub(crate) fn path_beside(file: &str, name: &str) -> String {
    let joined = beside(Global, file, name);
    joined.map_or_else(|_| String::new(), |path| without_dots(path.as_str()))
}

/// A path without `.` and `..`, but for those at its beginning.
fn without_dots(path: &str) -> String {
    let root = if path.starts_with('/') { "/" } else { "" };
    let mut parts: Vec<&str> = Vec::new();
    for part in path.split('/') {
        match (part, parts.last()) {
            ("" | ".", _) => {}
            ("..", Some(last)) if *last != ".." => {
                parts.pop();
            }
            ("..", None) if !root.is_empty() => {}
            _ => parts.push(part),
        }
    }
    [root, &parts.join("/")].concat()
}

#[cfg(test)]
mod tests {
    use super::*;

    #[test]
    fn scripts_are_for_descriptions_of_their_names() {
        assert_eq!(
            descriptions_of("/x.y/a.b.script"),
            ["/x.y/a.b.edd", "/x.y/a.edd"]
        );
        assert_eq!(descriptions_of("a.script"), ["a.edd"]);
        assert_eq!(instrument_of("/a.device.edd").as_deref(), Some("/a.edd"));
        assert_eq!(instrument_of("/a.edd"), None);
    }

    #[test]
    fn files_are_beside_the_ones_that_name_them() {
        for (file, name, path) in [
            ("/a/tests/t.test", "../d.edd", "/a/d.edd"),
            ("/a/t.test", "./b//d.edd", "/a/b/d.edd"),
            ("/a/t.test", "/d.edd", "/d.edd"),
            ("/t.test", "../../d.edd", "/d.edd"),
            ("t.test", "../d.edd", "../d.edd"),
            ("a/b.test", "../../../d.edd", "../../d.edd"),
        ] {
            assert_eq!(path_beside(file, name), path);
        }
    }
}
