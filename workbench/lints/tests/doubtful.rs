//! Plays the lists of doubtful sources: which lint warns of each, or why none does.

use core_std::alloc::Global;
use edd_compiler::checked_of;
use edd_lexer::lex;
use edd_lints::{Level, Levels, Lint, find};
use std::collections::BTreeSet;

const LISTS: [&str; 7] = [
    include_str!("doubtful.txt"),
    include_str!("doubtful_more.txt"),
    include_str!("doubtful_third.txt"),
    include_str!("doubtful_fourth.txt"),
    include_str!("doubtful_fifth.txt"),
    include_str!("doubtful_sixth.txt"),
    include_str!("careful.txt"),
];

/// What a source is to be told.
#[derive(Debug, PartialEq, Eq)]
enum Wanted {
    /// These lints warn of it, and no others.
    Warned(BTreeSet<Lint>),
    /// This lint would, and is off unless denied.
    Asked(Lint),
    /// None does, for a reason.
    Silent,
}

struct Doubtful {
    name: &'static str,
    wanted: Option<Wanted>,
    items: String,
}

/// What an answer of the list says, where it says something.
fn wanted(answer: &str) -> Option<Wanted> {
    if let Some(reason) = answer.strip_prefix("none: ") {
        return (!reason.is_empty()).then_some(Wanted::Silent);
    }
    match answer
        .strip_prefix('[')
        .and_then(|rest| rest.strip_suffix(']'))
    {
        Some(name) => Lint::from_name(name).map(Wanted::Asked),
        None => {
            let lints: Option<_> = answer.split(' ').map(Lint::from_name).collect();
            lints.map(Wanted::Warned)
        }
    }
}

/// The description that all have in common, and the sources.
fn read() -> (String, Vec<Doubtful>) {
    let mut base = String::new();
    let mut all: Vec<Doubtful> = Vec::new();
    for line in LISTS.into_iter().flat_map(str::lines) {
        if let Some(code) = line.strip_prefix("    ") {
            let items = all.last_mut().map_or(&mut base, |last| &mut last.items);
            items.push_str(code);
            items.push('\n');
        } else if let Some((name, answer)) = line.split_once(" => ") {
            let wanted = wanted(answer);
            let items = String::new();
            all.push(Doubtful {
                name,
                wanted,
                items,
            });
        }
    }
    (base, all)
}

/// The lints that find something in a text; none where it is refused. What nothing refers to is left
/// out: the sources are parts of descriptions.
fn lints_of(text: &str, levels: &Levels) -> Option<BTreeSet<Lint>> {
    let tokens = lex(Global, text.as_bytes()).ok()?;
    let description = checked_of(Global, text.as_bytes()).ok()?;
    let warnings = find(text.as_bytes(), &tokens, &description, levels);
    let lints = warnings.iter().map(|warning| warning.kind.lint());
    Some(lints.filter(|lint| *lint != Lint::UnusedItem).collect())
}

#[test]
fn the_description_that_all_have_in_common_is_clean() {
    let (base, all) = read();
    assert_eq!(lints_of(&base, &Levels::default()), Some(BTreeSet::new()));
    assert_eq!(all.len(), 713);
}

#[test]
fn each_doubtful_source_has_the_answer_of_the_list() {
    let (base, all) = read();
    for Doubtful {
        name,
        wanted,
        items,
    } in all
    {
        let text = format!("{base}{items}");
        let came = lints_of(&text, &Levels::default());
        match wanted.expect("the list says what is wanted") {
            Wanted::Warned(lints) => assert_eq!(came, Some(lints), "{name}"),
            Wanted::Silent => assert_eq!(came, Some(BTreeSet::new()), "{name}"),
            Wanted::Asked(lint) => {
                assert_eq!(came, Some(BTreeSet::new()), "{name}");
                let mut levels = Levels::default();
                levels.set(lint, Level::Warn);
                assert_eq!(
                    lints_of(&text, &levels),
                    Some(BTreeSet::from([lint])),
                    "{name}"
                );
            }
        }
    }
}
