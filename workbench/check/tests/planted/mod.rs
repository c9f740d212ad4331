//! Sources with one mistake each, as a maker makes them, and what is said of them.

mod letters;
mod mistakes;

use core_std::alloc::Global;
use edd_check::{Levels, check};
use edd_lexer::token::{Token, TokenKind};
use edd_report::{Diagnostic, Report};
use edd_source::tokens::word_of;
use edd_source::{Confidence, Edit, Fix, Span};
use mistakes::MISTAKES;

/// The sources into which mistakes are planted.
const SOURCES: [(&str, &str); 7] = [
    (
        "flow_transmitter",
        include_str!("../../../../examples/flow_transmitter.edd"),
    ),
    (
        "pressure_transmitter",
        include_str!("../../../../examples/pressure_transmitter.edd"),
    ),
    (
        "pressure_variables",
        include_str!("../../../../examples/pressure_variables.edd"),
    ),
    ("tank", include_str!("../../../../examples/tank.edd")),
    (
        "temperature_scanner",
        include_str!("../../../../examples/temperature_scanner.edd"),
    ),
    (
        "temperature_transmitter",
        include_str!("../../../../examples/temperature_transmitter.edd"),
    ),
    (
        "valve_positioner",
        include_str!("../../../../examples/valve_positioner.edd"),
    ),
];

/// A source that compiles.
pub(crate) struct Original {
    /// Its name.
    pub(crate) name: &'static str,
    /// Its text.
    pub(crate) text: &'static str,
    tokens: Vec<Token>,
    image: Vec<u8>,
}

/// A source with one mistake.
pub(crate) struct Planted<'o> {
    /// What it was before.
    pub(crate) original: &'o Original,
    /// What kind of mistake it is.
    pub(crate) mistake: &'static str,
    /// The mistake, as a change of the original.
    pub(crate) change: Fix,
    /// The text with it.
    pub(crate) text: Vec<u8>,
    /// The images of what may be meant: that of the original, and where the name of an item is misspelled
    /// that of the same description with this name.
    meant: Vec<Vec<u8>>,
}

/// What becomes of a text with a fix.
#[derive(Debug, PartialEq, Eq)]
pub(crate) enum Outcome {
    /// It has the image of the original.
    Mended,
    /// It is still refused.
    Refused,
    /// It compiles, and means something else.
    Harmful,
}

/// Numbers that follow from the one before, as of splitmix64.
struct Dice(u64);

impl Dice {
    /// A number below this one, which is not 0.
    fn below(&mut self, most: usize) -> usize {
        self.0 = self.0.wrapping_add(0x9E37_79B9_7F4A_7C15);
        let mixed = (self.0 ^ (self.0 >> 30)).wrapping_mul(0xBF58_476D_1CE4_E5B9);
        let mixed = (mixed ^ (mixed >> 27)).wrapping_mul(0x94D0_49BB_1331_11EB);
        let number = usize::try_from((mixed ^ (mixed >> 31)) >> 32).unwrap_or_default();
        number.checked_rem(most).unwrap_or_default()
    }
}

/// The sources.
pub(crate) fn originals() -> Vec<Original> {
    let compiled = |(name, text): (&'static str, &'static str)| {
        let bytes = text.as_bytes();
        let tokens = edd_lexer::lex(Global, bytes).expect("an example has tokens");
        let image = image_of(bytes).expect("an example compiles");
        Original {
            name,
            text,
            tokens: tokens.into_real(),
            image,
        }
    };
    SOURCES.map(compiled).into()
}

fn image_of(text: &[u8]) -> Option<Vec<u8>> {
    let image = edd_compiler::compile(Global, text).ok()?;
    Some(image.into_real())
}

/// So many sources with a mistake: one kind after the other, each at a place that a number chooses, none
/// twice.
pub(crate) fn plant(originals: &[Original], count: usize, seed: u64) -> Vec<Planted<'_>> {
    let mut dice = Dice(seed);
    let mut all: Vec<Planted<'_>> = Vec::new();
    let kinds = MISTAKES.iter().cycle().take(count.saturating_mul(4));
    for (mistake, kind) in kinds {
        if all.len() == count {
            break;
        }
        let original = &originals[dice.below(originals.len())];
        let first = dice.below(original.tokens.len());
        let numbers = (first..original.tokens.len()).chain(0..first);
        let made = numbers.filter_map(|number| {
            let edits = kind.edits(original, number)?;
            planted(original, mistake, edits)
        });
        let mut fresh = made.filter(|it| all.iter().all(|other| other.text != it.text));
        all.extend(fresh.next());
    }
    all
}

/// A source with these changes, if they are a mistake.
fn planted<'o>(
    original: &'o Original,
    mistake: &'static str,
    edits: Vec<Edit>,
) -> Option<Planted<'o>> {
    let change = Fix {
        edits,
        confidence: Confidence::Guess,
    };
    let text = change.apply(original.text.as_bytes())?;
    let is_mistake = image_of(&text).as_ref() != Some(&original.image);
    let renamed = image_of(&original.renamed(&change));
    let meant = [Some(original.image.clone()), renamed];
    is_mistake.then_some(Planted {
        original,
        mistake,
        change,
        text,
        meant: meant.into_iter().flatten().collect(),
    })
}

impl Original {
    /// How often a name stands in the text, but for brackets, where it is that of a text.
    fn uses(&self, name: &str) -> usize {
        let pairs = self.tokens.windows(2);
        let words = pairs.map(|pair| (self.word(&pair[0]), self.word(&pair[1])));
        words
            .filter(|(sign, word)| *word == name && *sign != "[")
            .count()
    }

    fn word(&self, token: &Token) -> &str {
        word_of(self.text.as_bytes(), token)
    }

    /// The text with the change of a name made wherever the name stands.
    fn renamed(&self, change: &Fix) -> Vec<u8> {
        let [edit] = change.edits.as_slice() else {
            return Vec::new();
        };
        let old = &self.text[edit.span.range()];
        let names = self.tokens.iter().filter(|token| {
            token.kind == TokenKind::Name && self.word(token) == old && !edit.text.is_empty()
        });
        let edits = names.map(|token| Edit {
            span: Span::of(token),
            text: edit.text.clone(),
        });
        let all = Fix {
            edits: edits.collect(),
            confidence: Confidence::Guess,
        };
        all.apply(self.text.as_bytes()).unwrap_or_default()
    }
}

impl Planted<'_> {
    /// What is said of it.
    pub(crate) fn report(&self) -> Report {
        check(&self.text, &Levels::default())
    }

    /// What becomes of it with a fix.
    pub(crate) fn outcome(&self, fix: &Fix) -> Outcome {
        let mended = fix.apply(&self.text).expect("a fix fits its text");
        match image_of(&mended) {
            None => Outcome::Refused,
            Some(image) if self.meant.contains(&image) => Outcome::Mended,
            Some(_) => Outcome::Harmful,
        }
    }

    /// The fixes that a maker follows: of each diagnostic the first one, and all that are sure.
    pub(crate) fn followed<'r>(
        &self,
        shown: &'r [Diagnostic],
    ) -> impl Iterator<Item = &'r Fix> + use<'r> {
        shown.iter().flat_map(|found| {
            let followed = found
                .fixes()
                .enumerate()
                .filter(|(number, fix)| *number == 0 || fix.confidence == Confidence::Sure);
            followed.map(|(_, fix)| fix)
        })
    }

    /// What becomes of it with all changes that are sure, as an editor makes them unasked; none where it has
    /// none.
    pub(crate) fn outcome_of_sure(&self, report: &Report) -> Option<Outcome> {
        let sure = report.shown.iter().filter_map(|found| {
            let mut fixes = found.fixes();
            fixes.find(|fix| fix.confidence == Confidence::Sure)
        });
        let mut edits: Vec<Edit> = sure.flat_map(|fix| fix.edits.clone()).collect();
        edits.sort_by_key(|edit| edit.span);
        edits.dedup();
        let all = Fix {
            edits,
            confidence: Confidence::Sure,
        };
        (!all.edits.is_empty()).then(|| self.outcome(&all))
    }

    /// The mistake in a line.
    pub(crate) fn title(&self) -> String {
        let changes = self.change.edits.iter().map(|edit| {
            let line = self.original.text[..edit.span.start].matches('\n').count();
            let was = &self.original.text[edit.span.range()];
            format!(
                "line {}: {was:?} -> {:?}",
                line.saturating_add(1),
                edit.text
            )
        });
        let changes: Vec<String> = changes.collect();
        format!(
            "{} [{}] {}",
            self.original.name,
            self.mistake,
            changes.join(", ")
        )
    }
}
