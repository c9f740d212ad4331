//! Items whose names differ in the number at their end, as `input_1` and `input_2`: where one is copied from
//! another one, a name or a number of that may be left over.

use crate::context::Context;
use crate::instrument::Variable;
use crate::kind::{MenuKind, VariableKind};
use crate::names::numbered;
use crate::source::{TokenIndex, index};
use crate::texts::variants::Variants;
use crate::traits::quoted;
use crate::units::Unit;
use crate::warning::Findings;
use edd_lexer::token::TokenKind;
use edd_syntax::cond::Cond;
use edd_syntax::item::{Attribute, Item};
use edd_syntax::numbers::TextAttribute;
use edd_syntax::reference::Target;
use std::collections::{BTreeMap, BTreeSet, HashMap};

/// Of how many families an item may name members, so that all of them are looked at.
const MOST_STEMS: usize = 64;

/// The numbers of a family that an item names, with where it does first.
type Numbers = BTreeMap<u32, TokenIndex>;

/// What an item with a number names.
struct Member<'d> {
    number: u32,
    /// By their stems.
    named: BTreeMap<&'d str, Numbers>,
}

/// The items with numbers that are looked at: those of families of which a member names another one's items.
struct Families<'d> {
    members: BTreeMap<&'d str, Vec<Member<'d>>>,
}

fn label_of(item: &Item<Target>) -> Option<(TokenIndex, &str)> {
    item.attributes.iter().find_map(|one| match one {
        Attribute::OneText(at, TextAttribute::Label, Cond::Value(text)) => {
            let first = Variants::of(quoted(text)?.as_bytes()).next()?;
            Some((index(*at), str::from_utf8(first.words).ok()?))
        }
        _ => None,
    })
}

// The one number that a text has.
fn number_in(text: &str) -> Option<u32> {
    let mut runs = text.split(|sign: char| !sign.is_ascii_digit());
    let mut runs = runs.by_ref().filter(|run| !run.is_empty());
    let first = runs.next()?;
    runs.next().is_none().then(|| first.parse().ok()).flatten()
}

// Whether a name ends with these digits, and has none before them.
fn ends_with_number(name: &[u8], digits: &[u8]) -> bool {
    let stem = name.strip_suffix(digits);
    stem.is_some_and(|stem| !stem.last().is_some_and(u8::is_ascii_digit))
}

// The names with numbers between that of an item and the next item, with their places. Those with the number of
// these digits are passed.
fn named_by<'d>(
    place: usize,
    passed: &'d str,
    context: &Context<'d>,
) -> impl Iterator<Item = (TokenIndex, &'d str, u32)> {
    let items = context.instrument.items;
    let start = items.get(place).map(|item| index(item.at));
    let next = items.get(place.saturating_add(1));
    let end = next.map_or(context.source.tokens.len(), |item| index(item.at));
    let source = context.source;
    let places = start.unwrap_or(end).saturating_add(1)..end;
    places.filter_map(move |at| {
        if source.kind(at) != Some(TokenKind::Name) {
            return None;
        }
        let name = source.bytes(at);
        let has_digits = name.last().is_some_and(u8::is_ascii_digit);
        if !has_digits || (!passed.is_empty() && ends_with_number(name, passed.as_bytes())) {
            return None;
        }
        let (stem, number) = numbered(source.word(at))?;
        Some((at, stem, number))
    })
}

// Whether an item names one with another number than its own, and there is one with its own.
fn names_other(place: usize, (stem, own): (&str, u32), context: &Context<'_>) -> bool {
    let instrument = &context.instrument;
    let name = instrument.items.get(place).map_or("", Item::name);
    let digits = name.get(stem.len()..).unwrap_or_default();
    named_by(place, digits, context).any(|(at, other, number)| {
        number != own
            && other != stem
            && instrument.has_name(context.source.word(at))
            && instrument.has_name(&format!("{other}{own}"))
    })
}

impl<'d> Families<'d> {
    fn of(context: &Context<'d>) -> Families<'d> {
        let items = context.instrument.items;
        let numbers = || {
            let names = items.iter().map(|item| numbered(item.name()));
            names
                .enumerate()
                .filter_map(|(place, name)| Some((place, name?)))
        };
        let suspects = numbers().filter(|(place, name)| names_other(*place, *name, context));
        let suspects: BTreeSet<&str> = suspects.map(|(_, (stem, _))| stem).collect();
        let mut families = Families {
            members: BTreeMap::new(),
        };
        if suspects.is_empty() {
            return families;
        }
        for (place, (stem, number)) in numbers() {
            if suspects.contains(stem) {
                families.add(place, stem, number, context);
            }
        }
        families
    }

    // Notes what an item names.
    fn add(&mut self, place: usize, stem: &'d str, number: u32, context: &Context<'d>) {
        let mut member = Member {
            number,
            named: BTreeMap::new(),
        };
        for (at, other, number) in named_by(place, "", context) {
            if other != stem && context.instrument.has_name(context.source.word(at)) {
                let numbers = member.named.entry(other).or_default();
                numbers.entry(number).or_insert(at);
            }
        }
        self.members.entry(stem).or_default().push(member);
    }

    fn check(&self, context: &Context<'d>, findings: &mut Findings<'_>) {
        for members in self.members.values() {
            // Which of each family the members name that have the same number.
            let mut agreeing: HashMap<&str, usize> = HashMap::new();
            let agreed = members.iter().flat_map(|member| {
                let has_own = |numbers: &Numbers| numbers.contains_key(&member.number);
                let named = member.named.iter();
                named.filter_map(move |(stem, numbers)| has_own(numbers).then_some(*stem))
            });
            for stem in agreed {
                let count = agreeing.entry(stem).or_default();
                *count = count.saturating_add(1);
            }
            for member in members.iter().filter(|one| one.named.len() <= MOST_STEMS) {
                self.check_names(member, &agreeing, context, findings);
            }
        }
    }

    // The one name of another family with the number of another member.
    fn check_names(
        &self,
        member: &Member<'d>,
        agreeing: &HashMap<&str, usize>,
        context: &Context<'d>,
        findings: &mut Findings<'_>,
    ) {
        let own = member.number;
        let has_own = |numbers: &Numbers| numbers.contains_key(&own);
        let names_own = member.named.values().any(has_own);
        for (stem, numbers) in &member.named {
            let Some((other, at)) = numbers.first_key_value().filter(|_| numbers.len() == 1) else {
                continue;
            };
            let others = agreeing.get(stem).copied().unwrap_or(0);
            // Where one other member alone names its own, both may share it.
            let is_copied = 2 <= others || (others == 1 && names_own);
            if *other == own || !is_copied {
                continue;
            }
            let expected = format!("{stem}{own}");
            if context.instrument.has_name(&expected) {
                let word = context.source.word(*at).to_owned();
                findings.add(*at, MenuKind::LeftOverName(word, expected));
            }
        }
    }
}

// Labels with the number of another item of their family, whose label is the same.
fn check_labels(context: &Context<'_>, findings: &mut Findings<'_>) {
    for item in context.instrument.items {
        let Some((stem, own)) = numbered(item.name()) else {
            continue;
        };
        let Some((at, label)) = label_of(item) else {
            continue;
        };
        let Some(number) = number_in(label).filter(|number| *number != own) else {
            continue;
        };
        let other = context.instrument.item_named(&format!("{stem}{number}"));
        if other
            .and_then(label_of)
            .is_some_and(|(_, other)| other == label)
        {
            findings.add(at, MenuKind::LeftOverNumber(number, own));
        }
    }
}

/// A variable with a number, with the stem of its name and its unit.
type Measured<'v, 'd> = (&'d str, Unit, &'v Variable<'d>);

// The one unit of a family that is another one than all others have.
fn check_units(family: &[Measured<'_, '_>], findings: &mut Findings<'_>) {
    let [(_, one, _), (_, second, _), (_, third, _), ..] = family else {
        return;
    };
    // Of the first three two at least have the usual one.
    let usual = if one == second || one == third {
        one
    } else {
        second
    };
    let mut others = family.iter().filter(|(_, unit, _)| unit != usual);
    if let (Some((_, other, variable)), None) = (others.next(), others.next())
        && usual.is_comparable(*other)
    {
        let kind = VariableKind::OtherUnit(other.name(), usual.name());
        findings.add(at_of(variable), kind);
    }
}

/// Checks the families of a description.
pub(crate) fn check_families(context: &Context<'_>, findings: &mut Findings<'_>) {
    Families::of(context).check(context, findings);
    check_labels(context, findings);
    let variables = context.instrument.variables().iter();
    let units = variables.filter_map(|variable| {
        let unit = variable.unit()?;
        let (stem, _) = numbered(variable.name())?;
        Some((stem, unit, variable))
    });
    let mut units: Vec<_> = units.collect();
    units.sort_by_key(|(stem, ..)| *stem);
    for family in units.chunk_by(|one, other| one.0 == other.0) {
        check_units(family, findings);
    }
}

fn at_of(variable: &Variable<'_>) -> TokenIndex {
    let unit = variable.item.attributes.iter().find_map(|one| match one {
        Attribute::OneText(at, TextAttribute::ConstantUnit, _) => Some(index(*at)),
        _ => None,
    });
    unit.unwrap_or_else(|| index(variable.item.at))
}
