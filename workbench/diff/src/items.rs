//! Compares the items of two descriptions, which are matched by kind and name.

use crate::attributes::Comparison;
use crate::description::{Description, Pair};
use crate::difference::{Change, Difference, Differences, Item, Value, What};
use edd_dump::AttributeRow;
use edd_loader::Image;
use edd_syntax::numbers::{Attr, KINDS, Kind, VarNo};
use edd_syntax::symbols::Keyword;
use std::collections::{BTreeMap, HashMap};

impl<'i> Differences<'i> {
    /// Compares an old and a new image.
    pub fn between(old: &Image<'i>, new: &Image<'i>) -> Differences<'i> {
        let pair = Description::open(old).zip(Description::open(new));
        let all = pair.map_or(Vec::new(), |(old, new)| {
            let pair = Pair { old, new };
            let mut comparing = Comparing {
                pair: &pair,
                found: Vec::new(),
            };
            comparing.compare_identification();
            for kind in KINDS {
                comparing.compare_kind(kind);
            }
            comparing.found
        });
        Differences::new(all)
    }
}

/// The items of one kind in a description.
struct Items<'i> {
    kind: Kind,
    /// Names and numbers, in the order of numbers. Of items with the same name the first counts.
    in_order: Vec<(&'i str, u16)>,
    numbers: HashMap<&'i str, u16>,
    /// The attribute rows of each item.
    rows: HashMap<u16, Vec<AttributeRow>>,
}

impl<'i> Items<'i> {
    fn read(description: &Description<'_, 'i>, kind: Kind) -> Items<'i> {
        let mut items = Items {
            kind,
            in_order: Vec::new(),
            numbers: HashMap::new(),
            rows: HashMap::new(),
        };
        for item in description.sections.items_of(kind) {
            let name = description.image.name(item).unwrap_or_default();
            if !items.numbers.contains_key(name) {
                items.numbers.insert(name, item.index());
                items.in_order.push((name, item.index()));
            }
        }
        for row in description
            .sections
            .rows()
            .filter(|row| row.kind == kind.number())
        {
            items.rows.entry(row.item).or_default().push(row);
        }
        items
    }

    fn number(&self, name: &str) -> Option<u16> {
        self.numbers.get(name).copied()
    }

    fn rows_of(&self, number: u16) -> &[AttributeRow] {
        self.rows.get(&number).map_or(&[], Vec::as_slice)
    }
}

/// Adjacent items that moved together: the first and the last of their numbers.
struct Run<'i> {
    item: Item<'i>,
    old: (u16, u16),
    new: (u16, u16),
}

impl<'i> Run<'i> {
    fn new(item: Item<'i>, old: u16, new: u16) -> Run<'i> {
        Run {
            item,
            old: (old, old),
            new: (new, new),
        }
    }

    /// Adds an item if it is the next one in both descriptions, and returns whether it is.
    fn extend(&mut self, name: &'i str, old: u16, new: u16) -> bool {
        let is_next = |before: u16, number| before.checked_add(1) == Some(number);
        let fits = is_next(self.old.1, old) && is_next(self.new.1, new);
        if fits {
            self.item.last_name = Some(name);
            (self.old.1, self.new.1) = (old, new);
        }
        fits
    }
}

/// Two descriptions and the differences so far.
struct Comparing<'c, 'i> {
    pair: &'c Pair<'c, 'i>,
    found: Vec<Difference<'i>>,
}

impl<'i> Comparing<'_, 'i> {
    fn add(&mut self, item: Option<Item<'i>>, what: What<'i>, change: Change<'i>) {
        self.found.push(Difference {
            item,
            what,
            change,
            condition: String::new(),
            note: None,
        });
    }

    fn compare_identification(&mut self) {
        let (old, new) = (self.pair.old.image.counts(), self.pair.new.image.counts());
        let numbers = [
            (Keyword::Manufacturer, old.manufacturer, new.manufacturer),
            (Keyword::DeviceType, old.device_type, new.device_type),
            (
                Keyword::DeviceRevision,
                old.device_revision,
                new.device_revision,
            ),
            (Keyword::DdRevision, old.dd_revision, new.dd_revision),
        ];
        for (word, old, new) in numbers {
            if old != new {
                let (old, new) = (Value::Number(old), Value::Number(new));
                let change = Change::Replaced { old, new };
                self.add(None, What::Identification(word), change);
            }
        }
    }

    fn compare_kind(&mut self, kind: Kind) {
        let old = Items::read(&self.pair.old, kind);
        let new = Items::read(&self.pair.new, kind);
        self.add_missing(&old, &new, false);
        self.add_missing(&new, &old, true);
        self.compare_numbers(&old, &new);
        for (name, after) in &new.in_order {
            if let Some(before) = old.number(name) {
                let item = Item::new(kind, name);
                self.compare_types(item, before, *after);
                self.compare_attributes(item, (&old, before), (&new, *after));
            }
        }
    }

    /// Adds the items that the other description lacks.
    fn add_missing(&mut self, items: &Items<'i>, others: &Items<'i>, is_new: bool) {
        for (name, number) in &items.in_order {
            if others.number(name).is_none() {
                let item = Item::new(items.kind, name);
                let number = Value::Numbers(*number, *number);
                self.add(Some(item), What::Existence, Change::of_one(number, is_new));
            }
        }
    }

    /// Adds the items that have another number. Adjacent ones are one difference.
    fn compare_numbers(&mut self, old: &Items<'i>, new: &Items<'i>) {
        let mut runs: Vec<Run<'i>> = Vec::new();
        for (name, before) in &old.in_order {
            let Some(after) = new.number(name).filter(|after| after != before) else {
                continue;
            };
            let last = runs.last_mut();
            if !last.is_some_and(|run| run.extend(name, *before, after)) {
                runs.push(Run::new(Item::new(old.kind, name), *before, after));
            }
        }
        for Run { item, old, new } in runs {
            let (old, new) = (Value::Numbers(old.0, old.1), Value::Numbers(new.0, new.1));
            self.add(Some(item), What::Number, Change::Replaced { old, new });
        }
    }

    fn compare_types(&mut self, item: Item<'i>, old: u16, new: u16) {
        if item.kind != Kind::Variable {
            return;
        }
        let old = self.pair.old.image.variable(VarNo(old));
        let new = self.pair.new.image.variable(VarNo(new));
        if let (Some(old), Some(new)) = (old, new)
            && old != new
        {
            let (old, new) = (Value::Type(old), Value::Type(new));
            self.add(Some(item), What::Type, Change::Replaced { old, new });
        }
    }

    /// Compares the attributes of an item, in the order of their numbers.
    fn compare_attributes(
        &mut self,
        item: Item<'i>,
        (old, before): (&Items<'_>, u16),
        (new, after): (&Items<'_>, u16),
    ) {
        let mut rows: BTreeMap<_, (Option<&AttributeRow>, Option<&AttributeRow>)> = BTreeMap::new();
        for row in old.rows_of(before) {
            rows.entry(rank(row)).or_default().0 = Some(row);
        }
        for row in new.rows_of(after) {
            rows.entry(rank(row)).or_default().1 = Some(row);
        }
        let (before, after) = (item.kind.item(before), item.kind.item(after));
        for ((attribute, position), rows) in rows {
            let Some(attribute) = Attr::from_number(attribute) else {
                continue;
            };
            let mut comparison = Comparison {
                pair: self.pair,
                item,
                attribute,
                what: What::attribute(attribute, position),
                found: &mut self.found,
            };
            match rows {
                (Some(old), Some(new)) => comparison.compare_rows(old, new),
                (Some(old), None) => comparison.add_row(&self.pair.old, old, after, false),
                (None, Some(new)) => comparison.add_row(&self.pair.new, new, before, true),
                (None, None) => {}
            }
        }
    }
}

/// What identifies a row of an item. The `sub` of a body is its number of slots, and no part of that.
fn rank(row: &AttributeRow) -> (u8, u16) {
    let is_body = row.attribute == Attr::Definition.number();
    (row.attribute, if is_body { 0 } else { row.sub })
}
