//! Compares one attribute of an item that both descriptions have.

use crate::content::{Content, Entry, EntryKind, Shape};
use crate::description::{Description, Pair, named};
use crate::difference::{Change, Difference, Item, Note, Value, What};
use crate::methods::{changes, is_same_code};
use edd_dump::{AttributeRow, variants};
use edd_instructions::{Ask, Instruction, RequestArgument};
use edd_syntax::numbers::{Attr, AttrRef, ItemNo, StrNo};

/// The comparison of one attribute, and the differences found so far.
pub(crate) struct Comparison<'c, 'i> {
    pub(crate) pair: &'c Pair<'c, 'i>,
    pub(crate) item: Item<'i>,
    pub(crate) attribute: Attr,
    pub(crate) what: What<'i>,
    pub(crate) found: &'c mut Vec<Difference<'i>>,
}

impl<'i> Comparison<'_, 'i> {
    /// Compares an attribute that both descriptions have.
    pub(crate) fn compare_rows(&mut self, old: &AttributeRow, new: &AttributeRow) {
        let old_code = self.pair.old.sections.unit(old).unwrap_or_default();
        let new_code = self.pair.new.sections.unit(new).unwrap_or_default();
        if self.attribute == Attr::Definition {
            return match changes(self.pair, old_code, new_code) {
                Some(changes) if old.sub == new.sub => self.add_changes(&changes),
                _ => self.add_note(Note::Code),
            };
        }
        let old = Content::read(&self.pair.old.sections, self.attribute, old_code);
        let new = Content::read(&self.pair.new.sections, self.attribute, new_code);
        match (old, new) {
            (Some(old), Some(new)) => self.compare(&old, &new),
            _ if is_same_code(self.pair, old_code, new_code) => {}
            _ => self.add_note(Note::MayDiffer),
        }
    }

    /// Compares an attribute that only one description has with its default in the other.
    pub(crate) fn add_row(
        &mut self,
        description: &Description<'_, 'i>,
        row: &AttributeRow,
        other_item: ItemNo,
        is_new: bool,
    ) {
        if self.attribute == Attr::Definition {
            return self.add_note(Note::Code);
        }
        let code = description.sections.unit(row).unwrap_or_default();
        let Some(content) = Content::read(&description.sections, self.attribute, code) else {
            return self.add_note(Note::MayDiffer);
        };
        let (pair, attribute) = (self.pair, self.attribute);
        let other = if is_new { &pair.old } else { &pair.new };
        let default = other.default_of(AttrRef {
            item: other_item,
            attr: attribute,
            sub: row.sub,
        });
        match default.map(|number| Content::of_number(attribute, number)) {
            Some(default) if is_new => self.compare(&default, &content),
            Some(default) => self.compare(&content, &default),
            None => self.add_all(&content, is_new),
        }
    }

    /// Compares two contents.
    fn compare(&mut self, old: &Content, new: &Content) {
        match Shape::of(self.attribute) {
            Shape::Value => self.compare_values(old, new),
            Shape::List => self.compare_lists(old, new),
            Shape::Message => self.compare_messages(old, new),
        }
    }

    /// Adds all entries of an attribute that has no default.
    fn add_all(&mut self, content: &Content, is_new: bool) {
        let is_limit = matches!(self.attribute, Attr::MinValue | Attr::MaxValue);
        let note = if is_new { Note::Narrower } else { Note::Wider };
        for entry in &content.entries {
            self.add_one(entry, is_new, is_limit.then_some(note));
        }
    }

    /// Adds a difference without values.
    pub(crate) fn add_note(&mut self, note: Note) {
        self.add("", Change::Unshown, Some(note));
    }

    /// Adds the numbers and texts that differ in the body of a method.
    fn add_changes(&mut self, changes: &[(Instruction, Instruction)]) {
        for change in changes {
            match *change {
                (Instruction::Push(old), Instruction::Push(new)) => {
                    let (old, new) = (Value::Number(old), Value::Number(new));
                    self.add("", Change::Replaced { old, new }, None);
                }
                (Instruction::Ask(old), Instruction::Ask(new)) => self.compare_requests(old, new),
                _ => self.add_note(Note::Code),
            }
        }
    }

    fn add(&mut self, condition: &str, change: Change<'i>, note: Option<Note>) {
        self.found.push(Difference {
            item: Some(self.item),
            what: self.what,
            change,
            condition: condition.to_owned(),
            note,
        });
    }

    /// Adds an entry that only one description has.
    pub(crate) fn add_one(&mut self, entry: &Entry, is_new: bool, note: Option<Note>) {
        let change = Change::of_one(Value::Source(entry.text.clone()), is_new);
        self.add(&entry.condition, change, note);
    }

    /// Adds a value that was replaced.
    pub(crate) fn add_replaced(
        &mut self,
        condition: &str,
        old: String,
        new: String,
        note: Option<Note>,
    ) {
        let (old, new) = (Value::Source(old), Value::Source(new));
        self.add(condition, Change::Replaced { old, new }, note);
    }

    /// Compares two entries that correspond to each other.
    pub(crate) fn compare_entries(&mut self, condition: &str, old: &Entry, new: &Entry) {
        if old.text == new.text {
            return;
        }
        if let (EntryKind::Text(first), EntryKind::Text(second)) = (old.kind, new.kind)
            && self.compare_strings(condition, first, second)
        {
            return;
        }
        let note = note_of_change(self.attribute, old.kind, new.kind);
        self.add_replaced(condition, old.text.clone(), new.text.clone(), note);
    }

    fn compare_values(&mut self, old: &Content, new: &Content) {
        let stands_for =
            |one: &Content, many: &Content| one.only().is_some() && !many.entries.is_empty();
        if stands_for(old, new) || stands_for(new, old) || old.has_conditions_of(new) {
            self.compare_each(old, new);
        } else {
            self.compare_whole(old, new, Some(Note::MayDiffer));
        }
    }

    /// Compares entry by entry. Where one of the two has no condition, that of the other holds.
    fn compare_each(&mut self, old: &Content, new: &Content) {
        for number in 0..old.entries.len().max(new.entries.len()) {
            if let (Some(first), Some(second)) = (old.entry(number), new.entry(number)) {
                let condition = if second.condition.is_empty() {
                    &first.condition
                } else {
                    &second.condition
                };
                self.compare_entries(condition, first, second);
            }
        }
    }

    /// Compares messages as a whole. Conditions of another form may mean the same.
    fn compare_messages(&mut self, old: &Content, new: &Content) {
        let have_none = !old.has_conditions && !new.has_conditions;
        let is_certain = have_none || old.has_conditions_of(new);
        self.compare_whole(old, new, (!is_certain).then_some(Note::MayDiffer));
    }

    fn compare_whole(&mut self, old: &Content, new: &Content, note: Option<Note>) {
        let (old, new) = (old.whole_text(), new.whole_text());
        if old != new {
            self.add_replaced("", old, new, note);
        }
    }

    /// Compares two strings language by language. Returns false, and adds nothing, if one of them is
    /// a key of a dictionary.
    fn compare_strings(&mut self, condition: &str, old: StrNo, new: StrNo) -> bool {
        let old = self.pair.old.sections.string(old).unwrap_or_default();
        let new = self.pair.new.sections.string(new).unwrap_or_default();
        let have_variants = old.starts_with(&[0]) && new.starts_with(&[0]);
        if have_variants {
            self.compare_variants(condition, old, new, false);
            self.compare_variants(condition, new, old, true);
        }
        have_variants
    }

    /// Adds each text that the other string lacks, and from the old string's side each one that it
    /// replaces. If the other has several of a language, the first counts.
    fn compare_variants(&mut self, condition: &str, of: &'i [u8], others: &'i [u8], is_new: bool) {
        for text in variants(of) {
            let other = variants(others).find(|other| other.code == text.code);
            let change = match other {
                None => Change::of_one(Value::Text(text.text), is_new),
                Some(other) if !is_new && other.text != text.text => Change::Replaced {
                    old: Value::Text(text.text),
                    new: Value::Text(other.text),
                },
                Some(_) => continue,
            };
            self.found.push(Difference {
                item: Some(self.item),
                what: What::Text(self.attribute, text.code),
                change,
                condition: condition.to_owned(),
                note: None,
            });
        }
    }

    fn compare_requests(&mut self, old: Ask, new: Ask) {
        for pair in named(old).zip(named(new)) {
            if let (RequestArgument::Text(old), RequestArgument::Text(new)) = pair
                && !self.compare_strings("", old, new)
            {
                self.add_note(Note::Code);
            }
        }
    }
}

/// What the replacement of one value by another means.
fn note_of_change(attribute: Attr, old: EntryKind, new: EntryKind) -> Option<Note> {
    match (old, new) {
        (EntryKind::Expression, _) | (_, EntryKind::Expression) => Some(Note::MayDiffer),
        (EntryKind::Number(old), EntryKind::Number(new)) => match attribute {
            Attr::MinValue if old < new => Some(Note::Narrower),
            Attr::MinValue => Some(Note::Wider),
            Attr::MaxValue if old < new => Some(Note::Wider),
            Attr::MaxValue => Some(Note::Narrower),
            _ => None,
        },
        _ => None,
    }
}
