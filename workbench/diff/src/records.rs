//! Records as text, in the form of a source and in all languages.

use crate::expression::Expression;
use crate::reading::Emitted;
use edd_display::class_word;
use edd_dump::core_format::{mask_and_qualifiers, menu_qualifiers, quoted};
use edd_dump::{Sections, string_text, variants};
use edd_instructions::Instruction;
use edd_syntax::numbers::{Attr, ItemNo, StrNo};

/// Formats the records of an attribute.
pub(crate) struct Records<'s, 'i> {
    pub(crate) sections: &'s Sections<'i>,
    pub(crate) attribute: Attr,
}

/// A number, or the word that it stands for in this attribute.
pub(crate) fn number_text(attribute: Attr, number: i64) -> String {
    let word = match (attribute, number) {
        (Attr::Handling | Attr::Operation, 1) => "READ",
        (Attr::Handling | Attr::Operation, 2) => "WRITE",
        (Attr::Handling, 3) => "READ & WRITE",
        (Attr::Operation, 3) => "COMMAND",
        (Attr::Validity, 0) => "FALSE",
        (Attr::Validity, 1) => "TRUE",
        _ => return number.to_string(),
    };
    word.to_owned()
}

impl Records<'_, '_> {
    /// What identifies an entry of a list, as the value of an enumerator or the name of a member. A
    /// record without such a part identifies itself.
    pub(crate) fn key(&self, emitted: &Emitted) -> String {
        match emitted.instruction {
            Instruction::Enumerator { value, .. } => value.to_string(),
            Instruction::Response { number, .. } | Instruction::Element { number, .. } => {
                number.to_string()
            }
            Instruction::Member { name, .. } => self.member_name(name),
            Instruction::Item { item, .. } => self.name(item).to_owned(),
            _ => self.plain(emitted),
        }
    }

    /// A record. An entry with a key stands in braces.
    pub(crate) fn text(&self, emitted: &Emitted) -> String {
        let rest = match emitted.instruction {
            Instruction::Enumerator { text, help, .. } => self.texts([Some(text), help]),
            Instruction::Response { class, text, .. } => {
                let text = self.texts([Some(text), None]);
                format!(" {}{text}", class_word(class))
            }
            Instruction::Element {
                var, label, help, ..
            } => {
                let variable = self.name(ItemNo::Variable(var));
                format!(" {variable}{}", self.texts([label, help]))
            }
            Instruction::Member {
                item, label, help, ..
            } => format!(" {}{}", self.name(item), self.texts([label, help])),
            _ => return self.plain(emitted),
        };
        format!("{{{}{rest}}}", self.key(emitted))
    }

    /// A record without braces.
    fn plain(&self, emitted: &Emitted) -> String {
        match emitted.instruction {
            Instruction::Text(text) => self.string(text),
            Instruction::Number => self.number(emitted.value.as_ref()),
            Instruction::Item { item, quals } => {
                format!("{}{}", self.name(item), menu_qualifiers(quals))
            }
            Instruction::DataConst(number) => number.to_string(),
            Instruction::DataVar { var, mask, quals } => {
                let name = self.name(ItemNo::Variable(var));
                format!("{name}{}", mask_and_qualifiers(mask, quals))
            }
            Instruction::End => "nothing".to_owned(),
            _ => String::new(),
        }
    }

    fn number(&self, value: Option<&Expression>) -> String {
        match value.map(|value| (value.constant, &value.text)) {
            Some((Some(constant), _)) => number_text(self.attribute, constant),
            Some((None, text)) => text.clone(),
            None => String::new(),
        }
    }

    fn name(&self, item: ItemNo) -> &str {
        self.sections.name(item).unwrap_or_default()
    }

    fn bytes(&self, string: StrNo) -> &[u8] {
        self.sections.string(string).unwrap_or_default()
    }

    /// A string. A text in English alone stands without its language.
    fn string(&self, string: StrNo) -> String {
        let bytes = self.bytes(string);
        let mut texts = variants(bytes);
        match (texts.next(), texts.next()) {
            (Some(text), None) if text.code == "en" => quoted(text.text),
            _ => string_text(bytes),
        }
    }

    /// The texts that are there, each after a blank.
    fn texts(&self, texts: [Option<StrNo>; 2]) -> String {
        let texts = texts.into_iter().flatten();
        texts
            .map(|text| format!(" {}", self.string(text)))
            .collect()
    }

    /// The name of a member, without quotes.
    fn member_name(&self, string: StrNo) -> String {
        let name = variants(self.bytes(string)).next();
        name.map_or(String::new(), |name| name.text.to_owned())
    }
}
