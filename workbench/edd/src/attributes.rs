//! What is read of an attribute.

use crate::memory::{Global, made};
use crate::screens::Words;
use crate::{Image, ReadFault, Values};
use edd_instructions::Record;
use edd_panel::first_number;
use edd_syntax::numbers::{Attr, AttrRef, ItemNo};
use edd_syntax::types::Handling;
use legacy_screens::Page;

impl Image {
    /// The records of an attribute under these values. docs/IMAGE.md says which records an
    /// attribute has.
    ///
    /// # Errors
    ///
    /// The values are those of another image, there is no such attribute, or its expression traps.
    ///
    /// ```
    /// use edd::{Attr, AttrRef, Record};
    ///
    /// let image = edd::compile(include_bytes!("../../../examples/first.edd"))?;
    /// let item = image.find("p").ok_or("no p")?;
    /// let validity = AttrRef { item, attr: Attr::Validity, sub: 0 };
    /// assert_eq!(image.attribute(validity, &image.values())?, [Record::Number(1)]);
    /// # Ok::<(), Box<dyn std::error::Error>>(())
    /// ```
    pub fn attribute(&self, attribute: AttrRef, values: &Values) -> Result<Vec<Record>, ReadFault> {
        if !values.are_of(self) {
            return Err(ReadFault::WrongValues);
        }
        let image = self.reopen();
        match edd_machine::attribute_of_device(Global, &image, attribute, values.core()) {
            Ok(records) => Ok(records.into_real()),
            Err(fault) => Err(ReadFault::from_core(fault)),
        }
    }

    /// What an item is called in a language: its LABEL, or else its name.
    ///
    /// # Errors
    ///
    /// The values are those of another image, or there is no such item.
    ///
    /// ```
    /// let image = edd::compile(include_bytes!("../../../examples/first.edd"))?;
    /// let item = image.find("p").ok_or("no p")?;
    /// assert_eq!(image.label(item, "en", &image.values())?.to_string(), "Pressure");
    /// # Ok::<(), Box<dyn std::error::Error>>(())
    /// ```
    pub fn label(
        &self,
        item: ItemNo,
        language: &str,
        values: &Values,
    ) -> Result<Words<'_>, ReadFault> {
        self.find_item(item, values)?;
        let image = self.reopen();
        let page = Page {
            image: &image,
            language,
        };
        let label = made(page.label(Global, values.core(), item, None));
        Ok(Words::from_core(label))
    }

    /// The HELP of an item in a language, if it has one.
    ///
    /// # Errors
    ///
    /// The values are those of another image, or there is no such item.
    pub fn help(
        &self,
        item: ItemNo,
        language: &str,
        values: &Values,
    ) -> Result<Option<Words<'_>>, ReadFault> {
        self.find_item(item, values)?;
        let image = self.reopen();
        let page = Page {
            image: &image,
            language,
        };
        let help = made(page.help(Global, values.core(), item, None));
        Ok(help.map(Words::from_core))
    }

    /// Whether an item is valid: its VALIDITY is TRUE, or it has none.
    ///
    /// # Errors
    ///
    /// As of [`Image::attribute`]: items other than variables, menus and methods have no VALIDITY.
    pub fn validity(&self, item: ItemNo, values: &Values) -> Result<bool, ReadFault> {
        let records = self.attribute_of_item(item, Attr::Validity, values)?;
        Ok(first_number(&records) != Some(0))
    }

    /// How a variable may be used. It is none where the image, which `compile` did not write, has
    /// another number.
    ///
    /// # Errors
    ///
    /// As of [`Image::attribute`]: items other than variables have no HANDLING.
    pub fn handling(&self, item: ItemNo, values: &Values) -> Result<Option<Handling>, ReadFault> {
        let records = self.attribute_of_item(item, Attr::Handling, values)?;
        Ok(match first_number(&records) {
            Some(1) => Some(Handling::Read),
            Some(2) => Some(Handling::Write),
            Some(3) => Some(Handling::ReadWrite),
            _ => None,
        })
    }

    fn attribute_of_item(
        &self,
        item: ItemNo,
        attr: Attr,
        values: &Values,
    ) -> Result<Vec<Record>, ReadFault> {
        self.attribute(AttrRef { item, attr, sub: 0 }, values)
    }

    fn find_item(&self, item: ItemNo, values: &Values) -> Result<(), ReadFault> {
        if !values.are_of(self) {
            return Err(ReadFault::WrongValues);
        }
        self.item(item).map(|_| ()).ok_or(ReadFault::NoItem)
    }
}
