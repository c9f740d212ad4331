//! The texts of items.
use std::prelude::v1::*;

use edd_instructions::Record;
use edd_loader::{Image, Text};
use edd_machine::Values;
use edd_panel::{Found, of_variable, read};
use edd_syntax::answer::Trap;
use edd_syntax::numbers::{Attr, AttrRef, ItemNo, StrNo, VarNo};
use std::alloc::{AllocError, Global};

/// Words on a screen.
#[derive(Clone, Copy)]
pub enum Words<'b> {
    Text(Text<'b>),
    /// The name of an item that has no label.
    Name(&'b str),
    /// The trap that is in their place.
    Fault(Trap),
}

/// An image, and the code of the language of its texts.
#[derive(Clone, Copy)]
pub struct Page<'i, 'b> {
    pub image: &'i Image<'b>,
    pub language: &'i str,
}

impl<'i, 'b> Page<'i, 'b> {
    /// The text of a string.
    pub fn text(&self, string: StrNo) -> Option<Text<'b>> {
        self.image.text(string, self.language)
    }

    /// What an attribute of a variable gives.
    pub(crate) fn read(
        &self,
        alloc: Global,
        values: &Values,
        variable: VarNo,
        attr: Attr,
    ) -> Result<Found, AllocError> {
        read(alloc, self.image, of_variable(variable, attr), values)
    }

    /// The text that an attribute gives.
    pub fn words(
        &self,
        alloc: Global,
        values: &Values,
        item: ItemNo,
        attr: Attr,
    ) -> Result<Option<Words<'b>>, AllocError> {
        match read(alloc, self.image, AttrRef { item, attr, sub: 0 }, values)? {
            Found::Records(records) => Ok(self.first_words(&records)),
            Found::Trap(trap) => Ok(Some(Words::Fault(trap))),
            Found::Nothing => Ok(None),
        }
    }

    fn first_words(&self, records: &[Record]) -> Option<Words<'b>> {
        match records {
            [Record::Words(string), ..] => self.words_of(Some(*string)),
            _ => None,
        }
    }

    // The words of a string, where there is one.
    fn words_of(&self, string: Option<StrNo>) -> Option<Words<'b>> {
        Some(Words::Text(self.text(string?)?))
    }

    /// What an item is called: as its collection has it, else by its LABEL, else by its name.
    pub fn label(
        &self,
        alloc: Global,
        values: &Values,
        item: ItemNo,
        own: Option<StrNo>,
    ) -> Result<Words<'b>, AllocError> {
        if let Some(words) = self.words_of(own) {
            return Ok(words);
        }
        match self.words(alloc, values, item, Attr::Label)? {
            Some(words) => Ok(words),
            None => Ok(Words::Name(self.image.name(item).unwrap_or(""))),
        }
    }

    /// The help of an item, as its collection has it, or else its HELP.
    pub fn help(
        &self,
        alloc: Global,
        values: &Values,
        item: ItemNo,
        own: Option<StrNo>,
    ) -> Result<Option<Words<'b>>, AllocError> {
        match self.words_of(own) {
            Some(words) => Ok(Some(words)),
            None => self.words(alloc, values, item, Attr::Help),
        }
    }
}
