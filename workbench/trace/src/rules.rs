//! What a technician could not enter for a variable.

use crate::event::Unenterable;
use core_std::alloc::Global;
use core_std::vec::Vec as CoreVec;
use edd_instructions::Record;
use edd_loader::Image;
use edd_machine::{ReadFault, Values, attribute_of_device};
use edd_panel::{bits_of, first_number, is_enumerator, of_variable};
use edd_run::RunError;
use edd_syntax::numbers::{Attr, VarNo};
use edd_syntax::types::VarType;

/// A device's variable.
#[derive(Clone, Copy)]
pub(crate) struct Entry<'a, 'b> {
    pub(crate) image: &'a Image<'b>,
    pub(crate) values: &'a Values,
    pub(crate) variable: VarNo,
}

impl Entry<'_, '_> {
    /// Returns why a technician could not enter this number, if so.
    pub(crate) fn refuse(self, number: i64) -> Result<Option<Unenterable>, RunError> {
        if let Some(least) = first_number(&self.records(Attr::MinValue)?)
            && number < least
        {
            return Ok(Some(Unenterable::UnderMin(least)));
        }
        if let Some(greatest) = first_number(&self.records(Attr::MaxValue)?)
            && greatest < number
        {
            return Ok(Some(Unenterable::OverMax(greatest)));
        }
        let enumerators = self.records(Attr::Enumerators)?;
        let is_named = enumerators.is_empty() || self.is_named(&enumerators, number);
        Ok((!is_named).then_some(Unenterable::NoEnumerator))
    }

    /// The records of an attribute; none where it has no value.
    fn records(self, attr: Attr) -> Result<CoreVec<Record>, RunError> {
        let attr = of_variable(self.variable, attr);
        match attribute_of_device(Global, self.image, attr, self.values) {
            Ok(records) => Ok(records),
            Err(ReadFault::Memory) => Err(RunError::Memory),
            Err(_) => Ok(CoreVec::new(Global)),
        }
    }

    /// Whether enumerators name a number: one of them, or of bits several.
    fn is_named(self, enumerators: &[Record], number: i64) -> bool {
        if enumerators
            .iter()
            .any(|record| is_enumerator(record, number))
        {
            return true;
        }
        let bits = enumerators.iter().fold(0, |bits, record| match record {
            Record::Enumerator { value, .. } => bits | bits_of(*value),
            _ => bits,
        });
        let kind = self.image.variable(self.variable);
        kind.is_some_and(|kind| kind.var_type == VarType::BitEnumerated)
            && bits_of(number) & !bits == 0
    }
}
