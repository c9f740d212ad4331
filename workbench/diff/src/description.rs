//! The two descriptions, and which of their parts are the same.

use core_std::alloc::Global;
use edd_dump::Sections;
use edd_instructions::{Ask, Instruction, Record, RequestArgument};
use edd_loader::Image;
use edd_machine::{Values, attribute};
use edd_syntax::numbers::{AttrRef, ItemNo, StrNo, VarNo};

/// One of the two descriptions.
pub(crate) struct Description<'d, 'i> {
    pub(crate) image: &'d Image<'i>,
    pub(crate) sections: Sections<'i>,
    /// Any device values: an attribute without code has the same default under all of them.
    values: Values,
}

/// The old and the new description.
pub(crate) struct Pair<'d, 'i> {
    pub(crate) old: Description<'d, 'i>,
    pub(crate) new: Description<'d, 'i>,
}

impl<'d, 'i> Description<'d, 'i> {
    /// Returns None for bytes that are no image. A loaded image never has such.
    pub(crate) fn open(image: &'d Image<'i>) -> Option<Description<'d, 'i>> {
        let zeros = vec![0; usize::from(image.counts().variables)];
        Some(Description {
            image,
            sections: Sections::read(image.bytes())?,
            values: Values::new(Global, image, &zeros).ok()?,
        })
    }

    /// The default of an attribute that has no row here, where that is a number.
    pub(crate) fn default_of(&self, asked: AttrRef) -> Option<i64> {
        let records = attribute(Global, self.image, asked, &self.values).ok()?;
        match records.as_slice() {
            [Record::Number(number)] => Some(*number),
            _ => None,
        }
    }
}

impl Pair<'_, '_> {
    fn is_same_item(&self, old: ItemNo, new: ItemNo) -> bool {
        old.kind() == new.kind() && self.old.image.name(old) == self.new.image.name(new)
    }

    fn is_same_variable(&self, old: VarNo, new: VarNo) -> bool {
        self.is_same_item(ItemNo::Variable(old), ItemNo::Variable(new))
    }

    fn is_same_string(&self, old: StrNo, new: StrNo) -> bool {
        self.old.sections.string(old) == self.new.sections.string(new)
    }

    /// Whether two requests name the same variables and, where these count, the same texts.
    fn is_same_request(&self, old: Ask, new: Ask, with_texts: bool) -> bool {
        let mut arguments = named(old).zip(named(new));
        old.kind == new.kind
            && arguments.all(|pair| match pair {
                (RequestArgument::Variable(old), RequestArgument::Variable(new)) => {
                    self.is_same_variable(old, new)
                }
                (RequestArgument::Text(old), RequestArgument::Text(new)) => {
                    !with_texts || self.is_same_string(old, new)
                }
                _ => true,
            })
    }

    /// Whether two instructions do the same. Numbers of items and strings may differ.
    pub(crate) fn is_same_instruction(&self, old: Instruction, new: Instruction) -> bool {
        match (old, new) {
            (Instruction::Variable(old), Instruction::Variable(new))
            | (Instruction::Store(old), Instruction::Store(new)) => self.is_same_variable(old, new),
            (Instruction::ReadElement(old), Instruction::ReadElement(new)) => {
                self.is_same_item(ItemNo::Array(old), ItemNo::Array(new))
            }
            (Instruction::AddAbortMethod(old), Instruction::AddAbortMethod(new)) => {
                self.is_same_item(ItemNo::Method(old), ItemNo::Method(new))
            }
            (Instruction::Ask(old), Instruction::Ask(new)) => self.is_same_request(old, new, true),
            (old, new) => old == new,
        }
    }

    /// Whether two instructions differ at most in a number or in texts.
    pub(crate) fn is_same_form(&self, old: Instruction, new: Instruction) -> bool {
        match (old, new) {
            (Instruction::Push(_), Instruction::Push(_)) => true,
            (Instruction::Ask(old), Instruction::Ask(new)) => self.is_same_request(old, new, false),
            (old, new) => self.is_same_instruction(old, new),
        }
    }
}

/// The arguments of a request. Its numbers come from the stack, and are 0 here.
pub(crate) fn named(ask: Ask) -> impl Iterator<Item = RequestArgument> {
    ask.request(0, 0).arguments().into_iter()
}
