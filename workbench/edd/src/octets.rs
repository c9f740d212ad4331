//! The octets of a command's messages.

use crate::memory::{Global, refused};
use crate::{Image, ReadFault, Values};
use edd_octets::{Message, number_of, picked, width_of};
use edd_syntax::numbers::{ItemNo, VarNo};
use std::fmt;

/// Why a message has no octets, or octets are not those of a message.
#[derive(Clone, Copy, Debug, PartialEq, Eq)]
pub enum OctetsFault {
    /// The transaction is not read.
    Read(ReadFault),
    /// There are fewer octets than the message has.
    TooShort,
    /// There are more octets than the message has.
    TooLong,
    /// The octet at this place, which counts from 0, differs from its constant.
    WrongConstant(usize),
    /// Bits came for this variable that its type does not have: its mask is wider than it.
    OutOfType(VarNo),
}

impl OctetsFault {
    /// The number of the fault, as docs/REFUSALS.md lists it.
    pub fn number(self) -> u16 {
        self.heading().0
    }

    /// The kind of the fault: the word that stands behind its number.
    pub fn name(self) -> &'static str {
        self.heading().1
    }

    /// What the fault is about: the place of an octet, or the name of a variable of the image.
    pub fn detail(self, image: &Image) -> Option<String> {
        match self {
            OctetsFault::WrongConstant(place) => Some(place.to_string()),
            OctetsFault::OutOfType(variable) => {
                let item = image.item(ItemNo::Variable(variable))?;
                Some(item.name.to_owned())
            }
            _ => None,
        }
    }

    fn heading(self) -> (u16, &'static str) {
        match self {
            OctetsFault::Read(fault) => (fault.number(), fault.name()),
            OctetsFault::TooShort => (220, "TOO_FEW_OCTETS"),
            OctetsFault::TooLong => (221, "TOO_MANY_OCTETS"),
            OctetsFault::WrongConstant(_) => (222, "WRONG_CONSTANT"),
            OctetsFault::OutOfType(_) => (223, "EXCESS_BITS"),
        }
    }

    fn from_core(fault: edd_octets::OctetsFault) -> OctetsFault {
        use edd_octets::OctetsFault as Core;
        match fault {
            Core::Read(fault) => OctetsFault::Read(ReadFault::from_core(fault)),
            Core::TooShort => OctetsFault::TooShort,
            Core::TooLong => OctetsFault::TooLong,
            Core::WrongConstant(place) => OctetsFault::WrongConstant(place),
            Core::OutOfType(variable) => OctetsFault::OutOfType(variable),
            Core::Memory => refused::<OctetsFault>(),
        }
    }
}

impl From<ReadFault> for OctetsFault {
    fn from(fault: ReadFault) -> OctetsFault {
        OctetsFault::Read(fault)
    }
}

impl fmt::Display for OctetsFault {
    fn fmt(&self, f: &mut fmt::Formatter<'_>) -> fmt::Result {
        write!(f, "{} {}", self.number(), self.name())
    }
}

impl std::error::Error for OctetsFault {}

/// A field of a message: octets that stand side by side.
#[derive(Clone, Debug, PartialEq, Eq)]
pub struct MessageField {
    /// How many octets it has.
    pub width: usize,
    /// What its octets carry.
    pub carries: Carried,
}

/// What the octets of a field carry.
#[derive(Clone, Debug, PartialEq, Eq)]
pub enum Carried {
    /// An octet that is always the same.
    Constant(u8),
    /// Bits of variables, in the order of the message.
    Variables(Vec<MessagePart>),
}

/// Bits of a variable in the octets of a field.
#[derive(Clone, Copy, Debug, PartialEq, Eq)]
pub struct MessagePart {
    /// The variable.
    pub variable: VarNo,
    /// Where its bits are in the number that the octets are. An item without a mask has all bits of
    /// its variable.
    pub mask: u32,
    /// Whether a receiver sets the variable. It drops INFO items.
    pub is_kept: bool,
}

impl MessagePart {
    /// The bits of the variable that come with the number that the octets of the field are. Its bit
    /// 0 is the bit at the lowest place of the mask.
    pub fn bits_in(self, number: u32) -> u32 {
        picked(self.mask, number)
    }
}

impl MessageField {
    /// The number that these octets of the field are, the highest one first. `None` where they are not
    /// as many as its width, which is at most 4.
    pub fn number_in(&self, octets: &[u8]) -> Option<u32> {
        let is_whole = octets.len() == self.width && self.width <= 4;
        is_whole.then(|| number_of(octets))
    }

    fn from_core(field: edd_octets::Field) -> MessageField {
        let width = width_of(&field);
        let carries = match field {
            edd_octets::Field::Constant(octet) => Carried::Constant(octet),
            edd_octets::Field::Variables(parts) => {
                let parts = parts.into_real().into_iter();
                Carried::Variables(parts.map(MessagePart::from_core).collect())
            }
        };
        MessageField { width, carries }
    }
}

impl MessagePart {
    fn from_core(part: edd_octets::Part) -> MessagePart {
        MessagePart {
            variable: part.variable,
            mask: part.mask,
            is_kept: part.is_kept,
        }
    }
}

impl Image {
    /// The octets of a message under the values of the device that sends it. docs/OCTETS.md has the
    /// rules.
    ///
    /// # Errors
    ///
    /// The values are those of another image, there is no such transaction, or an expression that
    /// decides what it carries traps.
    ///
    /// ```
    /// use edd::{CmdNo, Message, Side, VarNo};
    ///
    /// let image = edd::compile(
    ///     b"MANUFACTURER 1, DEVICE_TYPE 2, DEVICE_REVISION 3, DD_REVISION 4
    ///       VARIABLE zero { TYPE INTEGER (2); }
    ///       COMMAND write_zero { NUMBER 35; OPERATION WRITE;
    ///           TRANSACTION { REQUEST { 7, zero } REPLY { zero } } }",
    /// )?;
    /// let mut values = image.values();
    /// values.set(VarNo(0), -300)?;
    /// let request = Message { command: CmdNo(0), position: 0, side: Side::Request };
    /// assert_eq!(image.encode(request, &values)?, [0x07, 0xFE, 0xD4]);
    /// # Ok::<(), Box<dyn std::error::Error>>(())
    /// ```
    pub fn encode(&self, message: Message, values: &Values) -> Result<Vec<u8>, OctetsFault> {
        self.keeps(values)?;
        match edd_octets::encode(Global, &self.reopen(), message, values.core()) {
            Ok(octets) => Ok(octets.into_real()),
            Err(fault) => Err(OctetsFault::from_core(fault)),
        }
    }

    /// What is taken from the octets of a message under the values of who receives it: variables and
    /// their new values, in the order of the message. Of each variable the bits that the message
    /// names are new, and all others are as they were. A variable that the message has twice is
    /// there twice, and its last value counts.
    ///
    /// # Errors
    ///
    /// As of [`Image::encode`]; there are too few or too many octets, one differs from its constant,
    /// or bits came that a variable does not have.
    ///
    /// ```
    /// use edd::{CmdNo, Message, OctetsFault, Side, VarNo};
    ///
    /// let image = edd::compile(
    ///     b"MANUFACTURER 1, DEVICE_TYPE 2, DEVICE_REVISION 3, DD_REVISION 4
    ///       VARIABLE mode { TYPE ENUMERATED { { 1, \"a\" } } }
    ///       VARIABLE flow { TYPE INTEGER (2); }
    ///       COMMAND read { NUMBER 1; OPERATION READ;
    ///           TRANSACTION { REPLY { mode <0xF0>, flow } } }",
    /// )?;
    /// let reply = Message { command: CmdNo(0), position: 0, side: Side::Reply };
    /// let values = image.values();
    /// let sets = image.decode(reply, &values, &[0x10, 0x01, 0x2C])?;
    /// assert_eq!(sets, [(VarNo(0), 1), (VarNo(1), 300)]);
    /// let refused = image.decode(reply, &values, &[0x10]);
    /// assert_eq!(refused, Err(OctetsFault::TooShort));
    /// # Ok::<(), Box<dyn std::error::Error>>(())
    /// ```
    pub fn decode(
        &self,
        message: Message,
        values: &Values,
        octets: &[u8],
    ) -> Result<Vec<(VarNo, i64)>, OctetsFault> {
        self.keeps(values)?;
        match edd_octets::decode(Global, &self.reopen(), message, values.core(), octets) {
            Ok(sets) => Ok(sets.into_real()),
            Err(fault) => Err(OctetsFault::from_core(fault)),
        }
    }

    /// How the octets of a message are divided: its fields, in order. Each constant and each variable
    /// among the items of the message is one [`Carried::Constant`] or one [`MessagePart`], in their
    /// order.
    ///
    /// # Errors
    ///
    /// As of [`Image::encode`].
    ///
    /// ```
    /// use edd::{Carried, CmdNo, Message, MessageField, MessagePart, Side, VarNo};
    ///
    /// let image = edd::compile(
    ///     b"MANUFACTURER 1, DEVICE_TYPE 2, DEVICE_REVISION 3, DD_REVISION 4
    ///       VARIABLE mode { TYPE UNSIGNED_INTEGER; }
    ///       VARIABLE range { TYPE UNSIGNED_INTEGER; }
    ///       COMMAND read { NUMBER 1; OPERATION READ;
    ///           TRANSACTION { REPLY { 7, mode <0xF0>, range <0x0F> (INFO) } } }",
    /// )?;
    /// let reply = Message { command: CmdNo(0), position: 0, side: Side::Reply };
    /// let mode = MessagePart { variable: VarNo(0), mask: 0xF0, is_kept: true };
    /// let range = MessagePart { variable: VarNo(1), mask: 0x0F, is_kept: false };
    /// let both = MessageField { width: 1, carries: Carried::Variables(vec![mode, range]) };
    /// assert_eq!(both.number_in(&[0x5A]), Some(0x5A));
    /// assert_eq!((mode.bits_in(0x5A), range.bits_in(0x5A)), (5, 10));
    /// assert_eq!(
    ///     image.message_fields(reply, &image.values())?,
    ///     [MessageField { width: 1, carries: Carried::Constant(7) }, both],
    /// );
    /// # Ok::<(), Box<dyn std::error::Error>>(())
    /// ```
    pub fn message_fields(
        &self,
        message: Message,
        values: &Values,
    ) -> Result<Vec<MessageField>, OctetsFault> {
        self.keeps(values)?;
        match edd_octets::message_fields(Global, &self.reopen(), message, values.core()) {
            Ok(fields) => {
                let fields = fields.into_real().into_iter();
                Ok(fields.map(MessageField::from_core).collect())
            }
            Err(fault) => Err(OctetsFault::from_core(fault)),
        }
    }

    /// The replies by which a host learns a variable: those of the commands that READ which carry
    /// it, in the order of the source. A reply that has it as INFO alone is none of them.
    ///
    /// # Errors
    ///
    /// The values are those of another image.
    ///
    /// ```
    /// use edd::{CmdNo, Message, Side, VarNo};
    ///
    /// let image = edd::compile(
    ///     b"MANUFACTURER 1, DEVICE_TYPE 2, DEVICE_REVISION 3, DD_REVISION 4
    ///       VARIABLE flow { TYPE INTEGER (2); }
    ///       COMMAND read { NUMBER 1; OPERATION READ; TRANSACTION { REPLY { flow } } }",
    /// )?;
    /// let reply = Message { command: CmdNo(0), position: 0, side: Side::Reply };
    /// assert_eq!(image.readers(VarNo(0), &image.values())?, [reply]);
    /// # Ok::<(), Box<dyn std::error::Error>>(())
    /// ```
    pub fn readers(&self, variable: VarNo, values: &Values) -> Result<Vec<Message>, ReadFault> {
        self.keeps(values)?;
        match edd_octets::readers(Global, &self.reopen(), variable, values.core()) {
            Ok(messages) => Ok(messages.into_real()),
            Err(fault) => Err(ReadFault::from_core(fault)),
        }
    }

    /// The requests by which a host sets a variable of the device: those of the commands that WRITE
    /// which carry it, in the order of the source. A request that has it as INFO alone is none of
    /// them.
    ///
    /// # Errors
    ///
    /// The values are those of another image.
    ///
    /// ```
    /// use edd::{CmdNo, Message, Side, VarNo};
    ///
    /// let image = edd::compile(
    ///     b"MANUFACTURER 1, DEVICE_TYPE 2, DEVICE_REVISION 3, DD_REVISION 4
    ///       VARIABLE zero { TYPE INTEGER (2); }
    ///       COMMAND write { NUMBER 2; OPERATION WRITE; TRANSACTION { REQUEST { zero } } }",
    /// )?;
    /// let request = Message { command: CmdNo(0), position: 0, side: Side::Request };
    /// assert_eq!(image.writers(VarNo(0), &image.values())?, [request]);
    /// # Ok::<(), Box<dyn std::error::Error>>(())
    /// ```
    pub fn writers(&self, variable: VarNo, values: &Values) -> Result<Vec<Message>, ReadFault> {
        self.keeps(values)?;
        match edd_octets::writers(Global, &self.reopen(), variable, values.core()) {
            Ok(messages) => Ok(messages.into_real()),
            Err(fault) => Err(ReadFault::from_core(fault)),
        }
    }

    fn keeps(&self, values: &Values) -> Result<(), ReadFault> {
        if values.are_of(self) {
            Ok(())
        } else {
            Err(ReadFault::WrongValues)
        }
    }
}

#[cfg(test)]
mod tests {
    use super::*;
    use edd_octets::OctetsFault as Core;

    const ALL: [Core; 4] = [
        Core::TooShort,
        Core::TooLong,
        Core::WrongConstant(0),
        Core::OutOfType(VarNo(0)),
    ];

    #[test]
    fn what_is_not_read_prints_as_in_the_core() {
        let fault = Core::Read(edd_machine::ReadFault::DivZero);
        let printed = OctetsFault::from_core(fault).to_string();
        assert_eq!(printed, fault.to_string());
    }

    #[test]
    fn faults_print_as_those_of_the_core() {
        for fault in ALL {
            let printed = OctetsFault::from_core(fault).to_string();
            assert_eq!(printed, fault.to_string());
        }
    }

    #[test]
    fn a_number_has_as_many_octets_as_its_field() {
        let field = |width| MessageField {
            width,
            carries: Carried::Variables(Vec::new()),
        };
        assert_eq!(field(3).number_in(&[1, 2, 3]), Some(0x01_02_03));
        assert_eq!(field(4).number_in(&[0xFF; 4]), Some(u32::MAX));
        assert_eq!(field(3).number_in(&[1, 2]), None);
        assert_eq!(field(5).number_in(&[0; 5]), None);
    }

    #[test]
    fn a_detail_is_a_place_or_a_name() {
        let image = crate::compile(include_bytes!("../../../examples/first.edd")).unwrap();
        let details = ALL.map(|fault| OctetsFault::from_core(fault).detail(&image));
        let expected = [None, None, Some("0".to_owned()), Some("p".to_owned())];
        assert_eq!(details, expected);
        assert_eq!(OctetsFault::OutOfType(VarNo(1)).detail(&image), None);
    }
}
