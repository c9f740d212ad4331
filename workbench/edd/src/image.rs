//! Images.

use crate::memory::Global;
use crate::refusal::refusal_of_source;
use crate::{LoadFault, Opened, Refusal, Values};
use edd_image::{ELEMENT_ROW, VarKind, element_array, element_number, element_variable};
use edd_loader::Text;
use edd_syntax::numbers::{ArrNo, Element, ItemNo, KINDS, Kind, StrNo, VarNo};
use std::fmt;
use std::sync::Arc;

/// Compiles a source file to its image.
///
/// That the image says and does what the source means is what the core proves.
///
/// # Errors
///
/// The source is refused for the fault of its tokens, a syntax error, or the first rule that it
/// breaks.
///
/// ```
/// let image = edd::compile(include_bytes!("../../../examples/first.edd"))?;
/// assert_eq!(image.items().map(|item| item.name).collect::<Vec<_>>(), ["p"]);
/// # Ok::<(), edd::Refusal>(())
/// ```
pub fn compile(source: &[u8]) -> Result<Image, Refusal> {
    match edd_compiler::compile(Global, source) {
        Ok(bytes) => Ok(Image {
            bytes: bytes.into_real().into(),
        }),
        Err(fault) => Err(refusal_of_source(&fault, source)),
    }
}

/// A valid image. It owns its bytes, and a clone shares them.
///
/// Only [`compile`] and [`Image::load`] make one, so its bytes are always valid.
///
/// ```
/// use edd::{Image, LoadFault};
///
/// let image = edd::compile(include_bytes!("../../../examples/first.edd"))?;
/// assert_eq!(Image::load(image.bytes())?, image);
/// assert_eq!(Image::load(b"EDI1".as_slice()), Err(LoadFault::Short));
/// # Ok::<(), Box<dyn std::error::Error>>(())
/// ```
#[derive(Clone, PartialEq, Eq, Hash)]
pub struct Image {
    bytes: Arc<[u8]>,
}

/// The four numbers that identify a description.
#[derive(Clone, Copy, Debug, PartialEq, Eq, Hash)]
pub struct Identification {
    /// MANUFACTURER.
    pub manufacturer: u32,
    /// DEVICE_TYPE.
    pub device_type: u32,
    /// DEVICE_REVISION.
    pub device_revision: u32,
    /// DD_REVISION.
    pub dd_revision: u32,
}

/// How many items of each kind and how many strings an image has.
#[derive(Clone, Copy, Debug, PartialEq, Eq, Hash)]
pub struct Counts {
    /// How many variables.
    pub variables: u16,
    /// How many commands.
    pub commands: u16,
    /// How many menus.
    pub menus: u16,
    /// How many collections.
    pub collections: u16,
    /// How many methods.
    pub methods: u16,
    /// How many arrays.
    pub arrays: u16,
    /// How many strings.
    pub strings: u16,
}

/// An item of an image.
#[derive(Clone, Copy, Debug, PartialEq, Eq)]
pub struct Item<'i> {
    /// Its kind and its number among the items of that kind.
    pub number: ItemNo,
    /// Its kind.
    pub kind: Kind,
    /// Its name in the source.
    pub name: &'i str,
}

impl Image {
    /// The image in these bytes, which are checked.
    ///
    /// # Errors
    ///
    /// The first rule of images that the bytes break.
    pub fn load(bytes: impl Into<Arc<[u8]>>) -> Result<Image, LoadFault> {
        let bytes = bytes.into();
        match edd_loader::load(Global, &bytes) {
            Ok(_) => Ok(Image { bytes }),
            Err(fault) => Err(LoadFault::from_core(fault)),
        }
    }

    /// The bytes, as a communicator stores them.
    pub fn bytes(&self) -> &[u8] {
        &self.bytes
    }

    /// The core's image. The bytes are valid, which is all that `reopen` requires.
    pub(crate) fn reopen(&self) -> edd_loader::Image<'_> {
        edd_loader::reopen(&self.bytes)
    }

    /// A view for panels and devices, which borrow it.
    pub fn open(&self) -> Opened<'_> {
        Opened::new(self)
    }

    /// The four numbers that identify the description.
    pub fn identification(&self) -> Identification {
        let counts = self.reopen().counts();
        Identification {
            manufacturer: counts.manufacturer,
            device_type: counts.device_type,
            device_revision: counts.device_revision,
            dd_revision: counts.dd_revision,
        }
    }

    /// How many items of each kind and how many strings there are.
    pub fn counts(&self) -> Counts {
        let counts = self.reopen().counts();
        Counts {
            variables: counts.variables,
            commands: counts.commands,
            menus: counts.menus,
            collections: counts.collections,
            methods: counts.methods,
            arrays: counts.arrays,
            strings: counts.strings,
        }
    }

    /// All items, by kind and number.
    ///
    /// ```
    /// use edd::Kind;
    ///
    /// let image = edd::compile(include_bytes!("../../../examples/flow_transmitter.edd"))?;
    /// let methods = image.items().filter(|item| item.kind == Kind::Method).count();
    /// assert_eq!(methods, usize::from(image.counts().methods));
    /// # Ok::<(), edd::Refusal>(())
    /// ```
    pub fn items(&self) -> impl Iterator<Item = Item<'_>> {
        KINDS.into_iter().flat_map(|kind| self.items_of(kind))
    }

    /// The items of a kind, by number.
    pub fn items_of(&self, kind: Kind) -> impl Iterator<Item = Item<'_>> {
        (0..self.count_of(kind)).filter_map(move |number| self.item(kind.item(number)))
    }

    fn count_of(&self, kind: Kind) -> u16 {
        let counts = self.counts();
        match kind {
            Kind::Variable => counts.variables,
            Kind::Command => counts.commands,
            Kind::Menu => counts.menus,
            Kind::Collection => counts.collections,
            Kind::Method => counts.methods,
            Kind::Array => counts.arrays,
        }
    }

    /// The item of a kind and number, if there is one.
    pub fn item(&self, number: ItemNo) -> Option<Item<'_>> {
        let name = self.reopen().name(number)?;
        Some(Item {
            number,
            kind: number.kind(),
            name,
        })
    }

    /// The first item of this name, by kind and number.
    ///
    /// ```
    /// use edd::{ItemNo, VarNo};
    ///
    /// let image = edd::compile(include_bytes!("../../../examples/first.edd"))?;
    /// assert_eq!(image.find("p"), Some(ItemNo::Variable(VarNo(0))));
    /// assert_eq!(image.find("q"), None);
    /// # Ok::<(), edd::Refusal>(())
    /// ```
    pub fn find(&self, name: &str) -> Option<ItemNo> {
        self.reopen().find(name)
    }

    /// The type and the size of a variable, if there is such a variable.
    pub fn variable(&self, variable: VarNo) -> Option<VarKind> {
        self.reopen().variable(variable)
    }

    /// The variable that an array has under a number, if it has one.
    pub fn element(&self, array: ArrNo, number: i64) -> Option<VarNo> {
        self.reopen().element(array, number)
    }

    /// All elements of an array, by number.
    ///
    /// ```
    /// use edd::ItemNo;
    ///
    /// let image = edd::compile(
    ///     b"MANUFACTURER 1, DEVICE_TYPE 2, DEVICE_REVISION 3, DD_REVISION 4
    ///       VARIABLE a { TYPE INTEGER (1); }
    ///       VARIABLE b { TYPE INTEGER (1); }
    ///       ARRAY OF VARIABLE all { ELEMENTS { 7, b; 3, a; } }",
    /// )?;
    /// let Some(ItemNo::Array(all)) = image.find("all") else { panic!("an array") };
    /// let numbers: Vec<u32> = image.elements(all).map(|element| element.number).collect();
    /// assert_eq!(numbers, [3, 7]);
    /// # Ok::<(), edd::Refusal>(())
    /// ```
    pub fn elements(&self, array: ArrNo) -> impl Iterator<Item = Element> {
        let starts = self.reopen().starts();
        let rows = self.bytes.get(starts.element_rows..starts.code);
        // Each chunk is as long as a row, which is all that its fields require.
        rows.unwrap_or_default()
            .chunks_exact(ELEMENT_ROW)
            .map(|row| Element {
                array: ArrNo(element_array(row, 0)),
                number: element_number(row, 0),
                var: VarNo(element_variable(row, 0)),
            })
            .filter(move |element| element.array == array)
    }

    /// The text of a string in a language: the variant with this code, else the English one, else
    /// the first. A key of a dictionary has its name as text.
    pub fn text(&self, string: StrNo, language: &str) -> Option<Text<'_>> {
        self.reopen().text(string, language)
    }

    /// Device values that are all 0.
    pub fn values(&self) -> Values {
        Values::zeros(self)
    }

    /// Device values as a panel starts with them: each variable has its DEFAULT_VALUE, or else 0
    /// within its limits.
    ///
    /// ```
    /// use edd::VarNo;
    ///
    /// let image = edd::compile(
    ///     b"MANUFACTURER 1, DEVICE_TYPE 2, DEVICE_REVISION 3, DD_REVISION 4
    ///       VARIABLE p { TYPE INTEGER (2) { DEFAULT_VALUE 50; } }",
    /// )?;
    /// assert_eq!(image.values().get(VarNo(0)), Some(0));
    /// assert_eq!(image.start_values().get(VarNo(0)), Some(50));
    /// # Ok::<(), edd::Refusal>(())
    /// ```
    pub fn start_values(&self) -> Values {
        Values::start(self)
    }
}

impl fmt::Debug for Image {
    fn fmt(&self, f: &mut fmt::Formatter<'_>) -> fmt::Result {
        f.debug_struct("Image")
            .field("identification", &self.identification())
            .field("counts", &self.counts())
            .finish_non_exhaustive()
    }
}
