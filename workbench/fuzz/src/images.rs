//! What has to hold of each image.
use crate::counts::Counts;
use crate::dice::Dice;
use crate::sessions;
use edd_display::show;
use edd_dump::Dump;
use edd_loader::{Image, load};
use edd_machine::{Values, attribute, set_fault};
use edd_plain_std::alloc::Global;
use edd_plain_std::vec::Vec as List;
use edd_syntax::numbers::{ATTRIBUTES, AttrRef, CmdNo, ItemNo, MenuNo, MethNo, VarNo};

/// The longest image whose dump is compared; longer ones take most of the time.
const DUMPED: usize = 1 << 14;

/// Loads an image, and tries what can be done with it.
pub fn tried(bytes: &[u8], dice: &mut Dice, counts: &mut Counts) -> Result<bool, String> {
    let loaded = load(Global, bytes);
    let said = loaded.as_ref().err().map(ToString::to_string);
    if bytes.len() <= DUMPED {
        let dump = Dump::new(bytes);
        let lines = dump.to_string();
        let fault = dump.fault().as_ref().map(ToString::to_string);
        if fault != said || lines.contains("\nfault ") != fault.is_some() {
            return Err(format!("dump says {fault:?}, load {said:?}"));
        }
    }
    let Ok(image) = loaded else {
        counts.refused_images += 1;
        return Ok(false);
    };
    counts.loaded += 1;
    let numbers = numbers_of(&image, dice);
    let Ok(values) = Values::new(Global, &image, &numbers) else {
        return Err("values in their ranges are refused".into());
    };
    read(&image, &values, dice, counts)?;
    sessions::tried(&image, &numbers, dice, counts)?;
    Ok(true)
}

/// A value in its range for each variable.
pub fn numbers_of(image: &Image<'_>, dice: &mut Dice) -> Vec<i64> {
    let count = image.counts().variables;
    (0..count)
        .map(|at| {
            let wanted = [
                dice.next() as i64 >> dice.below(64),
                dice.below(300) as i64,
                1,
                0,
            ];
            let fits = |number: &i64| set_fault(image, VarNo(at), *number).is_none();
            wanted.into_iter().find(fits).unwrap_or(0)
        })
        .collect()
}

/// Shows it, and reads some attributes by themselves: those of an item that is not there are refused.
fn read(
    image: &Image<'_>,
    values: &Values,
    dice: &mut Dice,
    counts: &mut Counts,
) -> Result<(), String> {
    let mut lines = List::new(Global);
    if let Err(fault) = show(Global, image, values, "de", &mut lines) {
        return Err(format!("show has no answer: {fault:?}"));
    }
    for _ in 0..4 {
        let attr = ATTRIBUTES[dice.below(ATTRIBUTES.len())];
        let number = dice.below(8) as u16;
        let item = match dice.below(4) {
            0 => ItemNo::Variable(VarNo(number)),
            1 => ItemNo::Command(CmdNo(number)),
            2 => ItemNo::Menu(MenuNo(number)),
            _ => ItemNo::Method(MethNo(number)),
        };
        let one = attribute(Global, image, AttrRef { item, attr, sub: 0 }, values);
        let other = attribute(Global, image, AttrRef { item, attr, sub: 0 }, values);
        if format!("{one:?}") != format!("{other:?}") {
            return Err(format!("two readings of {attr:?} of {item:?} differ"));
        }
        counts.attributes += 1;
    }
    Ok(())
}
