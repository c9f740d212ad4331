//! Damage to the bytes of a file, by numbers that are the same each time.

/// The length of an image's header.
const HEADER: usize = 56;

/// The lengths of the rows of an image.
const ROW_LENGTHS: [usize; 3] = [4, 8, 16];

/// The longest piece of another file that is put in.
const LONGEST_PIECE: usize = 64;

/// A generator of numbers, which begins with its seed.
///
/// ```
/// use edd_tests::rows::Dice;
/// let (mut one, mut other) = (Dice::from_seed("a row"), Dice::from_seed("a row"));
/// assert_eq!(one.below(1000), other.below(1000));
/// ```
#[derive(Debug, Clone)]
pub struct Dice(u64);

impl Dice {
    /// A generator with a text as its seed, so that each row has its own damage whichever rows are played.
    pub fn from_seed(text: &str) -> Dice {
        let add = |hash: u64, byte: &u8| (hash ^ u64::from(*byte)).wrapping_mul(0x0100_0000_01b3);
        Dice(text.as_bytes().iter().fold(0xcbf2_9ce4_8422_2325, add))
    }

    fn next(&mut self) -> u64 {
        self.0 = self
            .0
            .wrapping_mul(6_364_136_223_846_793_005)
            .wrapping_add(1_442_695_040_888_963_407);
        self.0 >> 33
    }

    fn byte(&mut self) -> u8 {
        let [byte, ..] = self.next().to_le_bytes();
        byte
    }

    /// A number below the bound, or 0 where the bound is 0.
    pub fn below(&mut self, bound: usize) -> usize {
        usize::try_from(self.next())
            .unwrap_or_default()
            .checked_rem(bound)
            .unwrap_or_default()
    }
}

/// Another byte, mostly one that means something in an image or in a text.
fn pick_byte(dice: &mut Dice) -> u8 {
    match dice.below(3) {
        0 => dice.byte(),
        1 => dice.byte() & 7,
        _ => b' '.wrapping_add(dice.byte().rem_euclid(95)),
    }
}

/// Sets two or three bytes.
fn set_bytes(dice: &mut Dice, bytes: &mut [u8]) {
    for _ in 0..dice.below(2).saturating_add(2) {
        let place = dice.below(bytes.len());
        let byte = pick_byte(dice);
        if let Some(changed) = bytes.get_mut(place) {
            *changed = byte;
        }
    }
}

/// The start of a row of this length, counted from the header.
fn pick_row(dice: &mut Dice, whole: usize, length: usize) -> usize {
    let rows = whole
        .saturating_sub(HEADER)
        .checked_div(length)
        .unwrap_or_default();
    dice.below(rows)
        .saturating_mul(length)
        .saturating_add(HEADER)
}

/// Exchanges two pieces, each as long as a row of an image.
fn exchange_rows(dice: &mut Dice, bytes: &mut [u8]) {
    let length = ROW_LENGTHS
        .get(dice.below(ROW_LENGTHS.len()))
        .copied()
        .unwrap_or(HEADER);
    let first = pick_row(dice, bytes.len(), length);
    let second = pick_row(dice, bytes.len(), length);
    for offset in 0..length {
        let (first, second) = (first.saturating_add(offset), second.saturating_add(offset));
        if first.max(second) < bytes.len() {
            bytes.swap(first, second);
        }
    }
}

/// Puts a piece of another file in the place of as many bytes.
fn splice(dice: &mut Dice, bytes: &mut [u8], other: &[u8]) {
    let to = dice.below(bytes.len());
    let from = dice.below(other.len());
    let length = dice.below(LONGEST_PIECE).saturating_add(1);
    let piece = other.iter().skip(from);
    bytes
        .iter_mut()
        .skip(to)
        .take(length)
        .zip(piece)
        .for_each(|(changed, byte)| *changed = *byte);
}

/// Damages the bytes. A piece that is put in comes from another file.
pub fn damage(dice: &mut Dice, bytes: &mut [u8], other: &[u8]) {
    match dice.below(4) {
        0 => exchange_rows(dice, bytes),
        1 => splice(dice, bytes, other),
        _ => set_bytes(dice, bytes),
    }
}

#[cfg(test)]
mod tests {
    use super::*;

    #[test]
    fn damage_keeps_the_length_and_changes_most_files() {
        let whole: Vec<u8> = (0..=255).collect();
        let damaged = |text: String| {
            let mut bytes = whole.clone();
            damage(&mut Dice::from_seed(&text), &mut bytes, b"another file");
            assert_eq!(bytes.len(), whole.len());
            bytes != whole
        };
        assert!(
            (0..100)
                .filter(|number| damaged(format!("{number}")))
                .count()
                > 80
        );
    }

    #[test]
    fn an_empty_file_stays_empty() {
        (0..20).for_each(|number| damage(&mut Dice::from_seed(&format!("{number}")), &mut [], &[]));
    }
}
