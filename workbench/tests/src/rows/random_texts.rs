//! Texts made of the sources of rows by numbers that are the same each time.

use super::damage::{Dice, damage};

/// So many texts are compared.
pub const COUNT: usize = 20_000;

/// The text of a number: one of the sources, with bytes or lines of another one, or without a line.
pub fn random_text(sources: &[&[u8]], number: usize) -> Vec<u8> {
    let mut dice = Dice::from_seed(&format!("text {number}"));
    let mut pick = || {
        sources
            .get(dice.below(sources.len()))
            .copied()
            .unwrap_or_default()
    };
    let (one, other) = (pick(), pick());
    match dice.below(3) {
        0 => {
            let mut text = one.to_vec();
            damage(&mut dice, &mut text, other);
            text
        }
        1 => with_line(
            one,
            dice.below(count_lines(one)),
            pick_line(&mut dice, other),
        ),
        _ => with_line(one, dice.below(count_lines(one)), b""),
    }
}

fn count_lines(text: &[u8]) -> usize {
    text.split_inclusive(|byte| *byte == b'\n').count()
}

fn pick_line<'t>(dice: &mut Dice, text: &'t [u8]) -> &'t [u8] {
    let number = dice.below(count_lines(text));
    text.split_inclusive(|byte| *byte == b'\n')
        .nth(number)
        .unwrap_or_default()
}

/// The text with another line in the place of the one of this number.
fn with_line(text: &[u8], number: usize, line: &[u8]) -> Vec<u8> {
    let lines = text.split_inclusive(|byte| *byte == b'\n').enumerate();
    lines
        .flat_map(|(at, own)| if at == number { line } else { own })
        .copied()
        .collect()
}

#[cfg(test)]
mod tests {
    use super::*;

    #[test]
    fn a_line_takes_the_place_of_another() {
        assert_eq!(with_line(b"a\nb\nc", 1, b"x\n"), b"a\nx\nc");
        assert_eq!(with_line(b"a\nb\nc", 2, b""), b"a\nb\n");
        assert_eq!(with_line(b"", 0, b"x"), b"");
    }

    #[test]
    fn a_number_has_one_text() {
        let sources: [&[u8]; 2] = [b"one\ntwo\n", b"three\nfour\n"];
        let made: Vec<_> = (0..100)
            .map(|number| random_text(&sources, number))
            .collect();
        let again: Vec<_> = (0..100)
            .map(|number| random_text(&sources, number))
            .collect();
        assert_eq!(made, again);
        assert!(
            made.iter()
                .any(|text| text != sources[0] && text != sources[1])
        );
    }
}
