//! The images that the sources of rows become. They are stored as they came, so that a change of them is seen.

use super::damaged::SOURCE;
use super::fault::{Fault, ImageFault};
use super::row::{Row, RowError, parse_hex};
use super::run::compile;
use std::collections::BTreeMap;
use std::fmt::Write;

/// How many bytes a line of the table has.
const LINE: usize = 32;

/// The stored images by the titles of their rows.
#[derive(Debug, Clone, Default, PartialEq, Eq)]
pub struct Images<'t>(BTreeMap<&'t str, Vec<u8>>);

impl<'t> Images<'t> {
    /// Parses the table of images: the title of each row that has one, and below it lines of digits to the base 16,
    /// each after a blank.
    ///
    /// ```
    /// let images = edd_tests::rows::Images::parse("edd view s: a label\n 45 44 49\n 31\n")?;
    /// assert_eq!(images.titles().collect::<Vec<_>>(), ["edd view s: a label"]);
    /// # Ok::<(), edd_tests::rows::RowError>(())
    /// ```
    pub fn parse(table: &'t str) -> Result<Images<'t>, RowError> {
        let mut images = BTreeMap::new();
        let mut title = "";
        for line in table.lines() {
            match line.strip_prefix(' ') {
                None => title = line,
                Some(digits) => images
                    .entry(title)
                    .or_insert_with(Vec::new)
                    .extend(parse_hex(digits)?),
            }
        }
        Ok(Images(images))
    }

    pub fn titles(&self) -> impl Iterator<Item = &'t str> {
        self.0.keys().copied()
    }

    /// Compares the image of a row's source with the stored one. Says whether it has one.
    pub fn compare(&self, row: &Row<'_>) -> Result<bool, Fault> {
        let stored = self.0.get(row.title().as_str());
        match (row.file(SOURCE).and_then(compile), stored) {
            (None, None) => Ok(false),
            (Some(image), Some(stored)) if image == *stored => Ok(true),
            (Some(_), None) => Err(Fault::Image(ImageFault::NotStored)),
            (None, Some(_)) => Err(Fault::Image(ImageFault::Refused)),
            (Some(image), Some(stored)) => {
                let alike = image
                    .iter()
                    .zip(stored)
                    .take_while(|(one, other)| one == other)
                    .count();
                Err(Fault::Image(ImageFault::Differs(alike)))
            }
        }
    }
}

/// The table of the images of these rows.
pub fn write_table<'r>(rows: impl Iterator<Item = &'r Row<'r>>) -> String {
    let mut table = String::new();
    for (row, image) in
        rows.filter_map(|row| row.file(SOURCE).and_then(compile).map(|image| (row, image)))
    {
        table.push_str(&row.title());
        table.push('\n');
        for line in image.chunks(LINE) {
            // A text takes all that is written.
            line.iter()
                .for_each(|byte| write!(table, " {byte:02X}").unwrap_or_default());
            table.push('\n');
        }
    }
    table
}

#[cfg(test)]
mod tests {
    use super::*;

    const TEXT: &str = "edd view s\n@name a label\n@file s\nMANUFACTURER 1, DEVICE_TYPE 2, DEVICE_REVISION 3, DD_REVISION 4\n@status 0\n";

    #[test]
    fn a_table_that_is_written_is_compared() {
        let row = Row::parse(TEXT).unwrap();
        let table = write_table([&row].into_iter());
        assert_eq!(Images::parse(&table).unwrap().compare(&row), Ok(true));
        let other = table.replacen("45", "46", 1);
        assert_eq!(
            Images::parse(&other).unwrap().compare(&row),
            Err(Fault::Image(ImageFault::Differs(0)))
        );
        assert_eq!(
            Images::default().compare(&row),
            Err(Fault::Image(ImageFault::NotStored))
        );
    }

    #[test]
    fn a_source_that_lost_its_image_is_noticed() {
        let row = Row::parse("edd view s\n@name a label\n@file s\nno source\n@status 1\n").unwrap();
        let images = Images::parse("edd view s: a label\n 45\n").unwrap();
        assert_eq!(images.compare(&row), Err(Fault::Image(ImageFault::Refused)));
    }
}
