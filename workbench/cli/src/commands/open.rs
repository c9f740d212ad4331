//! `edd open`: a user at an instrument, by lines or by keys.

use crate::command_line::{Open, Terminal};
use crate::failure::Failure;
use core_std::alloc::Global;
use core_std::io::Write as CoreWrite;
use core_std::string::String as CoreString;
use edd_files::{Files, INPUT, of_file, read, read_script, save_record};
use edd_run::{DeviceSource, Keys, OpenSetup};

/// The rows and columns of a terminal that does not know its size, and says 0.
const USUAL: (usize, usize) = (24, 80);

/// Opens a source or an image. All files are opened before anything else is done, and the record is
/// saved at the end. The core saves it only where these words ask for it.
pub(crate) fn run(
    args: &Open,
    words: &[CoreString],
    files: &mut impl Files,
    out: &mut impl CoreWrite,
) -> Result<(), Failure> {
    let description = read(Global, files, &args.file)?;
    let device = match &args.device {
        Some(name) => Some((name, read(Global, files, name)?)),
        None => None,
    };
    let script = read_script(Global, files, args.script.as_deref())?;
    let input = files.open(INPUT).map_err(|fault| of_file(INPUT, fault))?;
    let setup = OpenSetup {
        device: device
            .as_ref()
            .map(|(name, text)| DeviceSource { name, text }),
        script: &script,
        language: &args.language.code,
        keys: keys_of(&args.terminal),
    };
    let record = if edd_run::is_image(&description) {
        edd_run::open(&description, &setup, input, out)?
    } else {
        edd_run::open(&edd_run::compile(&description)?, &setup, input, out)?
    };
    if let Some(name) = &args.record {
        save_record(words, name, &record, files)?;
    }
    Ok(())
}

/// The terminal whose keys are read, unless lines are read.
fn keys_of(args: &Terminal) -> Option<Keys> {
    (args.keys && !args.lines).then(|| Keys {
        rows: at_least(args.rows, 2, USUAL.0),
        columns: at_least(args.columns, 1, USUAL.1),
        has_seconds: args.seconds,
    })
}

/// A count, which is at least `least`; the usual one where it is 0.
fn at_least(count: u32, least: usize, usual: usize) -> usize {
    match count {
        0 => usual,
        count => usize::try_from(count).unwrap_or(usize::MAX).max(least),
    }
}

#[cfg(test)]
mod tests {
    use super::*;
    use crate::command_line::{Command, CommandLine};
    use clap::Parser;

    fn keys(words: &str) -> Option<(usize, usize)> {
        let command_line = CommandLine::try_parse_from(words.split(' ')).unwrap();
        let Command::Open(args) = &command_line.command else {
            panic!("{words} opens nothing");
        };
        keys_of(&args.terminal).map(|keys| (keys.rows, keys.columns))
    }

    #[test]
    fn keys_are_read_where_no_lines_are_asked_for() {
        assert_eq!(keys("edd open f"), None);
        assert_eq!(keys("edd open f --rows 5"), None);
        assert_eq!(keys("edd open f --keys --lines"), None);
        assert_eq!(keys("edd open f --keys"), Some((24, 80)));
    }

    #[test]
    fn a_size_that_is_unknown_is_the_usual_one_and_a_small_one_grows() {
        let line = "edd open f --keys --rows 0 --columns 0";
        assert_eq!(keys(line), Some((24, 80)));
        let line = "edd open f --keys --rows 1 --columns 1";
        assert_eq!(keys(line), Some((2, 1)));
    }
}
