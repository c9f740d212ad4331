//! The program `edd`: every command, over the real arguments, files and output.

use edd_cli::{COMMAND_LINE, FILE, StandardOutput};
use std::ffi::OsString;
use std::io::Write;
use std::process::ExitCode;

fn main() -> ExitCode {
    let mut output = StandardOutput;
    let words: Result<Vec<String>, OsString> =
        std::env::args_os().map(OsString::into_string).collect();
    let status = match words {
        Ok(words) => edd_cli::run_on_system(words, &mut output),
        Err(_) => report_no_words(&mut output),
    };
    ExitCode::from(status)
}

/// Prints that the arguments are not text, and returns the exit status.
fn report_no_words(output: &mut impl Write) -> u8 {
    match output.write_all(b"error: the arguments are not text\n") {
        Ok(()) => COMMAND_LINE,
        Err(_) => FILE,
    }
}

#[cfg(test)]
mod tests {
    use super::*;
    use std::io::{self, ErrorKind};

    /// An output that takes nothing.
    struct Closed;

    impl Write for Closed {
        fn write(&mut self, _: &[u8]) -> io::Result<usize> {
            Err(ErrorKind::BrokenPipe.into())
        }

        fn flush(&mut self) -> io::Result<()> {
            Ok(())
        }
    }

    #[test]
    fn an_output_that_takes_nothing_has_the_status_of_files() {
        assert_eq!(report_no_words(&mut Closed), FILE);
    }
}
