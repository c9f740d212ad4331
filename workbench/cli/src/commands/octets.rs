//! `edd octets`: the messages of a transaction as octets, and what a reply says.

use crate::command_line::Octets;
use crate::failure::Failure;
use crate::hints::{self, Input, Inputs};
use crate::recorder::Recorder;
use core_std::alloc::Global;
use edd::{Image, Values, ValuesFault};
use edd_files::{Files, read, read_script};
use edd_loader::load;
use edd_run::RunError;
use edd_transactions::{Transaction, TransactionFault};
use std::io::Write;

/// Prints the messages of a transaction, or what a reply sets, and returns the exit status.
pub(crate) fn run(args: &Octets, files: &mut impl Files, output: &mut (dyn Write + Send)) -> u8 {
    let mut recorder = Recorder::new(files, args.hints.quiet);
    let mut refusal = None;
    let status = super::print(output, &mut recorder, |recorder, out| {
        let ended = read_and_print(args, recorder, out);
        refusal = ended.as_ref().err().and_then(Refused::new);
        ended
    });
    if let Some(refusal) = refusal.filter(|_| !args.hints.quiet) {
        // A hint for which there is no memory is left out.
        let _ = explain(args, &refusal, &mut recorder);
    }
    status
}

/// A refusal for which there may be a hint.
enum Refused {
    Run(RunError),
    Command(String),
}

impl Refused {
    fn new(failure: &Failure) -> Option<Refused> {
        match failure {
            Failure::Run(error) => Some(Refused::Run(error.clone())),
            Failure::Transaction(TransactionFault::NoCommand(name)) => {
                Some(Refused::Command(name.clone()))
            }
            _ => None,
        }
    }
}

/// The number of the transaction and the name of the script. The number may be left out before a
/// script whose name is none.
fn words(args: &Octets) -> Result<(Option<i64>, Option<&str>), Failure> {
    let script = args.script.as_deref();
    let Some(word) = args.transaction.as_deref() else {
        return Ok((None, script));
    };
    match (word.parse(), script) {
        (Ok(number), script) => Ok((Some(number), script)),
        (Err(_), None) => Ok((None, Some(word))),
        (Err(_), Some(_)) => Err(Failure::NoTransactionNumber(word.to_owned())),
    }
}

fn read_and_print(
    args: &Octets,
    files: &mut impl Files,
    out: &mut impl Write,
) -> Result<(), Failure> {
    let (number, script) = words(args)?;
    let description = read(Global, files, &args.file)?.into_real();
    let script = read_script(Global, files, script)?;
    let bytes = if edd_run::is_image(&description) {
        description
    } else {
        edd_run::compile(&description)?
    };
    let (image, values) = start(bytes, &script)?;
    let transaction = Transaction::find(&image, &values, &args.command, number)?;
    let language = &args.language.code;
    let lines = match &args.reply {
        None => edd_transactions::encode(&image, &values, transaction, language)?,
        Some(octets) => {
            edd_transactions::decode(&image, &values, transaction, &octets.0, language)?
        }
    };
    out.write_all(lines.as_bytes())?;
    Ok(())
}

/// The image, and its values as a script sets them over their defaults.
fn start(bytes: Vec<u8>, script: &[u8]) -> Result<(Image, Values), Failure> {
    let given = {
        let image = load(Global, &bytes).map_err(RunError::from)?;
        edd_script::parse_sets(Global, &image, script).map_err(RunError::from)?
    };
    let image = Image::load(bytes).map_err(|fault| Failure::Image(fault.to_string()))?;
    let values = Values::with_defaults(&image, &given).map_err(|fault| match fault {
        ValuesFault::Count => RunError::Values(edd_machine::ValuesFault::Count),
        ValuesFault::Range => RunError::Values(edd_machine::ValuesFault::Range),
    })?;
    Ok((image, values))
}

fn explain<F: Files>(
    args: &Octets,
    refusal: &Refused,
    files: &mut Recorder<'_, F>,
) -> Result<(), Failure> {
    let read = files.read.clone();
    let Some((description, rest)) = read.split_first() else {
        return Ok(());
    };
    let (_, script) = words(args)?;
    let description = Input {
        name: &args.file,
        bytes: description,
    };
    let script = script.zip(rest.first());
    let inputs = Inputs {
        description,
        device: None,
        script: script.map(|(name, bytes)| Input { name, bytes }),
    };
    match refusal {
        Refused::Run(error) => hints::explain(error, &inputs, files),
        Refused::Command(name) => hints::suggest_command(name, description, files),
    }
}

#[cfg(test)]
mod tests {
    use super::*;
    use crate::command_line::{Command, CommandLine};
    use clap::Parser;

    fn words_of(line: &str) -> Option<(Option<i64>, Option<String>)> {
        let command_line = CommandLine::try_parse_from(line.split(' ')).ok()?;
        let Command::Octets(args) = &command_line.command else {
            panic!("{line} is another command");
        };
        let (number, script) = words(args).ok()?;
        Some((number, script.map(str::to_owned)))
    }

    #[test]
    fn a_transaction_may_be_left_out_before_a_script() {
        let script = || Some("t".to_owned());
        assert_eq!(words_of("edd octets s c"), Some((None, None)));
        assert_eq!(words_of("edd octets s c 2"), Some((Some(2), None)));
        assert_eq!(words_of("edd octets s c t"), Some((None, script())));
        assert_eq!(words_of("edd octets s c 2 t"), Some((Some(2), script())));
        assert_eq!(words_of("edd octets s c x t"), None);
    }

    #[test]
    fn a_reply_is_of_pairs_of_digits() {
        assert_eq!(words_of("edd octets s c --reply 00fE"), Some((None, None)));
        assert_eq!(words_of("edd octets s c --reply 0"), None);
    }
}
