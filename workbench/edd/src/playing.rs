//! Methods that run under answers that are all known beforehand.

use crate::memory::Global;
use crate::{Answer, Image, PlayFault, Values};
use edd_instructions::Request;
use edd_port::Ending;
use edd_syntax::numbers::MethNo;

/// What a method did.
#[derive(Clone, Debug, PartialEq, Eq)]
pub struct Transcript {
    /// The requests in order. The last one has no answer where the ending is [`Ending::Waiting`].
    pub requests: Vec<Request>,
    /// The values as the method left them.
    pub values: Values,
    /// How it ended.
    pub ending: Ending,
}

impl Transcript {
    pub(crate) fn from_core(image: &Image, transcript: edd_port::Transcript) -> Transcript {
        Transcript {
            requests: transcript.requests.into_real(),
            values: Values::from_core(image, transcript.values),
            ending: transcript.ending,
        }
    }
}

/// Runs a method from its start for at most so many instructions, and meets its requests by the
/// answers, one after the other. Answers that are left over are ignored.
///
/// # Errors
///
/// The values are those of another image, the method is not started, or an answer sets what cannot
/// be set.
///
/// ```
/// use edd::{Answer, Ending, ItemNo, Request, play};
///
/// let image = edd::compile(
///     b"MANUFACTURER 1, DEVICE_TYPE 2, DEVICE_REVISION 3, DD_REVISION 4
///       METHOD twice { DEFINITION { send_command(1); send_command(2); } }",
/// )?;
/// let Some(ItemNo::Method(twice)) = image.find("twice") else { panic!("a method") };
/// let done = play(&image, twice, image.values(), &[Answer::code(0)], 1000)?;
/// assert_eq!(done.requests, [Request::SendCommand(1), Request::SendCommand(2)]);
/// assert_eq!(done.ending, Ending::Waiting);
/// # Ok::<(), Box<dyn std::error::Error>>(())
/// ```
pub fn play(
    image: &Image,
    method: MethNo,
    values: Values,
    answers: &[Answer],
    steps: u64,
) -> Result<Transcript, PlayFault> {
    if !values.are_of(image) {
        return Err(PlayFault::WrongValues);
    }
    let answers = Answer::all_to_core(answers);
    let values = values.into_core();
    match edd_port::play(Global, &image.reopen(), method, values, &answers, steps) {
        Ok(transcript) => Ok(Transcript::from_core(image, transcript)),
        Err(fault) => Err(PlayFault::from_core(fault)),
    }
}
