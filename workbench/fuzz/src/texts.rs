//! What has to hold of each text.
use crate::counts::Counts;
use edd_check::{Checked, Levels};
use edd_compiler::compile;
use edd_loader::load;
use edd_plain_std::alloc::Global;
use edd_report::{Style, text as lines_of};

/// The image of a text, or its refusal; else what is wrong.
pub fn tried(text: &[u8], counts: &mut Counts) -> Result<Result<Vec<u8>, String>, String> {
    let made = compile(Global, text);
    let checked = Checked::of("s", text, &Levels::default());
    let is_refused = checked.report.is_refused;
    let lines = lines_of(&checked.source, &checked.report, Style::Plain);
    match made {
        Ok(image) => {
            counts.accepted += 1;
            if is_refused {
                return Err("check refuses what is compiled".into());
            }
            if let Err(fault) = load(Global, &image) {
                return Err(format!(
                    "an accepted text has an image that is refused: {fault}"
                ));
            }
            Ok(Ok(image.into_real()))
        }
        Err(fault) => {
            counts.refused_texts += 1;
            let first = lines.lines().next().unwrap_or_default();
            let Ok(refusal) = fault.refusal(Global, text) else {
                return Err("a refusal has no line".into());
            };
            let wanted = format!(": refused {refusal}");
            let is_said = is_refused && first.ends_with(&wanted);
            if is_said {
                Ok(Err(refusal.to_string()))
            } else {
                Err(format!("check says other than `refused {refusal}`"))
            }
        }
    }
}
