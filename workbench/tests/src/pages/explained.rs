//! The examples of explanations, tried by the compiler.

use edd_explain::Explanation;
use edd_plain_std::alloc::Global;

const IDENTIFICATION: &str = "MANUFACTURER 1, DEVICE_TYPE 2, DEVICE_REVISION 3, DD_REVISION 4\n";

/// The greatest number that a source is refused with.
const LAST_OF_SOURCES: u32 = 99;

/// What an example does that its explanation does not say.
#[derive(Debug, Clone, PartialEq, Eq, thiserror::Error)]
pub enum ExampleFault {
    #[error("the wrong example is compiled")]
    Compiled,
    #[error("the wrong example is refused with {0}")]
    OtherRefusal(String),
    #[error("the right example is refused with {0}")]
    Refused(String),
}

/// An example of an explanation.
#[derive(Debug, Clone, PartialEq, Eq)]
pub struct Example {
    source: String,
    is_wrong: bool,
}

/// The examples of what refuses a source: a wrong one and a right one, where they are there.
pub fn list_examples(explanation: &Explanation) -> Vec<Example> {
    if explanation.number > LAST_OF_SOURCES {
        return Vec::new();
    }
    [(explanation.wrong, true), (explanation.right, false)]
        .into_iter()
        .filter_map(|(example, is_wrong)| {
            let code = example.filter(|it| it.setting.is_none())?.code;
            let source = format!("{IDENTIFICATION}{code}\n");
            Some(Example { source, is_wrong })
        })
        .collect()
}

/// Compiles an example: a wrong one is refused with the number and the name of its explanation, a right one is compiled.
pub fn try_example(explanation: &Explanation, example: &Example) -> Result<(), ExampleFault> {
    let refusal = edd_compiler::compile(Global, example.source.as_bytes())
        .err()
        .map(|fault| fault.to_string());
    let Some(refusal) = refusal else {
        return if example.is_wrong {
            Err(ExampleFault::Compiled)
        } else {
            Ok(())
        };
    };
    let begins = format!("{} {} ", explanation.number, explanation.name);
    match example.is_wrong {
        true if format!("{refusal} ").starts_with(&begins) => Ok(()),
        true => Err(ExampleFault::OtherRefusal(refusal)),
        false => Err(ExampleFault::Refused(refusal)),
    }
}

#[cfg(test)]
mod tests {
    use super::*;

    fn faults_of(
        name: &'static str,
        wrong: &'static str,
        right: &'static str,
    ) -> Vec<Result<(), ExampleFault>> {
        let example = |code| {
            let setting = None;
            Some(edd_explain::Example { setting, code })
        };
        let explanation = Explanation {
            number: 10,
            name,
            meaning: "It is a test.",
            wrong: example(wrong),
            right: example(right),
        };
        list_examples(&explanation)
            .iter()
            .map(|example| try_example(&explanation, example))
            .collect()
    }

    #[test]
    fn examples_do_what_is_said() {
        assert_eq!(faults_of("SYNTAX", "VARIABLE", ""), [Ok(()), Ok(())]);
        let faults = faults_of("OTHER", "VARIABLE", "VARIABLE");
        assert!(matches!(
            faults.as_slice(),
            [
                Err(ExampleFault::OtherRefusal(_)),
                Err(ExampleFault::Refused(_))
            ]
        ));
        assert_eq!(
            faults_of("SYNTAX", "", ""),
            [Err(ExampleFault::Compiled), Ok(())]
        );
    }
}
