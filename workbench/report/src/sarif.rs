//! One document of SARIF 2.1.0 over all sources.

mod document;
mod places;

use crate::{Diagnostic, Kind, Report, Severity};
use document::{Document, Driver, Invocation, Message, Notice, Outcome, Rule, Run, Tool};
use edd_explain::Explanation;
use edd_source::Source;
use places::{changes_of, first_location, related_locations};
use std::collections::HashMap;

const SCHEMA: &str = "https://json.schemastore.org/sarif-2.1.0.json";

/// The rules that occur, and the place of each by its id.
#[derive(Default)]
struct Rules {
    list: Vec<Rule>,
    places: HashMap<String, usize>,
}

/// What is wrong with sources as one document on one line.
///
/// # Errors
///
/// None is known: structs of strings and numbers can always be serialized.
pub fn sarif<'a, 's: 'a>(
    all: impl IntoIterator<Item = (&'a Source<'s>, &'a Report)>,
) -> serde_json::Result<String> {
    let mut rules = Rules::default();
    let (mut results, mut notices) = (Vec::new(), Vec::new());
    for (source, report) in all {
        notices.extend(notice_of(source, report));
        for diagnostic in &report.shown {
            results.push(outcome_of(source, diagnostic, &mut rules));
        }
    }
    let document = Document {
        schema: SCHEMA,
        version: "2.1.0",
        runs: [Run {
            tool: Tool {
                driver: Driver {
                    name: "edd",
                    rules: rules.list,
                },
            },
            column_kind: "unicodeCodePoints",
            invocations: [Invocation {
                execution_successful: true,
                tool_execution_notifications: notices,
            }],
            results,
        }],
    };
    Ok(serde_json::to_string(&document)? + "\n")
}

// How much of a source is not shown.
fn notice_of(source: &Source<'_>, report: &Report) -> Option<Notice> {
    (0 < report.more).then(|| Notice {
        level: "note",
        message: Message::new(format!("{}: {} more", source.name, report.more)),
    })
}

fn outcome_of(source: &Source<'_>, diagnostic: &Diagnostic, rules: &mut Rules) -> Outcome {
    let (rule_id, rule_index) = rules.of(&diagnostic.kind);
    Outcome {
        rule_index,
        rule_id,
        level: match diagnostic.severity() {
            Severity::Warning => "warning",
            Severity::Refused | Severity::Denied => "error",
        },
        message: message_of(diagnostic),
        locations: [first_location(source, diagnostic)],
        related_locations: related_locations(source, diagnostic),
        fixes: changes_of(source, diagnostic),
    }
}

// What is said, and a line for each help.
fn message_of(diagnostic: &Diagnostic) -> Message {
    let mut text = diagnostic.kind.to_string();
    for help in &diagnostic.helps {
        text.push_str(&format!("\nhelp: {}", help.advice));
    }
    Message::new(text)
}

impl Rules {
    // The id of a rule and its place, where it is added if it is not there.
    fn of(&mut self, kind: &Kind) -> (String, usize) {
        let (id, name, summary) = match kind {
            Kind::Refused(refusal) => {
                let number = refusal.number();
                let explanation = edd_explain::by_number(number.into());
                let summary = explanation.map(Explanation::summary);
                (number.to_string(), refusal.name(), summary)
            }
            Kind::Warned(warning) => {
                let lint = warning.lint();
                let summary = lint.summary().to_owned();
                (lint.name().to_owned(), lint.name(), Some(summary))
            }
        };
        if let Some(place) = self.places.get(&id) {
            return (id, *place);
        }
        let place = self.list.len();
        self.places.insert(id.clone(), place);
        self.list.push(Rule {
            id: id.clone(),
            name,
            short_description: Message::new(summary.unwrap_or_else(|| name.to_owned())),
            help: Message::new(format!("`edd explain {id}` says what it means")),
        });
        (id, place)
    }
}
