//! Methods and scripts of all sorts.

use proptest::collection::vec;
use proptest::prelude::*;
use proptest::sample::select;
use proptest::test_runner::{Config, RngAlgorithm, TestRng, TestRunner};

const SEED: &str = "EDD_SEED";

/// A description with a method `m`, and a script for it.
#[derive(Clone, Debug)]
pub(crate) struct Input {
    pub(crate) source: String,
    pub(crate) script: String,
}

/// Runs a test on inputs. Without another seed in the environment they are the same at each run.
pub(crate) fn try_inputs(test: impl Fn(Input)) {
    let seed = std::env::var(SEED).map_or(0, |number| number.parse().expect("a number"));
    let config = Config {
        failure_persistence: None,
        ..Config::with_cases(500)
    };
    let bytes = u64::to_le_bytes(seed).repeat(4);
    let random = TestRng::from_seed(RngAlgorithm::ChaCha, &bytes);
    let ran = TestRunner::new_with_rng(config, random).run(&input(), |input| {
        test(input);
        Ok(())
    });
    if let Err(failure) = ran {
        panic!("{failure}, with {SEED}={seed}");
    }
}

fn place() -> impl Strategy<Value = &'static str> {
    select(vec!["x", "y", "i", "j"])
}

fn expression() -> impl Strategy<Value = String> {
    let operators = vec![
        "+", "-", "*", "/", "%", "<<", ">>", "&", "|", "^", "==", "<", "&&", "||",
    ];
    let changes = vec!["=", "+=", "-=", "/=", "%=", "<<=", ">>=", "&="];
    let leaf = prop_oneof![
        select(vec!["0", "1", "2", "40", "2147483647"]).prop_map(String::from),
        place().prop_map(String::from),
        place().prop_map(|to| format!("{to}++")),
        place().prop_map(|to| format!("--{to}")),
    ];
    leaf.prop_recursive(4, 16, 3, move |inner| {
        prop_oneof![
            (inner.clone(), select(operators.clone()), inner.clone())
                .prop_map(|(left, operator, right)| format!("({left} {operator} {right})")),
            (place(), select(changes.clone()), inner.clone())
                .prop_map(|(to, change, value)| format!("({to} {change} {value})")),
            (select(vec!["-", "!", "~"]), inner.clone())
                .prop_map(|(operator, operand)| format!("{operator}({operand})")),
            (inner.clone(), inner.clone(), inner.clone())
                .prop_map(|(test, first, second)| format!("({test} ? {first} : {second})")),
            inner.clone().prop_map(|index| format!("a[{index}]")),
            inner.prop_map(|number| format!("send_command({number})")),
        ]
    })
}

fn simple_statement() -> impl Strategy<Value = String> {
    prop_oneof![
        4 => expression().prop_map(|value| format!("{value};")),
        2 => (place(), expression()).prop_map(|(to, value)| format!("{to} = {value};")),
        1 => expression().prop_map(|value| format!("iassign(x, {value});")),
        3 => select(vec![
            "PUT_MESSAGE(\"x = y / 2\");",
            "GET_DEV_VAR_VALUE(\"a value\", y);",
            "add_abort_method(b);",
            "abort();",
            "process_abort();",
            "/* x = 1; */ ;",
        ])
        .prop_map(String::from),
    ]
}

fn statement() -> impl Strategy<Value = String> {
    simple_statement().prop_recursive(3, 12, 3, |inner| {
        prop_oneof![
            (expression(), inner.clone(), inner.clone())
                .prop_map(|(test, first, second)| format!("if ({test}) {first} else {second}")),
            (expression(), inner.clone())
                .prop_map(|(e, body)| format!("for (i = 0; i < 3; x = (i += 1) + {e}) {body}")),
            (inner.clone(), expression())
                .prop_map(|(body, test)| format!("do {body} while (j++ < 3 && {test});")),
            (expression(), inner.clone(), inner.clone()).prop_map(|(on, first, second)| format!(
                "switch ({on}) {{ case -1: case 1: {first} break; default: {second} }}"
            )),
            vec(inner, 0..3).prop_map(|parts| format!("{{ int i = x; {} }}", parts.join("\n"))),
        ]
    })
}

fn answer() -> impl Strategy<Value = String> {
    prop_oneof![
        6 => (-2..3i32, vec((select(vec!["x", "y"]), -3..9i32), 0..4)).prop_map(|(code, sets)| {
            let sets = sets.iter().map(|(variable, number)| format!(" {variable}={number}"));
            format!("answer {code}{}\n", sets.collect::<String>())
        }),
        1 => Just("abort\n".to_owned()),
    ]
}

fn input() -> impl Strategy<Value = Input> {
    let bodies = (vec(statement(), 1..8), vec(statement(), 1..4));
    (bodies, vec(answer(), 0..9)).prop_map(|((body, of_abort), answers)| Input {
        source: format!(
            "MANUFACTURER 1, DEVICE_TYPE 2, DEVICE_REVISION 3, DD_REVISION 4
VARIABLE x {{ TYPE INTEGER (2); }}
VARIABLE y {{ TYPE INTEGER; }}
ARRAY OF VARIABLE a {{ ELEMENTS {{ 0, x; 1, y; }} }}
METHOD b {{ LABEL \"x = 1\"; DEFINITION {{ int i, j; {} }} }}
METHOD m {{ DEFINITION {{ int i = 1, j; {} }} }}
",
            of_abort.join("\n"),
            body.join("\n")
        ),
        script: answers.concat(),
    })
}
