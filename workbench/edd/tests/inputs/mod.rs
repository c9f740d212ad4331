//! Gives tests their inputs.
#![allow(dead_code, reason = "each test uses a part of it")]

use proptest::strategy::Strategy;
use proptest::test_runner::{Config, RngAlgorithm, TestRng, TestRunner};

const SEED: &str = "EDD_SEED";

/// How many inputs are tried, where the environment says it.
const CASES: &str = "PROPTEST_CASES";

/// Without another one in the environment the same at each run, so that the gate says the same of the same code.
fn seed() -> u64 {
    let given = std::env::var(SEED);
    given.map_or(0, |number| number.parse().expect("EDD_SEED is a number"))
}

fn runner(seed: u64, config: Config) -> TestRunner {
    let config = Config {
        failure_persistence: None,
        ..config
    };
    let bytes = [seed.to_le_bytes(); 4].concat();
    TestRunner::new_with_rng(config, TestRng::from_seed(RngAlgorithm::ChaCha, &bytes))
}

/// Runs a test on inputs of a strategy. It panics with a small one on which the test does.
pub(crate) fn try_inputs<S: Strategy>(strategy: S, test: impl Fn(S::Value)) {
    run(Config::default(), strategy, test);
}

/// The same with so many inputs, where the environment says no other count.
pub(crate) fn try_many<S: Strategy>(cases: u32, strategy: S, test: impl Fn(S::Value)) {
    let config = if std::env::var_os(CASES).is_some() {
        Config::default()
    } else {
        Config::with_cases(cases)
    };
    run(config, strategy, test);
}

fn run<S: Strategy>(config: Config, strategy: S, test: impl Fn(S::Value)) {
    let seed = seed();
    let ran = runner(seed, config).run(&strategy, |input| {
        test(input);
        Ok(())
    });
    if let Err(failure) = ran {
        panic!("{failure}, with {SEED}={seed}");
    }
}
