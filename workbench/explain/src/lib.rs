//! What each refusal of `edd` means, with a wrong and a right example.
//!
//! ```
//! let explanation = edd_explain::by_number(32).ok_or("no explanation")?;
//! assert_eq!(explanation.name, "BAD_SIZE");
//! assert!(explanation.to_string().contains("\nWrong:\n\n    "));
//! # Ok::<(), &str>(())
//! ```

mod explanation;
mod families;

pub use explanation::{Example, Explanation};
use families::FAMILIES;

/// All explanations, by their numbers.
pub fn all() -> Vec<&'static Explanation> {
    let mut all: Vec<_> = in_families().collect();
    all.sort_by_key(|explanation| explanation.number);
    all
}

/// The explanation of a number, or none where nothing is refused with it.
pub fn by_number(number: u32) -> Option<&'static Explanation> {
    in_families().find(|explanation| explanation.number == number)
}

/// The explanation of a name in any case, or none where no refusal has it.
pub fn by_name(name: &str) -> Option<&'static Explanation> {
    in_families().find(|explanation| explanation.name.eq_ignore_ascii_case(name))
}

fn in_families() -> impl Iterator<Item = &'static Explanation> {
    FAMILIES.iter().copied().flatten()
}

#[cfg(test)]
mod tests {
    use super::*;
    use std::collections::HashSet;

    #[test]
    fn numbers_and_names_are_each_of_one_refusal() {
        let all = all();
        let numbers: HashSet<_> = all.iter().map(|it| it.number).collect();
        let names: HashSet<_> = all.iter().map(|it| it.name).collect();
        assert_eq!((numbers.len(), names.len()), (all.len(), all.len()));
    }

    #[test]
    fn an_explanation_is_found_by_its_number_and_by_its_name() {
        for explanation in all() {
            assert_eq!(by_number(explanation.number), Some(explanation));
            assert_eq!(by_name(explanation.name), Some(explanation));
        }
        assert_eq!((by_number(0), by_name("BADSIZE")), (None, None));
        assert_eq!(by_name("bad_Size"), by_number(32));
    }
}
