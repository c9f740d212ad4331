//! Which word is nearest to one that is misspelled, and which names are like one.

mod alike;
mod nearest;
mod parts;
mod typing;

pub(crate) use alike::names_alike;
pub(crate) use nearest::Nearest;

#[cfg(test)]
mod tests {
    use super::{Nearest, names_alike};

    /// A name, those that there are, and the one that is near.
    const NEAR: &[(&str, &[&str], Option<&str>)] = &[
        // A part is cut short.
        ("limit_hi", &["limit_low", "limit_high"], Some("limit_high")),
        (
            "pressure_in",
            &["pressure_input", "pressure_output"],
            Some("pressure_input"),
        ),
        // A letter is missing, or too much.
        (
            "limit_hgh",
            &["limit_low", "limit_high"],
            Some("limit_high"),
        ),
        ("unt", &["unit"], Some("unit")),
        ("summ", &["sum"], Some("sum")),
        (
            "GE_DEV_VAR_VALUE",
            &["GET_DEV_VAR_VALUE"],
            Some("GET_DEV_VAR_VALUE"),
        ),
        // Two are swapped.
        ("ragne", &["range"], Some("range")),
        // Words are joined in another way.
        ("limitHigh", &["limit_high"], Some("limit_high")),
        // What is chosen is no slip.
        ("upper", &["lower"], None),
        ("out_min", &["out_max"], None),
        ("in", &["on"], None),
        ("min", &["max"], None),
        ("limit_1", &["limit_2"], None),
        ("k", &["i"], None),
    ];

    #[test]
    fn a_name_is_near_by_a_slip_of_typing() {
        for (word, names, near) in NEAR {
            let mut nearest = Nearest::to(word);
            for name in *names {
                nearest.look(name);
            }
            assert_eq!(nearest.alone(), *near, "{word} among {names:?}");
        }
    }

    #[test]
    fn two_that_are_as_near_are_both_found() {
        let mut nearest = Nearest::to("level_hig");
        nearest.look("level_high");
        nearest.look("level_hi");
        assert_eq!(
            (nearest.found, nearest.other),
            (Some("level_high"), Some("level_hi"))
        );
    }

    #[test]
    fn names_are_alike_by_a_word_that_says_what_is_named() {
        let names = ["limit_low", "limit_high", "limits", "speed", "low_flow"];
        let alike = |name| names_alike(name, names.into_iter());
        assert_eq!(alike("upper_limit"), ["limit_low", "limit_high", "limits"]);
        assert_eq!(alike("speeds"), ["speed"]);
        // A word as `low` says which one, and nothing of what; and four say nothing.
        assert!(alike("very_low").is_empty());
        let many = ["limit_a", "limit_b", "limit_c", "limit_d"];
        assert!(names_alike("limit", many.into_iter()).is_empty());
    }
}
