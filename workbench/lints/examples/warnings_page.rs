//! Prints docs/WARNINGS.md.

fn main() {
    print!("{}", edd_lints::page());
}
