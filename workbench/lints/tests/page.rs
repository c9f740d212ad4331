//! docs/WARNINGS.md is what the table of the lints says.

use std::fs;
use std::path::Path;

#[test]
fn the_page_is_made_of_the_table() {
    let docs = Path::new(env!("CARGO_MANIFEST_DIR")).join("../../docs");
    // A release has the packages alone.
    if docs.is_dir() {
        let page = fs::read_to_string(docs.join("WARNINGS.md")).expect("the page is there");
        assert_eq!(
            page,
            edd_lints::page(),
            "print it anew by the example warnings_page"
        );
    }
}
