//! docs/OCTETS.md works transactions out, and rows run them: both have the same sources, commands and
//! lines.

#![allow(clippy::expect_used, reason = "a test fails by a panic")]

use edd_tests::rows::{Row, parse_rows};

const PAGE: &str = include_str!("../../../docs/OCTETS.md");
const ROWS: &str = include_str!("../tables/rows/octets");

/// What the names of the rows of the page begin with.
const OF_PAGE: &str = "OCTETS ";

/// How many transactions are worked out.
const TRANSACTIONS: usize = 10;

/// A text as a block of the page.
fn block(text: &str) -> String {
    let lines = text.lines().map(|line| format!("    {line}\n"));
    lines.collect()
}

fn source_of<'r>(row: &'r Row<'_>) -> &'r str {
    let source = row.files.first().expect("a source");
    let text = std::str::from_utf8(&source.bytes).expect("text");
    let (head, text) = text.split_once('\n').expect("lines");
    assert!(PAGE.contains(&block(head)), "{}: the first line", row.name);
    text
}

/// The part of the page for a transaction.
fn part_of(row: &Row<'_>) -> &'static str {
    let name = row.name.strip_prefix(OF_PAGE).expect("a name");
    let (number, _) = name.split_once(':').expect("a number");
    let heading = format!("\n### {number} ");
    let (_, part) = PAGE.split_once(&heading).expect("a heading");
    part.split("\n#").next().expect("a part")
}

#[test]
fn each_row_is_on_the_page() {
    let mut sources = Vec::new();
    let mut count = 0usize;
    for row in parse_rows(ROWS) {
        let row = row.expect("a row");
        if !row.name.starts_with(OF_PAGE) {
            continue;
        }
        count = count.saturating_add(1);
        let part = part_of(&row);
        let source = block(source_of(&row));
        assert!(part.contains(&source), "{}: its source", row.name);
        let printed = format!("`{}` prints\n\n{}", row.command, block(&row.lines));
        assert!(part.contains(&printed), "{}: its lines", row.name);
        sources.push(source);
    }
    assert_eq!(PAGE.matches("` prints\n").count(), count);
    sources.dedup();
    assert_eq!(sources.len(), TRANSACTIONS);
}
