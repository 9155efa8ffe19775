//! docs/SHEETS.md, "Sheets as text": its example with the bytes that it names, the way back, its tables of kinds and of
//! faults.
mod held;

use held::{assemble, describe};
use sheet_text::{Kind, TEXT};

fn page() -> String {
    let path = concat!(env!("CARGO_MANIFEST_DIR"), "/../../../docs/SHEETS.md");
    std::fs::read_to_string(path).unwrap_or_else(|e| panic!("{path}: {e}"))
}

/// A section without its heading.
fn section<'a>(page: &'a str, heading: &str) -> &'a str {
    let (_, after) = page.split_once(&format!("\n### {heading}\n")).unwrap_or_else(|| panic!("no section {heading}"));
    after.split("\n##").next().unwrap_or("")
}

/// A section's indented lines, with the empty ones between them.
fn example(section: &str) -> String {
    let lines: Vec<&str> = section.lines().collect();
    let indented = |l: &&str| l.starts_with("    ");
    let from = lines.iter().position(indented).expect("an example");
    let to = lines.iter().rposition(indented).expect("an example");
    lines[from..=to].iter().map(|l| l.strip_prefix("    ").unwrap_or("").to_string() + "\n").collect()
}

/// The cells of a section's tables, row by row, but for headings and lines.
fn rows(section: &str) -> Vec<Vec<String>> {
    let inner = |l: &str| l.strip_prefix("| ").and_then(|l| l.strip_suffix(" |")).map(str::to_string);
    // ` | ` divides cells; a text in backquotes has none
    let cells = |l: String| l.split(" | ").map(str::to_string).collect::<Vec<_>>();
    section.lines().filter_map(inner).map(cells).filter(|c| c[0] != "number" && c[0] != "text").collect()
}

#[test]
fn example_and_back() {
    let page = page();
    let text = example(section(&page, "An example"));
    let read = assemble(text.as_bytes()).unwrap_or_else(|fault| panic!("the page's example: {fault}"));
    let says = format!("These are {} bytes.", read.sheet.len());
    assert!(section(&page, "An example").contains(&says), "the page should say: {says}");
    assert_eq!(describe(&read.sheet), Ok(example(section(&page, "Back to text"))));
}

#[test]
fn kinds_and_faults() {
    let page = page();
    let rows = rows(section(&page, "Faults: kind, line and column"));
    let (kinds, faults): (Vec<_>, Vec<_>) = rows.into_iter().partition(|cells| cells.len() == 4);
    let named: Vec<_> = kinds.iter().map(|c| (c[0].clone(), c[1].clone())).collect();
    let known: Vec<_> = Kind::ALL.iter().map(|k| (k.number().to_string(), k.word().to_string())).collect();
    assert_eq!(named, known, "the page's kinds");
    assert!(faults.len() > 10, "the page's faults");
    for cells in faults {
        let text = cells[0].trim_matches('`');
        let fault = assemble(text.as_bytes()).expect_err(text);
        let found = [fault.kind.number().to_string(), format!("{}:{}", fault.place.line, fault.place.column)];
        assert_eq!(found[..], cells[1..], "{text}");
    }
    // every kind that one short text can have is among them
    let whole = [Kind::LongText, Kind::Crowded, Kind::LongSheet, Kind::ShortBuffer];
    for kind in Kind::ALL.iter().filter(|k| !whole.contains(k)) {
        assert!(page.contains(&format!("` | {} | 1:", kind.number())), "a text with a fault of kind {kind:?}");
    }
    assert!(page.contains("65,536") && TEXT == 65_536);
}
