//! The page of bytes, docs/BYTES.md: its worked sheet byte by byte, the boards it names, and what it says is printed,
//! held against the desk program; its formulas and their fields.
use crate::desk::{arrive, play, sheet, show, steps};
use crate::formula;
use crate::proved::{self, ROUND, TABLE};

/// A section of the page, without its heading.
fn section<'a>(page: &'a str, heading: &str) -> &'a str {
    let (_, after) =
        page.split_once(&format!("\n## {heading}\n")).unwrap_or_else(|| panic!("the page has no section '{heading}'"));
    after.split("\n## ").next().unwrap()
}

/// A section's indented lines, without their four spaces.
fn example(section: &str) -> Vec<&str> {
    section.lines().filter_map(|l| l.strip_prefix("    ")).collect()
}

/// The bytes of a line: hexadecimal digits in groups, up to two spaces and what they mean.
fn bytes_of(line: &str) -> Vec<u8> {
    let digits: String = line.trim_start().split("  ").next().unwrap().replace(' ', "");
    (0..digits.len() / 2)
        .map(|k| u8::from_str_radix(&digits[2 * k..2 * k + 2], 16).expect("a byte of the worked sheet"))
        .collect()
}

/// The pairs in brackets that a section's text names, each as the desk program shows a board.
fn boards(section: &str) -> Vec<String> {
    let text = section.lines().filter(|l| !l.starts_with("    ")).collect::<Vec<_>>().join(" ");
    text.split('(').skip(1).map(|p| format!("B {}\n", p.split(')').next().unwrap().replace(", ", " "))).collect()
}

/// The sheet with a parameter: its bytes, what the desk program prints, and the pairs of a parameter and b0 after three
/// events.
fn parameters(section: &str, program: &str) {
    let bytes: Vec<u8> = example(section).iter().flat_map(|l| bytes_of(l)).collect();
    assert!(
        section.contains(&format!("These are {} bytes.", bytes.len())),
        "the sheet with a parameter has {} bytes",
        bytes.len()
    );
    let printed = play(program, &sheet(&bytes));
    assert!(section.contains(&format!("it prints {}.", printed.trim())), "the sheet with a parameter prints {printed}");
    let pairs = boards(section);
    assert_eq!(pairs.len(), 3, "pairs of a parameter and b0");
    for pair in pairs {
        let numbers: Vec<i32> =
            pair.split_whitespace().skip(1).map(|n| n.parse().expect("a number of the page")).collect();
        let mut params = [0u8; 32];
        params[..4].copy_from_slice(&numbers[0].to_be_bytes());
        let (mut table, mut round) = (vec![0u8; TABLE], vec![0u8; ROUND]);
        assert_eq!(proved::compile(&bytes, &params, &mut table), 0, "the sheet with a parameter");
        proved::start(&table, &mut round);
        (0..3).for_each(|_| assert_eq!(proved::arrive(&table, &mut round, 0, 0), 0));
        while proved::step(&table, &mut round) != 0 {}
        assert_eq!(proved::board(&table, &round, 0, 0) as i32, numbers[1], "b0 with parameter {}", numbers[0]);
    }
}

/// The sheet with rows: its bytes, and the boards after event 0 and event 1.
fn rows(section: &str, program: &str) {
    let bytes: Vec<u8> = example(section).iter().flat_map(|l| bytes_of(l)).collect();
    assert!(
        section.contains(&format!("These are {} bytes.", bytes.len())),
        "the sheet with rows has {} bytes",
        bytes.len()
    );
    let boards: Vec<String> = boards(section).into_iter().filter(|b| b.matches(' ').count() == 6).collect();
    assert_eq!(boards.len(), 2, "boards of the sheet with rows");
    let script = [sheet(&bytes), arrive(0), steps(60), show(), arrive(1), steps(60), show()].concat();
    assert_eq!(
        play(program, &script),
        format!("C 0 0\n{}C 1 1\n{}", boards[0], boards[1]),
        "the boards of the sheet with rows"
    );
}

/// A section's indented lines, block by block.
fn examples(section: &str) -> Vec<Vec<&str>> {
    let mut blocks = vec![Vec::new()];
    for line in section.lines() {
        match line.strip_prefix("    ") {
            Some(text) => blocks.last_mut().unwrap().push(text),
            None if !blocks.last().unwrap().is_empty() => blocks.push(Vec::new()),
            None => {}
        }
    }
    blocks.retain(|b| !b.is_empty());
    blocks
}

/// The final on which phones differ and the one on which they agree: what `agree` answers, and the boards of both ways
/// of stepping two hits and a time-up, as the page names them.
fn agreement(section: &str, program: &str) {
    let sheets: Vec<Vec<u8>> = examples(section).iter().map(|b| b.iter().flat_map(|l| bytes_of(l)).collect()).collect();
    assert_eq!(sheets.len(), 2, "a bad final and a good one");
    as_text("final", &sheets[0]);
    as_text("good-final", &sheets[1]);
    assert_eq!(proved::agree(&sheets[0], &[]), 29 + (1 << 16), "the bad final: events 0 and 1 share b0");
    assert_eq!(proved::agree(&sheets[1], &[]), 0, "the good final");
    let boards = boards(section);
    assert_eq!(boards.len(), 3, "the bad final's two boards and the good one's");
    let at_once = |s: &[u8]| [sheet(s), arrive(0), arrive(0), arrive(1), steps(200), show()].concat();
    let one_by_one =
        |s: &[u8]| [sheet(s), [arrive(0), steps(60)].concat().repeat(2), arrive(1), steps(60), show()].concat();
    let ends =
        |script: Vec<u8>, board: &str| assert!(play(program, &script).ends_with(board), "a final ends with {board}");
    ends(at_once(&sheets[0]), &boards[0]);
    ends(one_by_one(&sheets[0]), &boards[1]);
    ends(at_once(&sheets[1]), &boards[2]);
    ends(one_by_one(&sheets[1]), &boards[2]);
}

/// An example's text has the bytes that the page writes out.
fn as_text(name: &str, bytes: &[u8]) {
    let text = std::fs::read(format!("examples/{name}.sheet")).expect("an example, from the repository's root");
    let read = sheet_text::assemble(&text).unwrap_or_else(|fault| panic!("examples/{name}.sheet:{fault}"));
    assert!(read.sheet == bytes, "examples/{name}.sheet has the page's bytes");
}

pub fn run(page: &str, program: &str, input: &str) {
    let page = std::fs::read_to_string(page).expect("the page");
    let input = std::fs::read(input).expect("the desk program's example");
    let worked = section(&page, "A worked sheet");
    let bytes: Vec<u8> = example(worked).iter().flat_map(|l| bytes_of(l)).collect();
    assert!(
        worked.contains(&format!("These are {} bytes.", bytes.len())),
        "the worked sheet has {} bytes",
        bytes.len()
    );
    as_text("s", &bytes);
    let text = example(section(&page, "Written as text")).join("\n");
    assert_eq!(
        sheet_text::assemble(text.as_bytes()).map(|read| read.sheet),
        Ok(bytes.clone()),
        "the worked sheet as text"
    );
    assert_eq!(
        [sheet(&bytes), arrive(0), steps(18), show()].concat(),
        input,
        "the example's sheet, arrival, 18 steps and show"
    );

    let boards = boards(worked);
    assert_eq!(boards.len(), 3, "boards after event 0 once, twice, three times");
    let script = [sheet(&bytes), [arrive(0), steps(60), show()].concat().repeat(3)].concat();
    let want: String = boards.iter().enumerate().map(|(k, b)| format!("C {k} 0\n{b}")).collect();
    assert_eq!(play(program, &script), want, "the boards of the worked sheet");

    let printed: String = example(section(&page, "Playing it")).iter().map(|l| format!("{l}\n")).collect();
    assert_eq!(play(program, &input), printed, "what the page says is printed");
    parameters(section(&page, "Easy and hard from one sheet"), program);
    rows(section(&page, "Rows"), program);
    agreement(section(&page, "A sheet on which phones agree"), program);
    let formulas = example(section(&page, "Formulas"));
    assert!(!formulas.is_empty(), "formulas with their fields");
    formulas.iter().for_each(|l| formula::example(l));
    println!(
        "page: the worked sheet, its boards, what the desk program prints, the sheet with a parameter, the sheet with \
         rows, the finals, {} formulas",
        formulas.len()
    );
}
