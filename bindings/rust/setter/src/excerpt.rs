//! A line of a text as it can be shown, whatever bytes it has, with a mark under one of them.

/// So wide a line is shown whole; of a wider one so much is shown on either side of the mark.
const WHOLE: usize = 200;
const SIDE: usize = 50;
const CUT: &str = "..";

/// What is shown for some bytes of the line.
struct Cell {
    /// Where they begin.
    at: usize,
    shown: String,
    /// Columns on the screen.
    width: usize,
}

/// Letters that are two columns wide on a screen.
fn wide(c: char) -> bool {
    let spans = [0x1100..=0x115F, 0x2E80..=0xA4CF, 0xAC00..=0xD7A3, 0xF900..=0xFAFF, 0xFE30..=0xFE6F, 0xFF00..=0xFF60];
    let more = [0xFFE0..=0xFFE6, 0x1F300..=0x1FAFF, 0x20000..=0x3FFFD];
    spans.iter().chain(&more).any(|span| span.contains(&(c as u32)))
}

/// A letter as it is; what cannot be seen, or would move what follows, by its number.
fn letter(at: usize, c: char) -> Cell {
    let shown = match c {
        '\t' | ' '..='~' => c.to_string(),
        c if c.is_ascii() => format!("\\x{:02x}", c as u32),
        c => c.escape_debug().to_string(),
    };
    let width = if shown.len() == c.len_utf8() && wide(c) { 2 } else { shown.chars().count() };
    Cell { at, shown, width }
}

/// The whole line; bytes that are no UTF-8 by their numbers.
fn cells(line: &[u8]) -> Vec<Cell> {
    let mut cells = vec![];
    let mut at = 0;
    for chunk in line.utf8_chunks() {
        for (k, c) in chunk.valid().char_indices() {
            cells.push(letter(at + k, c));
        }
        at += chunk.valid().len();
        for byte in chunk.invalid() {
            cells.push(Cell { at, shown: format!("\\x{byte:02x}"), width: 4 });
            at += 1;
        }
    }
    cells
}

/// From which cell on, and up to which, a line is shown around one of them.
fn window(cells: &[Cell], mark: usize) -> (usize, usize) {
    let width = |part: &[Cell]| part.iter().map(|cell| cell.width).sum::<usize>();
    if width(cells) <= WHOLE {
        return (0, cells.len());
    }
    let mut from = mark;
    while from > 0 && width(&cells[from - 1..mark]) <= SIDE {
        from -= 1;
    }
    let mut to = mark;
    while to < cells.len() && width(&cells[mark..to + 1]) <= SIDE {
        to += 1;
    }
    (from, to)
}

/// A line, or what stands around its byte at this place, and a line with a mark under that byte. The place may be the
/// line's end.
pub fn marked(line: &[u8], place: usize) -> [String; 2] {
    let line = line.trim_ascii_end();
    let cells = cells(line);
    let mark = cells.iter().take_while(|cell| cell.at < place).count();
    // within a letter: under it
    let mark = if cells.get(mark).map_or(line.len(), |cell| cell.at) > place { mark - 1 } else { mark };
    // behind the spaces that end the line
    let behind = place.saturating_sub(line.len());
    let (from, to) = window(&cells, mark);
    let cut = |is: bool| if is { CUT } else { "" };
    let text: String = cells[from..to].iter().map(|cell| cell.shown.as_str()).collect();
    let shown = [cut(from > 0), &text, cut(to < cells.len())].concat();
    let blank = |cell: &Cell| if cell.shown == "\t" { "\t".to_string() } else { " ".repeat(cell.width) };
    let under: String = cells[from..mark].iter().map(blank).collect();
    [shown, format!("{}{under}{}^", " ".repeat(cut(from > 0).len()), " ".repeat(behind))]
}

#[cfg(test)]
mod tests {
    use super::*;

    fn check(line: &[u8], place: usize, shown: &str, under: &str) {
        assert_eq!(marked(line, place), [shown.to_string(), under.to_string()]);
    }

    #[test]
    fn lines_of_any_bytes() {
        check(b"  on hit: scor + 1", 10, "  on hit: scor + 1", "          ^");
        check("  on hit: scor + 1  # \u{e4}".as_bytes(), 10, "  on hit: scor + 1  # \u{e4}", "          ^");
        check("gr\u{f6}\u{df}e".as_bytes(), 2, "gr\u{f6}\u{df}e", "  ^");
        check("gr\u{f6}\u{df}e".as_bytes(), 6, "gr\u{f6}\u{df}e", "    ^");
        check(b"\ta\xff\0b", 4, "\ta\\xff\\x00b", "\t         ^");
        check("\u{feff}event".as_bytes(), 0, "\\u{feff}event", "^");
        check("a\u{a0}b".as_bytes(), 1, "a\\u{a0}b", " ^");
        check("\u{732b}x".as_bytes(), 3, "\u{732b}x", "  ^");
        check(b"", 0, "", "^");
        check(b"event  \r", 7, "event", "       ^");
        // a place within a letter's bytes
        check("\u{e4}x".as_bytes(), 1, "\u{e4}x", "^");
    }

    #[test]
    fn long_lines() {
        let line = [b'a'; 1000];
        let side = "a".repeat(SIDE);
        for place in [0, 3, 500, 999, 1000] {
            let [shown, under] = marked(&line, place);
            assert!(shown.len() <= 2 * (SIDE + CUT.len()) && shown.contains(&side), "{place}: {shown}");
            assert_eq!(shown.starts_with(CUT), place > SIDE, "{place}");
            assert_eq!(shown.ends_with(CUT), place < 1000 - SIDE, "{place}");
            let before = place.min(SIDE) + if place > SIDE { CUT.len() } else { 0 };
            assert_eq!(under, format!("{}^", " ".repeat(before)), "{place}");
        }
    }

    /// Any bytes, any place: one line each, and the mark within reach of what is shown.
    #[test]
    fn anything() {
        let mut state = 1u64;
        let mut draw = |n: usize| {
            state = state.wrapping_mul(6364136223846793005).wrapping_add(1442695040888963407);
            (state >> 33) as usize % n
        };
        for _ in 0..2_000 {
            let length = draw(400);
            let line: Vec<u8> =
                (0..length).map(|_| draw(256) as u8).map(|b| if b == b'\n' { b' ' } else { b }).collect();
            let [shown, under] = marked(&line, draw(length + 1));
            assert!(!shown.contains(['\n', '\r', '\u{1b}']) && under.ends_with('^'));
        }
    }
}
