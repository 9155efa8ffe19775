//! Colours, where a terminal has them: neither in a file nor in a pipe, nor where NO_COLOR is set or TERM is dumb.
use std::io::IsTerminal;

const BOLD: &str = "\x1b[1m";
const RED: &str = "\x1b[1;31m";
const YELLOW: &str = "\x1b[33m";
const GREEN: &str = "\x1b[32m";
const PLAIN: &str = "\x1b[0m";

/// What a line's words stand for.
const WORDS: [(&str, &str); 14] = [
    ("may end apart", YELLOW),
    ("two phones that end apart, found", RED),
    ("the first behaviour that differs", YELLOW),
    ("proved equal", GREEN),
    ("may differ:", YELLOW),
    (", as expected", GREEN),
    (", expected", RED),
    ("is refused", RED),
    ("breaks in", YELLOW),
    ("may leak", YELLOW),
    ("warnings", YELLOW),
    ("warning:", YELLOW),
    ("agree:", GREEN),
    (": accepted", GREEN),
];

/// Whether a stream shows colours.
pub fn wanted(stream: &impl IsTerminal) -> bool {
    let set = |name: &str| std::env::var_os(name).filter(|value| !value.is_empty());
    stream.is_terminal() && set("NO_COLOR").is_none() && set("TERM").is_some_and(|term| term != "dumb")
}

fn line(line: &str) -> String {
    if line.ends_with('^') && line.trim() == "^" {
        return format!("{RED}{line}{PLAIN}");
    }
    if let Some((word, colour)) = WORDS.iter().find(|(word, _)| line.contains(word)) {
        return line.replacen(word, &format!("{colour}{word}{PLAIN}"), 1);
    }
    match line.split_once(": ") {
        Some((place, rest)) if !line.starts_with(' ') => format!("{BOLD}{place}:{PLAIN} {rest}"),
        _ => line.to_string(),
    }
}

/// A text with colours.
pub fn painted(text: &str) -> String {
    text.split('\n').map(line).collect::<Vec<_>>().join("\n")
}

#[cfg(test)]
mod tests {
    use super::*;

    #[test]
    fn lines() {
        assert_eq!(
            painted("a.sheet:1:2: due\n  x\n  ^"),
            format!("{BOLD}a.sheet:1:2:{PLAIN} due\n  x\n{RED}  ^{PLAIN}")
        );
        assert_eq!(painted("  phones  agree: all\n"), format!("  phones  {GREEN}agree:{PLAIN} all\n"));
    }
}
