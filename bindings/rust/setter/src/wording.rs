//! Numbers and lists as a reader likes them.
use poqashem::{Player, Refusal};

/// A number with commas.
pub fn long(n: u64) -> String {
    let digits = n.to_string();
    let mut out = String::new();
    for (k, d) in digits.chars().enumerate() {
        if k > 0 && (digits.len() - k) % 3 == 0 {
            out.push(',');
        }
        out.push(d);
    }
    out
}

pub fn several(n: u64, one: &str, many: &str) -> String {
    format!("{} {}", long(n), if n == 1 { one } else { many })
}

/// Numbers as `1, 3 to 5 and 7`.
pub fn spans(numbers: &[u32]) -> String {
    let mut runs: Vec<(u32, u32)> = vec![];
    for &n in numbers {
        match runs.last_mut() {
            Some((_, last)) if *last + 1 == n => *last = n,
            _ => runs.push((n, n)),
        }
    }
    let one = |&(from, to): &(u32, u32)| match to - from {
        0 => vec![from.to_string()],
        1 => vec![from.to_string(), to.to_string()],
        _ => vec![format!("{from} to {to}")],
    };
    listed(&runs.iter().flat_map(one).collect::<Vec<_>>())
}

/// `a, b and c`.
pub fn listed(words: &[String]) -> String {
    match words {
        [] => String::new(),
        [one] => one.clone(),
        [front @ .., last] => format!("{} and {last}", front.join(", ")),
    }
}

/// Words on lines of at most so many letters, those after the first so far in.
pub fn folded(words: &str, width: usize, indent: usize) -> String {
    let mut out = String::new();
    let mut column = 0;
    for word in words.split(' ') {
        if column > 0 && column + 1 + word.len() > width {
            out.push('\n');
            out.push_str(&" ".repeat(indent));
            column = 0;
        } else if column > 0 {
            out.push(' ');
            column += 1;
        }
        out.push_str(word);
        column += word.len();
    }
    out
}

pub fn player(who: Player) -> String {
    match who {
        Player::HOST => "the host".to_string(),
        Player(n) => format!("player {n}"),
    }
}

/// A refusal with what it says.
pub fn refused(refusal: Refusal) -> String {
    format!("{refusal}: {}", refusal.when())
}

#[cfg(test)]
mod tests {
    use super::*;

    #[test]
    fn numbers_and_spans() {
        assert_eq!(
            (long(0), long(999), long(4096), long(1_000_000)),
            ("0".into(), "999".into(), "4,096".into(), "1,000,000".into())
        );
        assert_eq!(spans(&[1, 2, 3, 5, 7]), "1 to 3, 5 and 7");
        assert_eq!(spans(&[1, 2]), "1 and 2");
        assert_eq!(spans(&[4]), "4");
        assert_eq!(folded("a bc d", 9, 2), "a bc d");
        assert_eq!(folded("a bc d", 4, 2), "a bc\n  d");
    }
}
