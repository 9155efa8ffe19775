//! What check says, as JSON.

/// A text as JSON has it.
pub fn text(words: &str) -> String {
    let one = |c: char| match c {
        '"' | '\\' => format!("\\{c}"),
        c if c.is_control() => format!("\\u{:04x}", c as u32),
        c => c.to_string(),
    };
    format!("\"{}\"", words.chars().map(one).collect::<String>())
}

pub fn list(items: impl IntoIterator<Item = String>) -> String {
    format!("[{}]", items.into_iter().collect::<Vec<_>>().join(","))
}

pub fn object(fields: &[(&str, String)]) -> String {
    let fields: Vec<String> = fields.iter().map(|(name, value)| format!("{}:{value}", text(name))).collect();
    format!("{{{}}}", fields.join(","))
}

#[cfg(test)]
mod tests {
    use super::*;

    #[test]
    fn texts() {
        assert_eq!(text("a \"b\" \\ \n\u{e4}"), "\"a \\\"b\\\" \\\\ \\u000a\u{e4}\"");
        assert_eq!(
            object(&[("a", list(["1".into(), text("x")])), ("b", "true".into())]),
            "{\"a\":[1,\"x\"],\"b\":true}"
        );
    }
}
