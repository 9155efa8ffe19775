//! The words of hints and warnings. They stand as data in `hints.json`, so that a page can share them: one key and one
//! text a line, without escapes; `{0}`, `{1}` and so on stand for parts.
const TABLE: &str = include_str!("hints.json");

/// All keys with their texts, as they stand.
fn table() -> impl Iterator<Item = (&'static str, &'static str)> {
    let entry = |line: &'static str| {
        let line = line.trim().trim_end_matches(',').strip_prefix('"')?.strip_suffix('"')?;
        line.split_once("\": \"")
    };
    TABLE.lines().filter_map(entry)
}

/// The words under a key, its parts put in.
pub fn words(key: &str, parts: &[&str]) -> Option<String> {
    let (_, text) = table().find(|(own, _)| *own == key)?;
    let put = |text: String, (k, part): (usize, &&str)| text.replace(&format!("{{{k}}}"), part);
    Some(parts.iter().enumerate().fold(text.to_string(), put))
}

#[cfg(test)]
mod tests {
    use super::*;

    /// Every line but the brackets is an entry, with a key of its own and no escape.
    #[test]
    fn the_table_is_plain() {
        let keys: std::collections::HashSet<_> = table().map(|(key, _)| key).collect();
        assert_eq!(keys.len() + 2, TABLE.lines().count());
        assert!(!TABLE.contains('\\'));
        assert_eq!(
            words("word.reserved", &["on"]).unwrap(),
            "`on` is a reserved word: take another name, such as `on_`"
        );
        assert_eq!(words("nothing", &[]), None);
    }
}
