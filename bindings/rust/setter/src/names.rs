//! What an accepted text calls its parameters, events and behaviours: the bytes of a sheet have no names.
//!
//! The words `param`, `event`, `passive`, `active` and `row` are reserved, so that each of them begins a declaration
//! wherever it stands outside a comment, and the name stands behind it. Nothing is judged here: the text is one that
//! assemble has accepted, or one that describe wrote.

/// Where a name stands, line and column from 1.
#[derive(Clone, Copy, Debug, PartialEq, Eq)]
pub struct Place {
    pub line: usize,
    pub column: usize,
}

/// A parameter's name and its value, if one is given.
#[derive(Clone, Debug, PartialEq, Eq)]
pub struct Param {
    pub name: String,
    pub value: Option<i32>,
}

/// A behaviour, or a row of them.
#[derive(Clone, Debug, PartialEq, Eq)]
pub struct Group {
    pub name: String,
    pub first: u32,
    /// A row's cells.
    pub cells: Option<u32>,
    pub place: Place,
}

impl Group {
    /// How many behaviours it has.
    pub fn count(&self) -> u32 {
        self.cells.unwrap_or(1)
    }
}

/// All names, by number.
#[derive(Clone, Debug, Default, PartialEq, Eq)]
pub struct Names {
    pub params: Vec<Param>,
    pub events: Vec<String>,
    pub groups: Vec<Group>,
}

/// A name, a number, or one byte of an operator or a mark.
struct Word<'t> {
    text: &'t str,
    place: Place,
    /// Its first byte.
    at: usize,
}

/// The words of a text, without spaces and comments.
fn words(text: &[u8]) -> Vec<Word<'_>> {
    let mut words = vec![];
    let mut from = 0;
    for (k, line) in text.split(|b| *b == b'\n').enumerate() {
        let code = line.split(|b| *b == b'#').next().unwrap_or(b"");
        let mut at = 0;
        while at < code.len() {
            let length = length(&code[at..]);
            if let Ok(text) = std::str::from_utf8(&code[at..at + length]) {
                words.push(Word { text, place: Place { line: k + 1, column: at + 1 }, at: from + at });
            }
            at += length;
        }
        from += line.len() + 1;
    }
    words.retain(|w| !w.text.trim().is_empty());
    words
}

/// How long the word is that begins here: a number ends with its digits, a name with its letters, digits and `_`.
fn length(rest: &[u8]) -> usize {
    let run = |of: fn(&u8) -> bool| rest.iter().take_while(|b| of(b)).count();
    let digits = run(|b| b.is_ascii_digit());
    let letters = run(|b| b.is_ascii_alphanumeric() || *b == b'_');
    (if digits > 0 { digits } else { letters }).max(1)
}

/// The value behind a parameter's name, where one is given.
fn value(rest: &[Word]) -> Option<i32> {
    let texts: Vec<&str> = rest.iter().take(3).map(|w| w.text).collect();
    match texts[..] {
        ["=", "-", number] => format!("-{number}").parse().ok(),
        ["=", number, ..] => number.parse().ok(),
        _ => None,
    }
}

/// The names of an accepted text.
pub fn names_of(text: &[u8]) -> Names {
    let words = words(text);
    let mut names = Names::default();
    for (k, word) in words.iter().enumerate() {
        let [name, rest @ ..] = &words[k + 1..] else { break };
        match word.text {
            "param" => names.params.push(Param { name: name.text.to_string(), value: value(rest) }),
            "event" => names.events.push(name.text.to_string()),
            "passive" | "active" | "row" => {
                let cells = rest.get(1).filter(|_| word.text == "row").and_then(|w| w.text.parse().ok());
                let first = names.groups.last().map_or(0, |g| g.first + g.count());
                names.groups.push(Group { name: name.text.to_string(), first, cells, place: name.place });
            }
            _ => {}
        }
    }
    names
}

/// What a declaration declares.
#[derive(Clone, Copy, Debug, PartialEq, Eq)]
pub enum Sort {
    Param,
    Event,
    Behaviour,
}

/// A declaration of a text, with all that stands up to the next one.
pub struct Part<'t> {
    pub sort: Sort,
    pub name: &'t str,
    pub text: &'t [u8],
}

/// The declarations of an accepted text.
pub fn parts(text: &[u8]) -> Vec<Part<'_>> {
    let words = words(text);
    let sort = |word: &Word| match word.text {
        "param" => Some(Sort::Param),
        "event" => Some(Sort::Event),
        "passive" | "active" | "row" => Some(Sort::Behaviour),
        _ => None,
    };
    let firsts: Vec<usize> = (0..words.len()).filter(|k| sort(&words[*k]).is_some()).collect();
    let end = |k: usize| firsts.get(k + 1).map_or(text.len(), |next| words[*next].at);
    let part = |(k, first): (usize, &usize)| {
        let (word, name) = (&words[*first], words.get(first + 1)?);
        Some(Part { sort: sort(word)?, name: name.text, text: &text[word.at..end(k)] })
    };
    firsts.iter().enumerate().filter_map(part).collect()
}

/// Whether a behaviour is declared by this word.
pub fn declared_by(text: &[u8], group: &Group, word: &str) -> bool {
    let words = words(text);
    words.windows(2).any(|w| w[0].text == word && w[1].place == group.place)
}

/// The line of a behaviour's handler for an event.
pub fn handler_line(text: &[u8], behaviour: &str, event: &str) -> Option<usize> {
    let words = words(text);
    let begins = |k: &usize| ["passive", "active", "row"].contains(&words[*k].text);
    let first = (0..words.len() - 1).find(|k| begins(k) && words[k + 1].text == behaviour)?;
    let last = (first + 1..words.len()).find(begins).unwrap_or(words.len());
    let found = words[first..last].windows(2).find(|w| w[0].text == "on" && w[1].text == event)?;
    Some(found[0].place.line)
}

/// The numbers of the parameters that formulas of a described text name: it calls them p0, p1 and so on.
pub fn params_used(described: &[u8]) -> Vec<usize> {
    let words = words(described);
    let number = |k: usize| words[k].text.strip_prefix('p').and_then(|number| number.parse().ok());
    let declared = |k: usize| k > 0 && words[k - 1].text == "param";
    (0..words.len()).filter(|k| !declared(*k)).filter_map(number).collect()
}

#[cfg(test)]
mod tests {
    use super::*;
    use poqashem::{Params, Sheet};

    /// As the plain reader has them.
    fn read(text: &[u8]) -> Names {
        let read = sheet_text::assemble(text).expect("a sheet");
        let group = |b: sheet_text::Declared| Group {
            name: b.name,
            first: b.first as u32,
            cells: b.cells.map(|n| n as u32),
            place: Place { line: b.place.line, column: b.place.column },
        };
        Names {
            params: read.params.into_iter().map(|p| Param { name: p.name, value: p.default }).collect(),
            events: read.events.into_iter().map(|e| e.name).collect(),
            groups: read.behaviours.into_iter().map(group).collect(),
        }
    }

    /// The names of a text, its description's too, are as many as the engine counts, and those of the plain reader.
    fn held(text: &[u8]) {
        let names = names_of(text);
        assert_eq!(names, read(text));
        let bytes = sheet_text::assemble(text).expect("a sheet").sheet;
        let table = Sheet::new(&bytes[..]).compile(Some(&Params::default())).expect("an accepted sheet");
        assert_eq!(table.events(), Ok(names.events.len() as u32));
        assert_eq!(table.behaviours(), Ok(names.groups.iter().map(Group::count).sum()));
        let described = sheet_text::describe(&bytes).expect("an accepted sheet");
        assert_eq!(names_of(described.as_bytes()), read(described.as_bytes()));
    }

    #[test]
    fn names_of_the_examples() {
        let mut count = 0;
        for entry in std::fs::read_dir(concat!(env!("CARGO_MANIFEST_DIR"), "/../../../examples")).expect("examples") {
            let path = entry.expect("a file").path();
            if path.extension().is_some_and(|e| e == "sheet") {
                held(&std::fs::read(&path).expect("a file"));
                count += 1;
            }
        }
        assert!(count >= 7, "{count} examples");
    }

    #[test]
    fn names_in_odd_places() {
        held(b"");
        held(b"# param none\nparam\n  a=-007param b param c=2147483647event e rank 2from 1 2event\tparam_ rank 0\r\n");
        held(b"row r[016]=-1");
        held(b"event on_ rank 1#event no rank 1\nactive row_=0on on_:event_ passive event_=3#\xff\nrow x[2]=0 passive y=x[1]");
    }
}
