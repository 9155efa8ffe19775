//! What to do about a fault. The tokens before it tell where it stands; kind and place are given, and nothing is judged.
use crate::fault::{nearest, Kind, Place};
use crate::token::{all, Spot, Token, Word, WORDS};
use crate::tree::MINUS;
use crate::words::words;

/// A `(`, by its token, that is still open.
struct Open {
    at: usize,
    /// It is an `if`'s, with so many commas so far.
    commas: Option<usize>,
}

/// Where in a text a token stands.
struct Context<'a> {
    spots: &'a [Spot<'a>],
    /// The token.
    at: usize,
    /// The declaration's first word.
    declaration: Option<Word>,
    /// In a handler.
    handler: bool,
    /// In a formula.
    formula: bool,
    open: Vec<Open>,
}

/// The first words of declarations.
pub fn declares(token: Token) -> Option<Word> {
    match token {
        Token::Word(word @ (Word::Param | Word::Event | Word::Passive | Word::Active | Word::Row)) => Some(word),
        _ => None,
    }
}

/// Whether a token ends an operand.
fn ends_operand(token: Token) -> bool {
    matches!(token, Token::Name(_) | Token::Number(_) | Token::Mark(b')' | b']'))
}

impl<'a> Context<'a> {
    fn of(spots: &'a [Spot<'a>], at: usize) -> Context<'a> {
        let mut context = Context { spots, at, declaration: None, handler: false, formula: false, open: vec![] };
        (0..at).for_each(|k| context.pass(k));
        context
    }

    fn pass(&mut self, k: usize) {
        let token = self.spots[k].token;
        if let Some(word) = declares(token) {
            (self.declaration, self.handler, self.formula) = (Some(word), false, false);
            self.open.clear();
        }
        match token {
            Token::Word(Word::On) => {
                (self.handler, self.formula) = (true, false);
                self.open.clear();
            }
            Token::Word(Word::Seen) => self.formula = false,
            Token::Mark(b':') => self.formula |= self.handler,
            Token::Mark(b'=') => self.formula |= self.declaration == Some(Word::Passive),
            Token::Mark(b'(') if self.formula => {
                let commas = (self.before(k) == Token::Word(Word::If)).then_some(0);
                self.open.push(Open { at: k, commas });
            }
            Token::Mark(b')') => drop(self.open.pop()),
            Token::Mark(b',') => {
                if let Some(Open { commas: Some(commas), .. }) = self.open.last_mut() {
                    *commas += 1;
                }
            }
            _ => {}
        }
    }

    fn before(&self, k: usize) -> Token<'a> {
        k.checked_sub(1).map_or(Token::End, |k| self.spots[k].token)
    }

    fn token(&self) -> Token<'a> {
        self.spots[self.at].token
    }

    /// Whether the token follows the one before it without a space.
    fn close(&self) -> bool {
        self.at > 0 && self.spots[self.at - 1].to == self.spots[self.at].from
    }

    /// Whether `>` or `<` follows at once.
    fn then_order(&self) -> bool {
        matches!(self.spots[self.at + 1].token, Token::TwoSided(8 | 10))
            && self.spots[self.at + 1].from == self.spots[self.at].to
    }

    /// The name of the declaration.
    fn name(&self) -> String {
        let first = (0..self.at).rev().find(|k| declares(self.spots[*k].token).is_some());
        match first.map(|k| self.spots[k + 1].token) {
            Some(Token::Name(name)) => name.to_string(),
            _ => "NAME".to_string(),
        }
    }

    /// Of a token that cannot follow.
    fn outside(&self) -> Option<String> {
        let before = self.before(self.at);
        if before == Token::Mark(b'[') && matches!(self.token(), Token::Name(_) | Token::TwoSided(MINUS)) {
            return words("cell.number", &[]);
        }
        match (self.formula, ends_operand(before)) {
            (true, true) => self.operator(),
            (true, false) => self.operand(),
            _ => self.declared(),
        }
    }

    /// Behind an operand.
    fn operator(&self) -> Option<String> {
        let three = matches!(self.open.last(), Some(Open { commas: Some(_), .. }));
        let key = match self.token() {
            Token::Name(name) => return self.operator_word(name),
            Token::Mark(b'=') if self.then_order() => "operator.order",
            Token::Mark(b'=') => "operator.equals",
            Token::Mark(b'(') => return self.called(),
            Token::Mark(b')') if self.open.is_empty() => "bracket.none",
            Token::Mark(b')' | b',') if three => "if.three",
            Token::Mark(b',') => "mark.comma",
            Token::Mark(b'[') => "bracket.cell",
            Token::Number(_) | Token::Not | Token::Word(Word::If) => "operator.missing",
            Token::Bad([byte]) => return self.sign(*byte),
            Token::Word(_) | Token::End => return self.ended(),
            _ => return None,
        };
        words(key, &[])
    }

    /// A name where an operator is due.
    fn operator_word(&self, name: &str) -> Option<String> {
        let key = match name.to_ascii_lowercase().as_str() {
            "and" => "operator.and",
            "or" => "operator.or",
            "not" => "operator.not",
            "xor" => "operator.xor",
            "mod" | "rem" => "operator.remainder",
            "then" | "else" => "if.three",
            _ if self.before(self.at) == Token::Name("not") => "operator.not",
            _ => return self.keyword(name).or_else(|| words("operator.missing", &[])),
        };
        words(key, &[])
    }

    /// A word that may be meant for a declaration's, at the beginning of a line.
    fn keyword(&self, name: &str) -> Option<String> {
        let first = self.at == 0 || self.spots[self.at - 1].place.line < self.spots[self.at].place.line;
        let near = nearest(name, WORDS[..].iter().map(|(word, _)| *word).filter(|word| begins(word)))?;
        first.then(|| words("declaration.near", &[near])).flatten()
    }

    fn called(&self) -> Option<String> {
        match self.before(self.at) {
            Token::Name(name @ ("max" | "min" | "abs")) => words(&format!("function.{name}"), &[]),
            Token::Name(name) => words("function.none", &[name]),
            _ => words("operator.missing", &[]),
        }
    }

    /// A sign that is none of the grammar's.
    fn sign(&self, byte: u8) -> Option<String> {
        let key = match byte {
            b'%' => "operator.remainder",
            b'&' => "operator.and",
            b'|' => "operator.or",
            b'^' => "operator.power",
            b'?' => "operator.choice",
            b'.' if matches!(self.before(self.at), Token::Number(_)) => "number.whole",
            b';' => "mark.end",
            b'\'' | b'"' => "text.none",
            b'/' => "comment.hash",
            _ => "operator.none",
        };
        words(key, &[])
    }

    /// A formula's end that comes too early, or what stands behind it at the wrong place.
    fn ended(&self) -> Option<String> {
        if let Some(open) = self.open.last() {
            let Place { line, column } = self.spots[open.at].place;
            return words("bracket.open", &[&line.to_string(), &column.to_string()]);
        }
        self.declared()
    }

    /// Where an operand is due.
    fn operand(&self) -> Option<String> {
        let before = self.before(self.at);
        let signed = before == Token::TwoSided(MINUS) && !ends_operand(self.before(self.at - 1));
        let key = match (before, self.token()) {
            (_, Token::Name(name)) if signed => return words("operator.minus", &[name]),
            (_, Token::Mark(b'(')) if signed => return words("operator.minus", &["(..)"]),
            (Token::TwoSided(a), Token::TwoSided(b)) if self.close() => doubled(a, b)?,
            (Token::TwoSided(_), Token::Mark(b'=')) if self.close() => "operator.step",
            (_, Token::Bad([b'.'])) => "number.whole",
            (_, Token::Bad([byte])) => return self.sign(*byte),
            (_, Token::Word(_) | Token::End) if !self.open.is_empty() => return self.ended(),
            (_, token @ Token::Word(_)) if declares(token).is_none() && token != Token::Word(Word::On) => {
                return reserved(token)
            }
            (_, Token::Word(_) | Token::End) => "formula.missing",
            _ => return None,
        };
        words(key, &[])
    }

    /// Outside formulas.
    fn declared(&self) -> Option<String> {
        let (before, token) = (self.before(self.at), self.token());
        if declares(before).is_some() {
            return match token {
                Token::Word(_) => reserved(token),
                Token::Number(_) => words("name.letter", &[]),
                Token::Bad(bytes) if bytes.len() > 1 => words("name.long", &[]),
                _ => None,
            };
        }
        let key = match token {
            Token::Word(Word::Param) => "order.param",
            Token::Word(Word::Event) => "order.event",
            Token::Word(Word::On) if self.declaration == Some(Word::Passive) => "handler.passive",
            Token::Word(Word::On) => "handler.where",
            Token::Word(Word::Seen) if self.handler => "seen.first",
            Token::Bad([b';']) => "mark.end",
            Token::Bad([b'/']) | Token::TwoSided(7) => "comment.hash",
            _ => return self.within(before, token),
        };
        words(key, &[])
    }

    /// Within a declaration, or where one is due.
    fn within(&self, before: Token, token: Token) -> Option<String> {
        let named = self.at >= 2 && declares(self.before(self.at - 1)).is_some();
        let name = self.name();
        let (key, part) = match (before, token) {
            (Token::Word(Word::Rank), _) => ("event.rank", ""),
            (Token::Word(Word::From | Word::By), _) => ("players.numbers", ""),
            (Token::Number(_), Token::Mark(b',')) => ("players.comma", ""),
            (Token::Number(_), Token::Bad([b'.'])) => ("number.whole", ""),
            (Token::Mark(b'='), Token::Name(start)) => ("start.number", start),
            _ if named && self.declaration == Some(Word::Event) => ("event.rank", ""),
            _ if named && self.declaration == Some(Word::Row) => ("row.count", name.as_str()),
            (_, Token::Mark(b'[')) if named => ("row.active", name.as_str()),
            _ if self.handler && !self.formula => ("handler.colon", ""),
            (_, Token::Name(word)) => return self.keyword(word),
            _ => return None,
        };
        words(key, &[part])
    }
}

fn begins(word: &str) -> bool {
    WORDS.iter().any(|(own, w)| *own == word && (declares(Token::Word(*w)).is_some() || *w == Word::On))
}

fn reserved(token: Token) -> Option<String> {
    words("word.reserved", &[token.to_string().trim_matches('`')])
}

/// Two operators in one.
fn doubled(first: u8, second: u8) -> Option<&'static str> {
    Some(match (first, second) {
        (4, 4) | (5, 5) => "operator.step",
        (6, 6) => "operator.power",
        (7, 7) => "comment.hash",
        (10, 8) => "operator.unequal",
        _ => return None,
    })
}

/// A text in another encoding, or no text.
pub fn encoding(text: &[u8]) -> Option<String> {
    let key = match text {
        [0xEF, 0xBB, 0xBF, ..] => "file.bom",
        [0xFF, 0xFE, ..] | [0xFE, 0xFF, ..] | [b'\t'..=b'~', 0, ..] | [0, b'\t'..=b'~', ..] => "file.utf16",
        _ if text.starts_with(b"PK\x03\x04") || text.starts_with(b"\x89PNG") => "file.binary",
        _ => return None,
    };
    words(key, &[])
}

/// A byte outside ASCII, as the letter that it begins.
fn letter(text: &[u8], spots: &[Spot], at: usize) -> Option<String> {
    let rest = &text[spots[at].from..];
    let valid = rest.utf8_chunks().next().map_or("", |chunk| chunk.valid());
    let Some(c) = valid.chars().next() else { return words("char.none", &[]) };
    let number = format!("{:04X}", c as u32);
    let (shown, named) = (c.to_string(), format!("U+{number}"));
    let other = if c.is_alphabetic() { "char.letter" } else { "char.other" };
    words(&format!("char.{number}"), &[&shown]).or_else(|| words(other, &[&shown, &named]))
}

/// A name in a formula, or behind `on`, that is not declared so.
fn unknown(spots: &[Spot], at: usize) -> Option<String> {
    let Token::Name(name) = spots[at].token else { return None };
    let declared = |event: bool| {
        let is = |k: usize| declares(spots[k].token).is_some_and(|word| (word == Word::Event) == event);
        (1..spots.len()).any(|k| spots[k].token == Token::Name(name) && is(k - 1))
    };
    let handled = at > 0 && spots[at - 1].token == Token::Word(Word::On);
    match name {
        _ if handled && declared(false) => words("name.behaviour", &[name]),
        _ if !handled && declared(true) => words("name.event", &[name]),
        "true" | "false" | "True" | "False" => words("name.true", &[]),
        _ => None,
    }
}

/// Cell 0 of a row, which cannot be said in another row of its length.
fn cell_zero(spots: &[Spot], bracket: usize) -> Option<String> {
    let Token::Name(name) = spots[bracket - 1].token else { return None };
    let row = spots.windows(2).any(|w| w[0].token == Token::Word(Word::Row) && w[1].token == Token::Name(name));
    (row && spots[bracket + 1].token == Token::Number(0)).then(|| words("cell.zero", &[])).flatten()
}

/// What to do about a fault of this kind at this place.
pub fn hint(text: &[u8], kind: Kind, place: Place) -> Option<String> {
    if kind == Kind::Outside && encoding(text).is_some() {
        return encoding(text);
    }
    let spots = all(text);
    let at = spots.iter().position(|spot| spot.place == place)?;
    match (kind, spots[at].token) {
        (Kind::Outside, Token::Bad([0x80..=0xFF, ..])) => letter(text, &spots, at),
        (Kind::Outside, Token::Bad([byte])) if byte.is_ascii_control() => words("file.binary", &[]),
        (Kind::Outside, _) => Context::of(&spots, at).outside(),
        (Kind::UnknownName, _) => unknown(&spots, at),
        (Kind::TooDeep, _) => words("formula.deep", &[]),
        (Kind::NoCell, _) => cell_zero(&spots, at),
        _ => None,
    }
}
