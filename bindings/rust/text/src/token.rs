//! Tokens, one after the other. A token is as long as it can be.
use crate::fault::Place;
use crate::tree::every_two_sided;
use crate::NAME;

/// The reserved words.
#[derive(Clone, Copy, Debug, PartialEq, Eq)]
pub enum Word {
    Param,
    Event,
    Rank,
    From,
    Passive,
    Active,
    Row,
    Seen,
    By,
    Nobody,
    On,
    Later,
    If,
}

pub const WORDS: [(&str, Word); 13] = [
    ("param", Word::Param),
    ("event", Word::Event),
    ("rank", Word::Rank),
    ("from", Word::From),
    ("passive", Word::Passive),
    ("active", Word::Active),
    ("row", Word::Row),
    ("seen", Word::Seen),
    ("by", Word::By),
    ("nobody", Word::Nobody),
    ("on", Word::On),
    ("later", Word::Later),
    ("if", Word::If),
];

#[derive(Clone, Copy, Debug, PartialEq, Eq)]
pub enum Token<'a> {
    Name(&'a str),
    /// Its value; numbers above 2^32 are all 2^32.
    Number(u64),
    Word(Word),
    /// A two-sided function by its number; `-` too, wherever it stands.
    TwoSided(u8),
    Not,
    /// `( ) , : = [ ]`
    Mark(u8),
    /// A byte that begins no token, or a word that is too long for a name.
    Bad(&'a [u8]),
    End,
}

/// The numbers that are told apart; larger ones are all too large.
const LARGEST: u64 = 1 << 32;

pub struct Scanner<'a> {
    text: &'a [u8],
    at: usize,
    line: usize,
    /// Where the line begins.
    line_from: usize,
}

fn is_word(byte: u8) -> bool {
    byte.is_ascii_alphanumeric() || byte == b'_'
}

impl<'a> Scanner<'a> {
    pub fn new(text: &'a [u8]) -> Scanner<'a> {
        Scanner { text, at: 0, line: 1, line_from: 0 }
    }

    fn place(&self) -> Place {
        Place { line: self.line, column: self.at - self.line_from + 1 }
    }

    /// Spaces, tabs, line ends and comments.
    fn skip(&mut self) {
        while let Some(byte) = self.text.get(self.at) {
            match byte {
                b' ' | b'\t' | b'\r' => self.at += 1,
                b'\n' => {
                    self.at += 1;
                    self.line += 1;
                    self.line_from = self.at;
                }
                b'#' => self.at += self.text[self.at..].iter().take_while(|b| **b != b'\n').count(),
                _ => return,
            }
        }
    }

    fn run(&mut self, of: impl Fn(u8) -> bool) -> &'a [u8] {
        let from = self.at;
        self.at += self.text[from..].iter().take_while(|b| of(**b)).count();
        &self.text[from..self.at]
    }

    /// A name or a reserved word. One that is too long is no token.
    fn word(&mut self) -> Token<'a> {
        let bytes = self.run(is_word);
        let Ok(text) = std::str::from_utf8(bytes) else { return Token::Bad(bytes) };
        if bytes.len() > NAME {
            return Token::Bad(bytes);
        }
        match WORDS.iter().find(|(word, _)| *word == text) {
            Some((_, word)) => Token::Word(*word),
            None => Token::Name(text),
        }
    }

    fn number(&mut self) -> Token<'a> {
        let digits = self.run(|b| b.is_ascii_digit());
        Token::Number(digits.iter().fold(0, |n, b| (n * 10 + u64::from(b - b'0')).min(LARGEST)))
    }

    /// An operator or a mark, the longer ones first.
    fn symbol(&mut self) -> Token<'a> {
        let rest = &self.text[self.at..];
        let fits = |length: usize| {
            let mut all = every_two_sided();
            let found = all.find(|(_, text, _)| text.len() == length && rest.starts_with(text.as_bytes()));
            found.map(|(function, ..)| (Token::TwoSided(function), length))
        };
        let one = || match rest[0] {
            b'!' => (Token::Not, 1),
            mark @ (b'(' | b')' | b',' | b':' | b'=' | b'[' | b']') => (Token::Mark(mark), 1),
            _ => (Token::Bad(&rest[..1]), 1),
        };
        let (token, length) = fits(2).or_else(|| fits(1)).unwrap_or_else(one);
        self.at += length;
        token
    }

    /// The next token and where it stands.
    pub fn next(&mut self) -> (Token<'a>, Place) {
        self.skip();
        let place = self.place();
        let token = match self.text.get(self.at) {
            None => Token::End,
            Some(b) if b.is_ascii_digit() => self.number(),
            Some(b) if is_word(*b) => self.word(),
            Some(_) => self.symbol(),
        };
        (token, place)
    }
}

/// A token with its place and its bytes.
pub struct Spot<'a> {
    pub token: Token<'a>,
    pub place: Place,
    pub from: usize,
    pub to: usize,
}

/// All tokens, the end too.
pub fn all(text: &[u8]) -> Vec<Spot<'_>> {
    let mut scanner = Scanner::new(text);
    let mut spots = vec![];
    loop {
        let (token, place) = scanner.next();
        let from = scanner.line_from + place.column - 1;
        spots.push(Spot { token, place, from, to: scanner.at });
        if token == Token::End {
            return spots;
        }
    }
}

/// Where a text ends.
pub fn end_of(text: &[u8]) -> Place {
    let lines = text.iter().filter(|b| **b == b'\n').count();
    let last = text.iter().rev().take_while(|b| **b != b'\n').count();
    Place { line: lines + 1, column: last + 1 }
}

impl std::fmt::Display for Token<'_> {
    /// As a message names it.
    fn fmt(&self, f: &mut std::fmt::Formatter<'_>) -> std::fmt::Result {
        match self {
            Token::Name(name) => write!(f, "`{name}`"),
            Token::Number(LARGEST) => f.write_str("a large number"),
            Token::Number(n) => write!(f, "`{n}`"),
            Token::Word(w) => {
                let (text, _) = WORDS.iter().find(|(_, word)| word == w).unwrap_or(&("", Word::If));
                write!(f, "`{text}`")
            }
            Token::TwoSided(function) => write!(f, "`{}`", crate::tree::two_sided(*function).unwrap_or(("", 0)).0),
            Token::Not => f.write_str("`!`"),
            Token::Mark(b) => write!(f, "`{}`", char::from(*b)),
            Token::Bad([b]) if b.is_ascii_graphic() => write!(f, "`{}`", char::from(*b)),
            Token::Bad([b]) => write!(f, "a byte {b}"),
            Token::Bad(_) => write!(f, "a name of over {NAME} bytes"),
            Token::End => f.write_str("the end of the text"),
        }
    }
}
