//! Formulas: a plain reader written from the request, held against the proved one on texts made at random, whole and
//! damaged, and on both sides of each limit.
use crate::compare::Guarded;
use crate::limits::{app, con, name};
use crate::make::Rng;
use crate::proved;
use crate::signature::{arity, of, operators, FUNCTIONS, IF, LAST, LOOSEST, NOT};

const TEXT: usize = 1024;

/// An expression as the grammar has it: numbers as far as 2^31, whatever they are beyond.
enum Tree {
    Number(u64),
    Name(u8),
    App(u8, Vec<Tree>),
}

impl Tree {
    fn nesting(&self) -> usize {
        match self {
            Tree::App(_, a) => 1 + a.iter().map(Tree::nesting).max().unwrap(),
            _ => 1,
        }
    }

    fn large(&self) -> bool {
        match self {
            Tree::Number(n) => *n > i32::MAX as u64,
            Tree::Name(_) => false,
            Tree::App(_, a) => a.iter().any(Tree::large),
        }
    }

    fn field(&self) -> Vec<u8> {
        match self {
            Tree::Number(n) => con(*n as i32),
            Tree::Name(i) => name(*i),
            Tree::App(f, a) => app(*f, &a.iter().map(Tree::field).collect::<Vec<_>>()),
        }
    }
}

struct Reader<'a> {
    text: &'a [u8],
    at: usize,
}

impl Reader<'_> {
    fn spaces(&mut self) {
        while self.text.get(self.at) == Some(&b' ') {
            self.at += 1;
        }
    }

    fn take(&mut self, word: &str) -> bool {
        self.spaces();
        let there = self.text[self.at..].starts_with(word.as_bytes());
        if there {
            self.at += word.len();
        }
        there
    }

    fn due(&mut self, word: &str) -> Option<()> {
        self.take(word).then_some(())
    }

    fn digits(&mut self) -> &[u8] {
        let from = self.at;
        while self.text.get(self.at).is_some_and(u8::is_ascii_digit) {
            self.at += 1;
        }
        &self.text[from..self.at]
    }

    fn primary(&mut self) -> Option<Tree> {
        // `!=` is one token, so it is no `!` and a stray `=`
        self.spaces();
        if !self.text[self.at..].starts_with(b"!=") && self.take("!") {
            return Some(Tree::App(NOT, vec![self.primary()?]));
        }
        if self.take("(") {
            let e = self.level(LOOSEST)?;
            self.due(")")?;
            return Some(e);
        }
        if self.take("if") {
            self.due("(")?;
            let a = self.level(LOOSEST)?;
            self.due(",")?;
            let b = self.level(LOOSEST)?;
            self.due(",")?;
            let c = self.level(LOOSEST)?;
            self.due(")")?;
            return Some(Tree::App(IF, vec![a, b, c]));
        }
        if self.take("b") {
            let d = self.digits();
            let plain = d.len() == 1 || d.len() == 2 && d[0] != b'0';
            let i = d.iter().fold(0u64, |n, b| (n * 10 + (b - b'0') as u64).min(1000));
            return (plain && i < 64).then_some(Tree::Name(i as u8));
        }
        let d = self.digits();
        let n = d.iter().fold(0u64, |n, b| (n * 10 + (b - b'0') as u64).min(1 << 31));
        (!d.is_empty()).then_some(Tree::Number(n))
    }

    fn level(&mut self, l: usize) -> Option<Tree> {
        if l == 0 {
            return self.primary();
        }
        let mut e = self.level(l - 1)?;
        while let Some(f) = operators(l).find(|f| self.take(f.text)) {
            e = Tree::App(f.number, vec![e, self.level(l - 1)?]);
        }
        Some(e)
    }
}

/// The field, or the refusal's number, for a buffer of so many bytes.
pub fn plain(text: &[u8], room: usize) -> Result<Vec<u8>, u64> {
    if text.len() > TEXT {
        return Err(21);
    }
    let mut r = Reader { text, at: 0 };
    let tree = r.level(LOOSEST).ok_or(21u64)?;
    r.spaces();
    if r.at < text.len() {
        return Err(21);
    }
    if tree.large() {
        return Err(22);
    }
    if tree.nesting() > 16 {
        return Err(9);
    }
    let field = tree.field();
    if field.len() > room {
        Err(23)
    } else {
        Ok(field)
    }
}

/// Both readers on a text and a buffer of so many bytes: the answer, every byte of the buffer, and nothing beyond.
pub fn same(text: &[u8], room: usize) -> u64 {
    let mut buffer = Guarded::new(room, 0xC3);
    let mut lent = Guarded::new(text.len(), 0);
    lent.part_mut().copy_from_slice(text);
    let got = proved::formula(lent.part(), buffer.part_mut());
    let shown = String::from_utf8_lossy(text);
    match plain(text, room) {
        Ok(field) => {
            assert_eq!(got, (1 << 32) + field.len() as u64, "formula {shown:?}");
            assert!(field == buffer.part()[..field.len()], "field of {shown:?}");
            assert!(buffer.part()[field.len()..].iter().all(|b| *b == 0xC3), "bytes behind the field of {shown:?}");
        }
        Err(n) => {
            assert_eq!(got, n, "formula {shown:?}");
            assert!(buffer.part().iter().all(|b| *b == 0xC3), "a refused formula changed the buffer");
        }
    }
    assert!(text == lent.part(), "the text changed");
    buffer.check();
    lent.check();
    got
}

/// A text within the grammar: an operand at so many levels of nesting, with spaces and brackets here and there.
pub fn text(r: &mut Rng, depth: usize, out: &mut String) {
    let space =
        |r: &mut Rng, out: &mut String| (0..if r.one_in(4) { 1 + r.below(3) } else { 0 }).for_each(|_| out.push(' '));
    space(r, out);
    if r.one_in(8) {
        out.push('(');
        text(r, depth, out);
        out.push(')');
    } else if depth <= 1 || r.one_in(3) {
        match r.below(8) {
            0 => {
                *out += ["2147483647", "2147483648", "2147483646", "99999999999999999999999", "4294967296"][r.below(5)]
            }
            1 => *out += &format!("{}{}", "0".repeat(r.below(4)), r.below(1000)),
            2..=4 => *out += &r.below(40).to_string(),
            _ => *out += &format!("b{}", r.below(64)),
        }
    } else {
        let f = 1 + r.below(LAST as usize) as u8;
        match arity(f) {
            1 => {
                out.push('!');
                text(r, depth - 1, out);
            }
            3 => {
                *out += "if(";
                text(r, depth - 1, out);
                out.push(',');
                text(r, depth - 1, out);
                out.push(',');
                text(r, depth - 1, out);
                out.push(')');
            }
            _ => {
                text(r, depth - 1, out);
                *out += of(f).text;
                text(r, depth - 1, out);
            }
        }
    }
    space(r, out);
}

/// One byte changed, dropped, doubled or put in, from those that formulas are made of or any.
pub fn damaged(r: &mut Rng, mut t: Vec<u8>) -> Vec<u8> {
    for _ in 0..1 + r.below(3) {
        let at = r.below(t.len() + 1);
        let b = if r.one_in(6) { r.next() as u8 } else { b"|&!+-*/><=,()ifb0123456789 "[r.below(27)] };
        match r.below(4) {
            0 if at < t.len() => t[at] = b,
            1 if at < t.len() => {
                t.remove(at);
            }
            2 if at < t.len() => t.insert(at, t[at]),
            _ => t.insert(at, b),
        }
    }
    t
}

/// A seed's formulas: whole, damaged, and one of tokens in any order; each with room, without, and one byte short.
pub fn one(seed: u64, tally: &mut [usize; 32]) {
    let r = &mut Rng::new(seed ^ 0xF0);
    let mut count = |answer: u64| tally[if answer >> 32 == 0 { answer as usize } else { 0 }] += 1;
    for k in 0..6 {
        let mut whole = String::new();
        let depth = 1 + r.below(6);
        text(r, depth, &mut whole);
        if r.one_in(6) {
            whole = format!("{}({whole})", "!".repeat(r.below(20)));
        }
        let t = match k {
            0..=2 => whole.into_bytes(),
            3 | 4 => damaged(r, whole.into_bytes()),
            _ => (0..1 + r.below(12))
                .map(|_| {
                    let other = ["(", ")", ",", "b7", "12", " ", "="];
                    let i = r.below(FUNCTIONS.len() + other.len());
                    FUNCTIONS.get(i).map_or_else(|| other[i - FUNCTIONS.len()], |f| f.text)
                })
                .collect::<String>()
                .into_bytes(),
        };
        let answer = same(&t, 8192);
        count(answer);
        if answer >> 32 != 0 {
            let n = (answer & 0xFFFF_FFFF) as usize;
            count(same(&t, n));
            count(same(&t, n - 1));
            count(same(&t, r.below(n)));
        }
    }
}

/// Both sides of each limit, and the order of the refusals.
pub fn limits() {
    let ok = |n: u64| (1u64 << 32) + n;
    let at = |t: &str, room: usize, want: u64| assert_eq!(same(t.as_bytes(), room), want, "formula {t:?}");
    at("1+2*3", 64, ok(29));
    at("8-4-2", 64, ok(29));
    at("!!b3", 64, ok(12));
    at("if(b0<b1,b0,b1)", 64, ok(24));
    at("007", 7, ok(7));
    for t in [
        "",
        " ",
        "1 2",
        "b64",
        "b00",
        "b 1",
        "b",
        "1+",
        "(1",
        "1)",
        "if(1,2)",
        "if 1",
        "i f(1,2,3)",
        "1< =2",
        "a",
        "-1",
        "1=2",
        "!==1",
        "1!2",
        "1,2",
        "\t1",
        "b1b2",
        "1&2",
    ] {
        at(t, 64, 21);
    }
    at("2147483647", 7, ok(7));
    at("2147483648", 7, 22);
    at(&format!("{}1", "0".repeat(1023)), 7, ok(7));
    at(&"9".repeat(1024), 0, 22);
    at(&"9".repeat(1025), 0, 21);
    at(&format!("b1{}", " ".repeat(1022)), 4, ok(4));
    at(&format!("b1{}", " ".repeat(1023)), 4, 21);
    at(&format!("{}b0", "!".repeat(15)), 64, ok(64));
    at(&format!("{}b0", "!".repeat(15)), 63, 23);
    at(&format!("{}b0", "!".repeat(16)), 0, 9);
    at(&format!("{}2147483648", "!".repeat(16)), 0, 22);
    at(&format!("{}2147483648", "!".repeat(1014)), 0, 22);
    at(&format!("{}b0", "!".repeat(1022)), 0, 9);
    at(&format!("{}b0{}", "(".repeat(511), ")".repeat(511)), 4, ok(4));
    at(&format!("{}b0{}", "(".repeat(511), ")".repeat(510)), 4, 21);
    at(&format!("1{}", "+1".repeat(15)), 200, ok(7 * 16 + 4 * 15));
    at(&format!("1{}", "+1".repeat(16)), 200, 9);
    at(&format!("1{}", "||1".repeat(341)), 200, 9);
    at("", 0, 21);
}

/// Lines of the setter's page: a formula, two spaces or more, and its field in hexadecimal, or its refusal.
pub fn example(line: &str) {
    let (text, says) = line.trim().split_once("  ").unwrap_or_else(|| panic!("an example of a formula: {line}"));
    let says = says.trim();
    let answer = same(text.as_bytes(), 64);
    if let Some(n) = says.strip_prefix("refused by ") {
        assert_eq!(answer, n.parse::<u64>().unwrap(), "the page's {text}");
        return;
    }
    let digits = says.replace(' ', "");
    let field: Vec<u8> = (0..digits.len() / 2)
        .map(|k| u8::from_str_radix(&digits[2 * k..2 * k + 2], 16).expect("a byte of a field"))
        .collect();
    assert_eq!(plain(text.as_bytes(), 64), Ok(field), "the page's {text}");
}
