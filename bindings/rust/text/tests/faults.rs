//! Every kind of fault with its line and column, and every pair of them in both orders.
//!
//! In a text `^` stands before the token or byte at fault and is taken out; without one the fault is at the end of the
//! text.
mod held;

use held::{assemble, assemble_into};
use sheet_text::{Kind, Place, SHEET, TEXT};

/// The text without its mark, and the place of the mark, or of the end.
fn marked(text: &str) -> (String, Place) {
    let before = text.split('^').next().unwrap_or("");
    let line = before.matches('\n').count() + 1;
    let column = before.len() - before.rfind('\n').map_or(0, |n| n + 1) + 1;
    (text.replace('^', ""), Place { line, column })
}

fn check(kind: Kind, text: &str) {
    let (text, place) = marked(text);
    let shown: String = text.chars().take(300).collect();
    let fault = assemble(text.as_bytes()).expect_err(&shown);
    assert_eq!((fault.kind, fault.place), (kind, place), "{fault}\n{shown}");
}

fn accepted(text: &str) -> Vec<u8> {
    assemble(text.as_bytes()).unwrap_or_else(|fault| panic!("{fault}\n{text}")).sheet
}

/// A formula of 2^depth ones, nesting depth + 1 deep.
fn bushy(depth: usize) -> String {
    if depth == 0 {
        return "1".to_string();
    }
    let half = bushy(depth - 1);
    format!("({half}+{half})")
}

/// So many declarations by number.
fn many(count: usize, one: impl Fn(usize) -> String) -> String {
    (0..count).map(|k| one(k) + "\n").collect()
}

#[test]
fn outside_the_grammar() {
    let texts = [
        "^hit",
        "^7",
        "^$",
        "^\u{e4}",
        "param ^",
        "param ^7",
        "param ^if",
        "param a = ^b",
        "param a = -^b",
        "param a = - ^-",
        "param a ^-1",
        "param a ^== 1",
        "event a ^2",
        "event a rank ^a",
        "event a rank ^-1",
        "event a rank 1 ^2",
        "event a rank 1 from ^",
        "event a rank 1 from ^event b rank 2",
        "event a rank 1 from nobody ^1",
        "event a rank 1 from 1 ^nobody",
        "event a rank 1 ^seen by 1",
        "event a rank 1 ^param b",
        "passive a = 1 ^event b rank 1",
        "passive a = 1 ^param b",
        "passive a = 1 ^on b: 1",
        "passive ^:",
        "passive a ^1",
        "passive a = ^",
        "passive a = ^seen by 1",
        "passive a = 1 ^2",
        "passive a = 1 ^b",
        "passive a = 1 + ^",
        "passive a = ^+ 1",
        "passive a = 1 + ^* 2",
        "passive a = (1 ^",
        "passive a = (1 ^]",
        "passive a = (1 ^, 2)",
        "passive a = (^)",
        "passive a = 1^)",
        "passive a = 1^, 2",
        "passive a = if ^1",
        "passive a = if(1^)",
        "passive a = if(1, 2^)",
        "passive a = if(1, 2, 3^, 4)",
        "passive a = if(1, 2, 3 ^",
        "passive a = if(1, 2, 3 ^seen by 1",
        "passive a = -^a",
        "passive a = - ^(1)",
        "passive a = -^-1",
        "passive a = ! ^= 1",
        "passive a = ^!= 1",
        "passive a = 1 ^! 2",
        "passive a = 1 ^= 1",
        "passive a = 1 == ^= 1",
        "passive a = 1 ^& 1",
        "passive a = 1 ^| | 1",
        "passive a = a[^",
        "passive a = a[^-1]",
        "passive a = a[^a]",
        "passive a = a[0 ^1]",
        "passive a = a[0]^[0]",
        "passive a = (a)^[0]",
        "passive a = 1 seen ^1",
        "passive a = 1 seen by ^",
        "passive a = 1 seen by nobody ^nobody",
        "active a ^[2] = 0",
        "active a = ^b",
        "active a = 0 ^: 1",
        "active a = 0 on ^: 1",
        "active a = 0 on ^later: 1",
        "event e rank 0 active a = 0 on e ^= 1",
        "event e rank 0 active a = 0 on e later ^later: 1",
        "event e rank 0 active a = 0 on e: 1 ^seen by 1",
        "row a ^= 0",
        "row a[^] = 0",
        "row a[^-2] = 0",
        "row a[2 ^= 0",
        "row a[2] ^0",
    ];
    for text in texts {
        check(Kind::Outside, text);
    }
}

#[test]
fn bytes_and_words() {
    // a tab and a carriage return are one column each, and only a line feed ends a line
    check(Kind::Outside, "param a\r\n\t\r ^$");
    check(Kind::Outside, "param a # $ \u{1}\u{e4} ;\n^$");
    check(Kind::Outside, "param a\n\n  ^\u{7f}");
    check(Kind::Outside, "param a\n^\u{0}");
    let text = b"param a #\xff\x00\x7f\r\n# \xc0";
    assert_eq!(assemble(text).map(|a| a.params.len()), Ok(1));
    // names of 32 and 33 bytes, and a reserved word within one
    let long = "a".repeat(32);
    assert_eq!(assemble(format!("param {long}").as_bytes()).map(|a| a.params[0].name.len()), Ok(32));
    check(Kind::Outside, &format!("param ^{long}b"));
    check(Kind::Outside, &format!("event ^{long}rank 2"));
    assert!(assemble(b"param params param IF param _ param i0f").is_ok());
    // a token is as long as it can be, and needs no space where none is
    assert_eq!(accepted("event a rank 2from 1 2"), accepted("event a rank 2 from 1 2"));
    assert_eq!(accepted("passive a=1>=2==3!=4seen by 1"), accepted("passive a = 1 >= 2 == 3 != 4 seen by 1"));
    assert_eq!(accepted("passive a = 1--1"), accepted("passive a = 1 - -1"));
    assert_eq!(accepted("passive a = if (1,2,3)"), accepted("passive a = if(1 , 2 , 3)"));
    assert_eq!(accepted("passive a = 0007"), accepted("passive a = 7"));
    assert_eq!(accepted("passive a = -0"), accepted("passive a = 0"));
    assert_eq!(accepted("event a rank 1 from 1 1 2"), accepted("event a rank 1 from 2 1"));
    assert_eq!(accepted(" \t\r\n# nothing"), b"");
    assert_eq!(accepted(""), b"");
}

#[test]
fn numbers() {
    for text in ["passive a = ^2147483648", "passive a = 1 - ^2147483648", "passive a = (1) -^2147483648"] {
        check(Kind::LargeNumber, text);
    }
    for text in ["param a = ^99999999999999999999999", "active a = -^2147483649", "passive a = - ^2147483649"] {
        check(Kind::LargeNumber, text);
    }
    for text in ["event a rank ^2147483648", "event a rank 1 from 1 ^2147483648", "row a[^2147483648] = 0"] {
        check(Kind::LargeNumber, text);
    }
    check(Kind::LargeNumber, "passive a = nix[^2147483648]");
    assert_eq!(accepted("passive a = 2147483647"), [2, 0, 7, 16, 0, 4, 127, 255, 255, 255]);
    assert_eq!(accepted("passive a = -2147483648"), [2, 0, 7, 16, 0, 4, 128, 0, 0, 0]);
    assert_eq!(accepted("active a = -2147483648"), [3, 0, 7, 4, 0, 4, 128, 0, 0, 0]);
    assert_eq!(assemble(b"param a = -2147483648").map(|a| a.params[0].default), Ok(Some(i32::MIN)));
    assert_eq!(accepted("passive a = 1 - 2147483647").len(), 21);
}

#[test]
fn scales() {
    for text in ["event a rank ^16", "event a rank 1 from ^8", "event a rank 1 from 7 ^2147483647"] {
        check(Kind::OffTheScale, text);
    }
    for text in ["passive a = 1 seen by 0 ^8", "row a[^1] = 0", "row a[^17] = 0", "row a[^0] = 0"] {
        check(Kind::OffTheScale, text);
    }
    accepted("event a rank 15 from 0 7\nrow a[2] = 0\nrow b[16] = 0 seen by 7");
}

#[test]
fn crowded() {
    let params = many(8, |k| format!("param p{k}"));
    let events = many(32, |k| format!("event e{k} rank 0"));
    let behaviours = many(64, |k| format!("active b{k} = 0"));
    accepted(&format!("{params}{events}{behaviours}"));
    check(Kind::Crowded, &format!("{params}^param a"));
    check(Kind::Crowded, &format!("{events}^event a rank 16"));
    check(Kind::Crowded, &format!("{behaviours}^passive a ="));
    check(Kind::Crowded, &format!("{behaviours}^row a[99] = 0"));
    let rows = many(3, |k| format!("row r{k}[16] = 0"));
    accepted(&format!("{rows}row a[16] = 0"));
    check(Kind::Crowded, &format!("{rows}active a = 0 row b[^16] = 0"));
    check(Kind::OffTheScale, &format!("{rows}active a = 0 row b[^17] = 0"));
    // too many before declared twice, and before what is no name
    check(Kind::Crowded, &format!("{params}^param p0"));
    check(Kind::Crowded, &format!("{events}^event e0 rank 0"));
    check(Kind::Crowded, &format!("{behaviours}^active b0 = 0"));
    check(Kind::Crowded, &format!("{params}^param 7"));
}

#[test]
fn declared_twice() {
    for text in ["param a param ^a", "param a passive ^a = 1", "active a = 0 row ^a[2] = 0", "row a[2] = 0 active ^a"] {
        check(Kind::Doubled, text);
    }
    check(Kind::Doubled, "event a rank 1 event ^a rank 99");
    check(Kind::Doubled, "row a[2] = 0 row ^a[99] = 0");
    accepted("event a rank 1 active a = 0 on a: a passive A = 1");
}

#[test]
fn handlers() {
    let two = "event e rank 0 event f rank 0 ";
    check(Kind::SecondHandler, &format!("{two}active a = 0 on e: 1 on f: 1 on ^e: 2"));
    check(Kind::SecondHandler, &format!("{two}row a[2] = 0 on e: 1 on ^e later 2"));
    accepted(&format!("{two}active a = 0 on f: 1 on e later: 1 active b = 0 on e: 1"));
    check(Kind::UnknownName, "active a = 0 on ^e: 1");
    check(Kind::UnknownName, &format!("{two}active a = 0 on ^a: 1"));
    check(Kind::Outside, &format!("{two}active a = 0 on e 1").replacen("e 1", "e ^1", 1));
}

#[test]
fn nesting() {
    let nots = |n: usize| "!".repeat(n);
    accepted(&format!("passive a = {}1", nots(15)));
    // at fault is the first sign with which it must nest 17 deep
    check(Kind::TooDeep, &format!("passive a = {}^!1", nots(15)));
    check(Kind::TooDeep, &format!("passive a = {}^!{}1 $", nots(15), nots(50)));
    check(Kind::TooDeep, &format!("passive a = {}^!{}1", nots(15), nots(60_000)));
    check(Kind::TooDeep, &format!("passive a = !({}^!1)+", nots(14)));
    // it is judged before the token behind it is looked at, and after all before it
    check(Kind::TooDeep, &format!("passive a = {}^! ]", nots(15)));
    check(Kind::TooDeep, &format!("passive a = {}^!", nots(15)));
    check(Kind::Outside, &format!("passive a = {}^]", nots(15)));
    check(Kind::LargeNumber, &format!("passive a = {}^2147483648", nots(15)));
    check(Kind::Outside, &format!("passive a = !({}1^]", nots(14)));
    check(Kind::TooDeep, &format!("passive a = {}(1^+1", nots(15)));
    // grouping to the left: the sixteenth operator
    let sum = |n: usize| vec!["1"; n].join("+");
    accepted(&format!("passive a = {}", sum(16)));
    check(Kind::TooDeep, &format!("passive a = {}^+1", sum(16)));
    check(Kind::TooDeep, &format!("passive a = {}^+", sum(16)));
    check(Kind::Outside, &format!("passive a = {}^]", sum(16)));
    check(Kind::TooDeep, &format!("passive a = {} ^< 1+1 == ]", sum(16)));
    // a tighter operator only deepens its own operand
    accepted(&format!("passive a = {}*1", sum(16)));
    check(Kind::TooDeep, &format!("passive a = {}*1 ^+ 1", sum(16)));
    check(Kind::TooDeep, &format!("passive a = ({}) ^* 1", sum(16)));
    // brackets add none, and the right side may be deep too
    accepted(&format!("passive a = {}{}{}", "(".repeat(30_000), "1", ")".repeat(30_000)));
    accepted(&format!("passive a = 1{}{}", "+(1".repeat(15), ")".repeat(15)));
    check(Kind::TooDeep, &format!("passive a = 1{}^+(1{}", "+(1".repeat(15), ")".repeat(16)));
    check(Kind::Outside, &format!("passive a = 1{}{}^]", "+(1".repeat(15), ")".repeat(14)));
    check(Kind::TooDeep, &format!("passive a = {}{}{} ^- 1", "(".repeat(9_000), sum(16), ")".repeat(9_000)));
    // `if`
    let choice = |n: usize| "if(1,2,".repeat(n) + "3" + &")".repeat(n);
    accepted(&format!("passive a = {}", choice(15)));
    check(Kind::TooDeep, &format!("passive a = {}^if(1,2,3){}", "if(1,2,".repeat(15), ")".repeat(15)));
    check(Kind::TooDeep, &format!("passive a = {}^if 1", "if(1,".repeat(15)));
    check(Kind::Outside, &format!("passive a = if(1, 2, {}^]", choice(14)));
    check(Kind::TooDeep, &format!("passive a = {}^{}", "if(1,2,".repeat(15), "if(1,2,".repeat(9_000)));
    // as many brackets as a text has bytes
    let front = "passive a =";
    check(Kind::Outside, &format!("{front}{}", "(".repeat(TEXT - front.len())));
}

#[test]
fn names_and_cells() {
    let base = "param p event e rank 0 active x = 0 row r[3] = 0 row s[3] = 0 row t[2] = 0\n";
    for text in ["passive a = ^nix", "passive a = x + ^nix[0]", "passive a = ^e", "active a = 0 on e: ^nix"] {
        check(Kind::UnknownName, &format!("{base}{text}"));
    }
    let none =
        ["passive a = p^[0]", "passive a = x ^[0]", "passive a = a^[1]", "passive a = r^[3]", "passive a = t^[2]"];
    for text in none {
        check(Kind::NoCell, &format!("{base}{text}"));
    }
    check(Kind::NoCell, &format!("{base}row u[3] = 0 on e: s[1] + s^[0]"));
    check(Kind::NoCell, &format!("{base}row u[3] = 0 on e: u^[0]"));
    accepted(&format!("{base}row u[3] = 0 on e: s[1] + s + t[0] + v[1] + p passive q = u[0] row v[3] = 0"));
    assert_eq!(
        accepted(&format!("{base}passive a = r[0] + s[2] + t + later1 passive later1 = 7")),
        accepted(&format!("{base}passive a = r + s[2] + t[0] + b passive b = 7"))
    );
}

/// Eleven passives of 703 bytes each.
fn long() -> String {
    many(11, |k| format!("passive a{k} = {}", bushy(6)))
}

#[test]
fn sizes() {
    let long = long();
    assert_eq!(accepted(&long).len(), 11 * 703);
    check(Kind::LongSheet, &format!("{long}passive b = {} # the end\n", bushy(6)));
    let front = "passive a = 1 #";
    let padded = |to: usize| front.to_string() + &"x".repeat(to - front.len());
    accepted(&padded(TEXT));
    check(Kind::LongText, &format!("{}^x", padded(TEXT)));
    check(Kind::LongText, &format!("{}^x\n  x", padded(TEXT)));
    check(Kind::LongText, &format!("{}^\n", "\n".repeat(TEXT)));
    check(Kind::LongText, &format!("{}^$$", "$".repeat(TEXT)));
}

/// A sheet of exactly 8,192 bytes passes, one more byte does not.
#[test]
fn the_last_byte() {
    // 459 bytes are left: a passive over a name has 7, over a constant 10, and 4 more for each `!`
    let fill = ["!!!!!!!!!!!!!!!a0"; 6].into_iter().chain(["a0", "!!!!!!!!!!1"]);
    let fill: String = fill.enumerate().map(|(k, f)| format!("passive c{k} = {f}\n")).collect();
    let text = long() + &fill;
    let sheet = accepted(&text);
    assert_eq!(sheet.len(), SHEET);
    check(Kind::LongSheet, &format!("{text}passive z = a0"));
    let mut buffer = vec![9; SHEET + 3];
    assert_eq!(assemble_into(text.as_bytes(), &mut buffer), Ok(SHEET));
    assert_eq!((&buffer[..SHEET], &buffer[SHEET..]), (&sheet[..], &[9, 9, 9][..]));
    let mut buffer = vec![9; SHEET - 1];
    let fault = assemble_into(text.as_bytes(), &mut buffer).expect_err("a byte too few");
    assert_eq!((fault.kind, fault.place), (Kind::ShortBuffer, marked(&text).1));
    assert!(buffer.iter().all(|b| *b == 9), "nothing is changed");
}

/// 50 behaviours and two events, before every fault below.
const BASE: &str = "param p event e rank 0 event f rank 0 row r[16] = 0 row s[16] = 0 row t[16] = 0 \
                    active x = 0 active y = 0\n";

/// A declaration for each fault that stands in one place; the number tells copies apart.
fn planted(kind: Kind, n: usize) -> String {
    match kind {
        Kind::Outside => format!("passive a{n} = ^]"),
        Kind::LargeNumber => format!("passive a{n} = ^2147483648"),
        Kind::OffTheScale => format!("passive a{n} = 1 seen by ^9"),
        Kind::Crowded => format!("row a{n}[^16] = 0"),
        Kind::Doubled => "active ^x = 0".to_string(),
        Kind::SecondHandler => format!("active a{n} = 0 on e: 1 on ^e: 1"),
        Kind::TooDeep => format!("passive a{n} = !!!!!!!!!!!!!!!^!1"),
        Kind::UnknownName => format!("passive a{n} = ^nix"),
        Kind::NoCell => format!("passive a{n} = y^[1]"),
        Kind::LongSheet => format!("passive a{n} = {}", bushy(11)),
        Kind::LongText => format!("# {}", "long ".repeat(TEXT / 5)),
        Kind::ShortBuffer => format!("passive a{n} = 1"),
    }
}

/// When a kind is looked for: all at once from left to right, or over the whole text.
fn pass(kind: Kind) -> usize {
    match kind {
        Kind::LongText => 0,
        Kind::UnknownName | Kind::NoCell => 2,
        Kind::LongSheet => 3,
        Kind::ShortBuffer => 4,
        _ => 1,
    }
}

/// Every two kinds, each first in the text: the earlier pass is answered, and within one the earlier place. Only a
/// short buffer and another kind need a buffer.
#[test]
fn every_pair() {
    let mut pairs = 0;
    for &first in Kind::ALL {
        for &second in Kind::ALL {
            let wanted = if pass(second) < pass(first) { second } else { first };
            let (one, other) = (planted(first, 1), planted(second, 2));
            let own = |kind: Kind, text: String| if kind == wanted { text } else { text.replace('^', "") };
            // of two alike the first counts
            let other = if first == second { other.replace('^', "") } else { own(second, other) };
            let (text, place) = marked(&format!("{BASE}{}\n{other}\n", own(first, one)));
            let place = if wanted == Kind::LongText { marked(&text[..TEXT]).1 } else { place };
            let room = if [first, second].contains(&Kind::ShortBuffer) { 0 } else { SHEET };
            let mut buffer = vec![7; room];
            let fault = assemble_into(text.as_bytes(), &mut buffer).expect_err("two faults");
            assert_eq!((fault.kind, fault.place), (wanted, place), "{first:?} and {second:?}: {fault}");
            assert!(buffer.iter().all(|b| *b == 7), "nothing is changed");
            pairs += 1;
        }
    }
    assert_eq!(pairs, Kind::ALL.len() * Kind::ALL.len());
}

#[test]
fn numbers_and_words() {
    let words: std::collections::HashSet<&str> = Kind::ALL.iter().map(|k| k.word()).collect();
    assert_eq!(words.len(), Kind::ALL.len(), "a word of its own");
    assert!(Kind::ALL.iter().map(|k| k.number()).eq(31..31 + Kind::ALL.len() as u32), "numbers in a row");
}

/// A formula read by one function a level, each told how deep its part may nest: a token's number where the first fault
/// is, and whether it nests too deep there; or where the formula ends.
struct Levels<'a> {
    tokens: Vec<&'a str>,
    at: usize,
}

/// The fault's token, and its kind.
type Read<T> = Result<T, (usize, Kind)>;

const LEVELS: [&[&str]; 6] = [&["*", "/"], &["+", "-"], &["<", ">="], &["==", "!="], &["&&"], &["||"]];

impl Levels<'_> {
    fn token(&self) -> &str {
        self.tokens.get(self.at).copied().unwrap_or("")
    }

    fn past(&mut self, token: &str) -> Read<()> {
        if self.token() != token {
            return Err((self.at, Kind::Outside));
        }
        self.at += 1;
        Ok(())
    }

    /// The room for the arguments of a function there, the first of which nests so deep.
    fn inside(from: usize, room: usize, nesting: usize) -> Read<usize> {
        if nesting >= room {
            return Err((from, Kind::TooDeep));
        }
        Ok(room - 1)
    }

    fn operand(&mut self, room: usize) -> Read<usize> {
        let from = self.at;
        self.at += 1;
        match self.tokens.get(from).copied().unwrap_or("") {
            "1" | "a" => Ok(1),
            "-" => self.past("1").map(|()| 1),
            "!" => self.operand(Levels::inside(from, room, 1)?).map(|nesting| nesting + 1),
            "(" => {
                let nesting = self.level(6, room)?;
                self.past(")").map(|()| nesting)
            }
            "if" => {
                let room = Levels::inside(from, room, 1)?;
                self.past("(")?;
                let first = self.level(6, room)?;
                self.past(",")?;
                let second = self.level(6, room)?;
                self.past(",")?;
                let third = self.level(6, room)?;
                self.past(")")?;
                Ok(1 + first.max(second).max(third))
            }
            _ => Err((from, Kind::Outside)),
        }
    }

    fn level(&mut self, level: usize, room: usize) -> Read<usize> {
        if level == 0 {
            return self.operand(room);
        }
        let mut left = self.level(level - 1, room)?;
        while LEVELS[level - 1].contains(&self.token()) {
            let room = Levels::inside(self.at, room, left)?;
            self.at += 1;
            left = 1 + left.max(self.level(level - 1, room)?);
        }
        Ok(left)
    }
}

/// So many pieces of a formula, mostly what may follow, and what it takes to end it.
fn some_formula(below: &mut dyn FnMut(usize) -> usize) -> String {
    let due = ["!", "(", "if (", "1", "a", "- 1", "! ! !"];
    let operators = ["+", "*", "<", "==", "&&", "||", "-", "!=", ">=", "/"];
    let mut pieces: Vec<&str> = vec![];
    // for each bracket that is open, the commas that are due in it
    let mut open: Vec<usize> = vec![];
    let mut operand = false;
    for _ in 0..1 + below(50) {
        let piece = match (operand, open.last().copied()) {
            _ if below(80) == 0 => ["!", ")", ",", "1", "if", "+", "("][below(7)],
            (false, _) => due[below(due.len())],
            (true, Some(0)) if below(3) == 0 => ")",
            (true, Some(_)) if below(3) == 0 => ",",
            (true, _) => operators[below(operators.len())],
        };
        operand = piece.ends_with(['1', 'a', ')']);
        match piece {
            "(" => open.push(0),
            "if (" => open.push(2),
            ")" => drop(open.pop()),
            "," => open.iter_mut().last().map_or((), |commas| *commas = commas.saturating_sub(1)),
            _ => {}
        }
        pieces.push(piece);
    }
    pieces.extend((!operand).then_some("1"));
    for commas in open.into_iter().rev() {
        pieces.extend([", 1"].repeat(commas));
        pieces.push(")");
    }
    pieces.join(" ")
}

/// The reader has a stack of its own; it finds the fault that functions which call each other find.
#[test]
fn one_function_a_level() {
    let mut state = 7u64;
    let mut below = |n: usize| {
        state = state.wrapping_mul(6364136223846793005).wrapping_add(1442695040888963407);
        (state >> 33) as usize % n
    };
    let mut seen = [0; 3];
    for _ in 0..20_000 {
        let text = some_formula(&mut below);
        let tokens: Vec<&str> = text.split(' ').collect();
        let mut levels = Levels { tokens, at: 0 };
        let ends = |levels: &Levels| if levels.token().is_empty() { Ok(()) } else { Err((levels.at, Kind::Outside)) };
        let whole = levels.level(6, 16).and_then(|_| ends(&levels));
        let front = "passive a = ";
        let column = |token: usize| {
            let before: usize = levels.tokens.iter().take(token).map(|t| t.len() + 1).sum();
            front.len() + 1 + before.min(text.len())
        };
        let wanted = whole.map_err(|(token, kind)| (kind, column(token)));
        let read = assemble(format!("{front}{text}").as_bytes());
        let found = read.map(|_| ()).map_err(|fault| (fault.kind, fault.place.column));
        assert_eq!(found, wanted, "{text}");
        seen[wanted.map_or_else(|(kind, _)| 1 + (kind == Kind::TooDeep) as usize, |()| 0)] += 1;
    }
    assert!(seen.iter().all(|n| *n > 300), "all happen: {seen:?}");
}
