//! The setter's text: sheets of every seed go to text and back, texts are written otherwise, damaged, and put together
//! from tokens, and there are texts at each limit. The proved assemble and describe are held against the plain reader
//! and writer, what comes out against the proved compile and the proved reader of formulas.
use sheet_text::{assemble, decode, describe, encode, Fault, Kind, NAME, SHEET, TEXT};

use crate::cases;
use crate::compare::Case;
use crate::edges;
use crate::formula;
use crate::make::{self, Rng};
use crate::proved::{self, TABLE};
use crate::signature::FUNCTIONS;

#[derive(Default)]
pub struct Tally {
    /// Proved calls that were held against the plain reader and writer.
    calls: usize,
    /// Sheets that compile accepts, all of which went round.
    rounds: usize,
    /// Sheets with a circle or too many instructions, which go round too.
    others: usize,
    refused: usize,
    /// Texts of these sheets written otherwise: the same bytes.
    rewritten: usize,
    /// Texts that were read, and those with a fault, by kind.
    read: usize,
    faults: Vec<(Kind, usize)>,
    formulas: usize,
    longest: usize,
}

impl Tally {
    fn fault(&mut self, kind: Kind) {
        match self.faults.iter_mut().find(|(k, _)| *k == kind) {
            Some((_, count)) => *count += 1,
            None => self.faults.push((kind, 1)),
        }
    }
}

/// What buffers are filled with before a call.
const FILL: u8 = 0xA5;

/// compile's number with all parameters lent.
fn compile(sheet: &[u8]) -> u32 {
    proved::compile(sheet, &[0; 32], &mut vec![0; TABLE])
}

/// A fault as the call answers it.
fn packed(kind: Kind, line: usize, column: usize) -> u64 {
    ((kind.number() as u64) << 56) + ((line as u64) << 28) + column as u64
}

/// What assemble answers with a buffer of so many bytes, by the plain reader.
pub fn assembled(text: &[u8], room: usize) -> u64 {
    match assemble(text) {
        Err(fault) => packed(fault.kind, fault.place.line, fault.place.column),
        Ok(read) if read.sheet.len() > room => {
            let last = text.rsplit(|b| *b == b'\n').next().unwrap_or(b"").len();
            packed(Kind::ShortBuffer, 1 + text.iter().filter(|b| **b == b'\n').count(), last + 1)
        }
        Ok(read) => (1 << 32) + read.sheet.len() as u64,
    }
}

/// What describe answers with a buffer of so many bytes, by compile and the plain writer.
pub fn described(sheet: &[u8], room: usize) -> u64 {
    match (compile(sheet), describe(sheet)) {
        (0, Ok(text)) if text.len() > room => Kind::ShortBuffer.number() as u64,
        (0, Ok(text)) => (1 << 32) + text.len() as u64,
        (number, _) => number as u64,
    }
}

type Call = fn(&[u8], &mut [u8]) -> u64;

/// A call on a buffer of so many bytes: the answer that is due, the bytes that are, and the others as they were.
fn held(call: Call, lent: &[u8], room: usize, want: u64, whole: &[u8]) -> Result<(), String> {
    let mut buffer = vec![FILL; room];
    let answer = call(lent, &mut buffer);
    let written = if want >> 32 == 1 { want as u32 as usize } else { 0 };
    if answer != want {
        return Err(format!("answers {answer:x}, not {want:x}, with {room} bytes lent"));
    }
    if buffer[..written] != whole[..written] {
        return Err(format!("writes other bytes with {room} lent"));
    }
    if buffer[written..].iter().any(|b| *b != FILL) {
        return Err(format!("changes bytes behind the {written} with {room} lent"));
    }
    Ok(())
}

/// assemble answers as the plain reader does: with room for any sheet, with just enough, with a byte too few and with
/// none.
fn held_assemble(call: Call, text: &[u8]) -> Result<usize, String> {
    let sheet = assemble(text).map(|read| read.sheet).unwrap_or_default();
    let rooms = [SHEET, sheet.len(), sheet.len().saturating_sub(1), 0];
    rooms.into_iter().try_for_each(|room| held(call, text, room, assembled(text, room), &sheet))?;
    Ok(rooms.len())
}

/// describe as compile and the plain writer do.
fn held_describe(call: Call, sheet: &[u8]) -> Result<usize, String> {
    let text = describe(sheet).unwrap_or_default();
    let rooms = [TEXT, text.len(), text.len().saturating_sub(1), 0];
    rooms.into_iter().try_for_each(|room| held(call, sheet, room, described(sheet, room), text.as_bytes()))?;
    Ok(rooms.len())
}

/// The proved assemble on a text; whether a buffer was too short is counted as a fault.
fn proved_assemble(text: &[u8], tally: &mut Tally) {
    let shown = || String::from_utf8_lossy(&text[..text.len().min(2000)]).into_owned();
    tally.calls += held_assemble(proved::assemble, text).unwrap_or_else(|e| panic!("assemble {e}\n{}", shown()));
    if assemble(text).is_ok_and(|read| !read.sheet.is_empty()) {
        tally.fault(Kind::ShortBuffer);
    }
}

/// The proved describe on a sheet, and what it writes by the proved assemble: the sheet again.
fn proved_describe(sheet: &[u8], tally: &mut Tally) {
    tally.calls += held_describe(proved::describe, sheet).unwrap_or_else(|e| panic!("describe {e}\n{sheet:?}"));
    let (mut text, mut again) = (vec![0; TEXT], vec![0; SHEET]);
    let answer = proved::describe(sheet, &mut text);
    if answer >> 32 == 1 {
        let answer = proved::assemble(&text[..answer as u32 as usize], &mut again);
        assert_eq!(answer, (1 << 32) + sheet.len() as u64, "what describe wrote is a sheet of as many bytes");
        assert!(again[..sheet.len()] == *sheet, "what describe wrote is another sheet");
    }
}

/// Answers and bytes that are a little wrong are noticed.
fn planted() -> usize {
    let text = b"event e rank 1\nactive a = 0\n  on e: a + 1\n";
    let wrong: [Call; 7] = [
        |t, b| proved::assemble(t, b) + 1,
        |t, b| proved::assemble(t, b) + (1 << 28),
        |t, b| proved::assemble(t, b) + (1 << 56),
        |t, b| proved::assemble(t, b).min((1 << 56) - 1),
        |t, b| {
            let answer = proved::assemble(t, b);
            b.iter_mut().take(1).for_each(|b| *b ^= 1);
            answer
        },
        |t, b| {
            let answer = proved::assemble(t, b);
            b.iter_mut().last().into_iter().for_each(|b| *b ^= 1);
            answer
        },
        |t, b| match proved::assemble(t, b) {
            fault if fault >> 56 == 41 => proved::assemble(t, &mut vec![0; b.len() + 1]),
            other => other,
        },
    ];
    assert!(held_assemble(proved::assemble, text).is_ok() && held_describe(proved::describe, b"").is_ok());
    for (k, call) in wrong.iter().enumerate() {
        assert!(held_assemble(*call, text).is_err(), "planted difference {k} was not noticed");
    }
    let seven = [2, 0, 7, 0x10, 0, 4, 0, 0, 0, 7];
    let space: Call = |s, b| {
        let answer = proved::describe(s, b);
        b.iter_mut().filter(|b| **b == b'=').for_each(|b| *b = b' ');
        answer
    };
    assert!(held_describe(space, &seven).is_err(), "a planted space was not noticed");
    assert!(held_describe(|s, b| proved::describe(s, b) ^ 1, &seven).is_err(), "another length was not noticed");
    wrong.len() + 2
}

/// A sheet's bytes: decode refuses what compile does on reading, and all else goes round.
fn round(bytes: &[u8], tally: &mut Tally) -> Option<String> {
    let number = compile(bytes);
    proved_describe(bytes, tally);
    let text = match describe(bytes) {
        Err(refusal) => {
            assert_eq!(refusal, number, "describe's refusal is compile's");
            tally.refused += 1;
            return None;
        }
        Ok(text) => text,
    };
    assert!([0, 12, 13].contains(&number), "describe took a sheet that compile refuses by {number}");
    assert!(text.len() <= TEXT, "a text of {} bytes", text.len());
    proved_assemble(text.as_bytes(), tally);
    let read = assemble(text.as_bytes()).unwrap_or_else(|fault| panic!("{fault}\n{text}"));
    assert!(read.sheet == bytes, "another sheet came back\n{text}");
    assert!(decode(bytes).map(|s| encode(&s)).as_deref() == Ok(bytes), "the declarations are the bytes'");
    tally.longest = tally.longest.max(text.len());
    *(if number == 0 { &mut tally.rounds } else { &mut tally.others }) += 1;
    Some(text)
}

/// Where a fault may be: a token's first byte, or the end; where a text is too long, the first byte that is too many.
fn within(text: &[u8], fault: &Fault) {
    let text = if fault.kind == Kind::LongText { &text[..TEXT] } else { text };
    let lines: Vec<&[u8]> = text.split(|b| *b == b'\n').collect();
    let line = lines.get(fault.place.line - 1).unwrap_or_else(|| panic!("{fault}: no such line"));
    assert!((1..=line.len() + 1).contains(&fault.place.column), "{fault}: no such column");
    if fault.place.column == line.len() + 1 {
        assert_eq!(fault.place.line, lines.len(), "{fault}: not at a token, nor at the end");
    } else {
        assert!(!b" \t\r#".contains(&line[fault.place.column - 1]), "{fault}: not at a token");
    }
}

/// Any text: a sheet that compile takes but for 12 and 13, or a fault within the text.
fn any(text: &[u8], tally: &mut Tally) {
    proved_assemble(text, tally);
    match assemble(text) {
        Ok(read) => {
            tally.read += 1;
            assert!(read.sheet.len() <= SHEET);
            assert!(round(&read.sheet, tally).is_some(), "compile does not read what assemble wrote");
        }
        Err(fault) => {
            within(text, &fault);
            tally.fault(fault.kind);
        }
    }
}

/// What texts are made of beside the functions, and a little more.
const PIECES: [&str; 34] = [
    "param ",
    "event ",
    "rank ",
    "from ",
    "passive ",
    "active ",
    "row ",
    "seen ",
    "by ",
    "nobody ",
    "on ",
    "later ",
    "(",
    ")",
    ",",
    ":",
    "=",
    "[",
    "]",
    "0 ",
    "1 ",
    "7 ",
    "16 ",
    "2147483648 ",
    "b0 ",
    "b1 ",
    "p0 ",
    "e0 ",
    "nix ",
    "\n",
    "# \u{e4}\n",
    "[0]",
    "$",
    "!!!!!!!!",
];

fn piece(r: &mut Rng) -> &'static str {
    let i = r.below(PIECES.len() + FUNCTIONS.len());
    PIECES.get(i).copied().unwrap_or_else(|| FUNCTIONS[i - PIECES.len()].text)
}

/// A byte changed, left out or doubled.
fn scratched(r: &mut Rng, text: &str) -> Vec<u8> {
    let mut bytes = text.as_bytes().to_vec();
    if bytes.is_empty() {
        return vec![r.next() as u8];
    }
    let at = r.below(bytes.len());
    match r.below(4) {
        0 => bytes[at] = r.next() as u8,
        1 => bytes[at] = text.as_bytes()[r.below(text.len())],
        2 => drop(bytes.remove(at)),
        _ => bytes.insert(at, bytes[at]),
    }
    bytes
}

/// Pieces left out, doubled, put in or changed; bytes too.
fn damaged(r: &mut Rng, text: &str) -> Vec<u8> {
    let mut pieces: Vec<&str> = pieces_of(text);
    for _ in 0..1 + r.below(3) {
        let at = r.below(pieces.len() + 1);
        let new = piece(r);
        match r.below(5) {
            0 if at < pieces.len() => pieces[at] = new,
            1 if at < pieces.len() => drop(pieces.remove(at)),
            2 if at < pieces.len() => pieces.insert(at, pieces[at]),
            3 if at < pieces.len() && !pieces.is_empty() => pieces.swap(at, 0),
            _ => pieces.insert(at, new),
        }
    }
    let mut bytes = pieces.concat().into_bytes();
    if r.one_in(4) && !bytes.is_empty() {
        let at = r.below(bytes.len());
        bytes[at] = r.next() as u8;
    }
    bytes
}

/// Words and numbers, and each other byte.
fn pieces_of(text: &str) -> Vec<&str> {
    let mut pieces = vec![];
    let mut rest = text;
    while !rest.is_empty() {
        let length = rest.find(|c: char| !c.is_ascii_alphanumeric()).unwrap_or(rest.len()).max(1);
        let (piece, after) = rest.split_at(length);
        pieces.push(piece);
        rest = after;
    }
    pieces
}

/// A text that stays near the grammar: another name or number, a cell, deeper formulas, lines doubled, moved, left out
/// and added.
fn bent(r: &mut Rng, text: &str) -> String {
    let mut lines: Vec<String> = text.lines().map(str::to_string).collect();
    for _ in 0..1 + r.below(2) {
        let at = r.below(lines.len() + 1);
        match r.below(7) {
            0 if at < lines.len() => lines.insert(at, lines[at].clone()),
            1 if at < lines.len() => drop(lines.remove(at)),
            2 => lines.extend((0..1 + r.below(5)).map(|k| format!("row x{k}[{}]=0", r.below(18)))),
            3 => lines.splice(0..0, (0..r.below(10)).map(|k| format!("param x{k}"))).for_each(drop),
            4 => lines.push(format!("passive big={}", "(1+".repeat(r.below(20)) + "1" + &")".repeat(r.below(20)))),
            _ if at < lines.len() => lines[at] = other_token(r, &lines[at]),
            _ => {}
        }
    }
    lines.join("\n")
}

/// A line with one of its names or numbers changed.
fn other_token(r: &mut Rng, line: &str) -> String {
    let mut pieces: Vec<String> = pieces_of(line).into_iter().map(str::to_string).collect();
    let words: Vec<usize> = (0..pieces.len()).filter(|k| pieces[*k].ends_with(|c: char| c.is_ascii_digit())).collect();
    if words.is_empty() {
        return line.to_string();
    }
    let at = words[r.below(words.len())];
    let old = pieces[at].clone();
    pieces[at] = match r.below(6) {
        0 => format!("{old}[{}]", r.below(17)),
        1 => format!("{}{old}", "!".repeat(1 + r.below(16))),
        2 => format!("-{old}"),
        3 => ["0", "8", "16", "2147483648", "007"][r.below(5)].to_string(),
        _ => format!("{}{}", ["b", "p", "e"][r.below(3)], r.below(9)),
    };
    pieces.concat()
}

/// A line with its formula in brackets, which may be many, its players in another order, and a parameter's value.
fn otherwise(r: &mut Rng, line: &str) -> String {
    if line.starts_with("param") {
        return format!("{line} = {}", ["0", "-2147483648", "2147483647", "007"][r.below(4)]);
    }
    let (front, back) = match (line.split_once(" from "), line.split_once("seen by ")) {
        (Some((front, players)), _) => (front.to_string(), format!(" from {}", shuffled(r, players))),
        (_, Some((front, players))) => (front.to_string(), format!(" seen by {}", shuffled(r, players))),
        _ => (line.to_string(), String::new()),
    };
    let formula = if line.starts_with("passive") { front.split_once('=') } else { front.split_once(':') };
    match formula {
        Some((name, formula)) => {
            let n = [0, 1, 2, 40][r.below(4)];
            let mark = if line.starts_with("passive") { '=' } else { ':' };
            format!("{name}{mark}{}{formula}{}{back}", "(".repeat(n), ")".repeat(n))
        }
        None => front + &back,
    }
}

/// Players in another order, some of them twice.
fn shuffled(r: &mut Rng, players: &str) -> String {
    let mut all: Vec<&str> = players.split(' ').collect();
    if all != ["nobody"] {
        all.extend(players.split(' ').filter(|_| r.one_in(3)).collect::<Vec<_>>());
        let by = r.below(all.len());
        all.rotate_left(by);
    }
    all.join(" ")
}

/// The same text with other names, spaces, comments, zeros, brackets and orders of players: the same bytes.
fn rewritten(r: &mut Rng, text: &str, sheet: &[u8], tally: &mut Tally) {
    let long = "x".repeat(NAME - 3);
    let lines: Vec<String> = text.lines().map(|line| otherwise(r, line)).collect();
    let mut other = String::new();
    for token in pieces_of(&(lines.join("\n") + "\n")) {
        let number = token.trim_start_matches(['e', 'b', 'p']);
        let digits = !number.is_empty() && number.bytes().all(|b| b.is_ascii_digit());
        other += &match (number.len() + 1 == token.len() && digits, digits && number == token && r.one_in(5)) {
            (true, _) => format!("{long}{token}"),
            (_, true) => format!("00{token}"),
            _ => token.to_string(),
        };
        let joined = matches!(token, "=" | "!" | "<" | ">" | "&" | "|");
        if !joined && r.one_in(5) {
            other += [" ", "\t", "\r\n", "# ;\u{e4}\n"][r.below(4)];
        }
    }
    if other.len() > TEXT {
        return;
    }
    proved_assemble(other.as_bytes(), tally);
    let read = assemble(other.as_bytes()).unwrap_or_else(|fault| panic!("{fault}\n{other}"));
    assert!(read.sheet == sheet, "names, spaces or brackets matter\n{other}");
    tally.rewritten += 1;
}

/// A formula of 02 in a sheet of 64 behaviours: the field that the proved reader writes, or its refusal.
fn formulas(r: &mut Rng, tally: &mut Tally) {
    let mut text = String::new();
    let depth = 1 + r.below(6);
    formula::text(r, depth, &mut text);
    if r.one_in(6) {
        text = format!("{}({text})", "!".repeat(r.below(20)));
    }
    let mut field = vec![0; SHEET];
    let answer = proved::formula(text.as_bytes(), &mut field);
    let names: String = (0..63).map(|k| format!("active b{k}=0\n")).collect();
    let read = assemble(format!("{names}passive b63={text}").as_bytes());
    tally.formulas += 1;
    match (answer, read) {
        (21, _) => {}
        (22, Err(fault)) => assert!(matches!(fault.kind, Kind::LargeNumber | Kind::TooDeep), "{fault} {text}"),
        (9, Err(fault)) => assert_eq!(fault.kind, Kind::TooDeep, "{fault} {text}"),
        (_, Err(fault)) => {
            assert!(answer as u32 as usize > 5000 && fault.kind == Kind::LongSheet, "{fault} {text}");
        }
        (_, Ok(read)) => assert!(read.sheet.ends_with(&field[..answer as u32 as usize]), "the field of {text}"),
    }
}

fn one(seed: u64, tally: &mut Tally) {
    let r = &mut Rng::new(seed ^ 0x7E87);
    let mut sheets = vec![Case::new(seed).bytes, make::rowed(r)];
    sheets.push(make::damaged(r, sheets[seed as usize % 2].clone()));
    for sheet in sheets {
        let Some(text) = round(&sheet, tally) else { continue };
        rewritten(r, &text, &sheet, tally);
        for _ in 0..3 {
            any(&scratched(r, &text), tally);
            any(&damaged(r, &text), tally);
            any(bent(r, &text).as_bytes(), tally);
        }
    }
    let pieces = 1 + r.below(30);
    let text: String = (0..pieces).map(|_| piece(r)).collect();
    any(text.as_bytes(), tally);
    formulas(r, tally);
}

pub fn run(first: u64, count: u64) {
    let noticed = planted();
    let mut tally = Tally::default();
    let edges = edges::texts();
    edges.iter().for_each(|text| any(text.as_bytes(), &mut tally));
    cases::sheet_texts().iter().for_each(|(_, text)| any(text, &mut tally));
    let met = |kind: &Kind| tally.faults.iter().any(|(k, _)| k == kind);
    let missing: Vec<u32> = Kind::ALL.iter().filter(|k| !met(k)).map(|k| k.number()).collect();
    assert!(missing.is_empty(), "no text at a limit has a fault {missing:?}");
    for seed in first..first + count {
        let done = std::panic::catch_unwind(std::panic::AssertUnwindSafe(|| one(seed, &mut tally)));
        if done.is_err() {
            println!("texts: seed {seed} differs; second text {seed} 1 repeats it");
            std::process::exit(1);
        }
    }
    let Tally { calls, rounds, others, refused, rewritten, read, mut faults, formulas, longest } = tally;
    faults.sort();
    println!("texts: {calls} calls of assemble and describe answered as the plain reader and writer do");
    print!("texts: {rounds} accepted sheets went round, {others} with 12 or 13, {refused} were not sheets; ");
    print!("{rewritten} were written otherwise; the longest text has {longest} bytes; {} at a limit; ", edges.len());
    print!("{read} other texts were read, faults");
    faults.iter().for_each(|(kind, count)| print!(" {}:{count}", kind.number()));
    println!("; {formulas} formulas; {noticed} planted differences are noticed");
}
