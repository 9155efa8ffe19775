//! What the proved engine says of a sheet: its sizes, whether two phones agree, and what may leak.
use crate::failure::Failure;
use crate::file::{bytes_of, faults, is_sheet, SheetFile};
use crate::json::{list, object, text};
use crate::phones::{Answer, Meeting, Phones, Wish};
use crate::wording::{folded, listed, long, several, spans};
use poqashem::{Behaviour, Event, Leak, Player, Refusal, Table};
use std::fmt::Write;

const SHEET: u64 = poqashem::SHEET as u64;
const PARAMS: u64 = 8;
const EVENTS: u64 = 32;
const BEHAVIOURS: u64 = 64;
const INSTRUCTIONS: u64 = 4_096;
/// How wide what stands there may be.
const COLUMNS: usize = 100;
/// The width of what stands before each line of the report.
const MARGIN: usize = 16;
/// What is asked of a check.
#[derive(Default)]
pub struct Asked {
    pub wish: Wish,
    /// As JSON.
    pub json: bool,
    /// So many steps are a frame.
    pub frame: Option<u64>,
}

/// What a check says, and what a strict one turns down: phones that may end apart, and what may leak.
pub fn check(file: &SheetFile, asked: &Asked) -> Result<(String, Option<String>), Failure> {
    let table = file.compile()?;
    let phones = Phones::of(file, &table, &asked.wish)?;
    let groups = groups(file, &table)?;
    let said = if asked.json { json(&phones, &groups)? } else { report(&phones, &groups, asked.frame)? };
    let apart = (phones.answer == Answer::Apart).then_some("phones may end apart");
    let leaks = groups.iter().any(|(.., leak)| leak.is_some()).then_some("something may leak");
    let both: Vec<String> = [apart, leaks].into_iter().flatten().map(str::to_string).collect();
    Ok((said, (!both.is_empty()).then(|| format!("{}: {}, and the check is strict", file.path, listed(&both)))))
}

/// The report as JSON.
fn json(phones: &Phones, groups: &[Group]) -> Result<String, Failure> {
    let (file, table) = (phones.file, phones.table);
    let rank = |e: Event| table.rank(e).unwrap_or(0).to_string();
    let counts = instructions(file, table)?;
    let event = |(e, n): &(Event, u64)| {
        object(&[("name", text(&file.event(*e))), ("rank", rank(*e)), ("instructions", n.to_string())])
    };
    let player = |(who, hidden, leak): &Group| {
        let leak = leak.map_or("null".to_string(), |l| text(&file.behaviour(l.seen)));
        let hidden = list(hidden.iter().map(|name| text(name)));
        object(&[("players", list(who.iter().map(u32::to_string))), ("hidden", hidden), ("leak", leak)])
    };
    let value = |p: &crate::names::Param| p.value.map_or("null".to_string(), |v| v.to_string());
    let param = |p: &crate::names::Param| object(&[("name", text(&p.name)), ("value", value(p))]);
    let fields = [
        ("file", text(&file.path)),
        ("accepted", "true".to_string()),
        ("bytes", file.sheet.bytes().len().to_string()),
        ("parameters", list(file.params.iter().map(param))),
        ("events", list(counts.iter().map(event))),
        ("behaviours", list(file.everything().iter().map(|shown| text(&shown.label)))),
    ];
    let rest = [
        ("players", list(groups.iter().map(player))),
        ("warnings", list(warnings(file).iter().map(|warning| text(warning)))),
    ];
    Ok(object(&[&fields[..], &json_phones(phones), &rest].concat()) + "\n")
}

/// What is told of two phones.
fn json_phones(phones: &Phones) -> Vec<(&'static str, String)> {
    let file = phones.file;
    let names = |events: &[Event]| list(events.iter().map(|e| text(&file.event(*e))));
    let pair = |m: &Meeting| {
        let s = &m.shared;
        let flag = |(key, set): (&'static str, bool)| (key, set.to_string());
        let flags = [
            ("first_writes", s.first_writes),
            ("first_reads", s.first_reads),
            ("second_writes", s.second_writes),
            ("second_reads", s.second_reads),
        ];
        let names = [("first", m.first), ("second", m.second)].map(|(key, e)| (key, text(&file.event(e))));
        let share = [("share", text(&file.behaviour(s.behaviour)))];
        object(&[&names[..], &share, &flags.map(flag)].concat())
    };
    let searched = phones.told.as_ref().map_or("null".to_string(), |told| {
        let board = |board: &Vec<i32>| list(board.iter().map(i32::to_string));
        let found = told.found.as_ref().map_or("null".to_string(), |f| {
            object(&[
                ("before", names(&f.before)),
                ("slow", text(&file.event(f.slow))),
                ("urgent", text(&file.event(f.urgent))),
                ("boards", list(f.boards.iter().map(board))),
                ("differs", text(&file.behaviour(f.differs()))),
            ])
        });
        object(&[("boards", told.looked.to_string()), ("all", told.all.to_string()), ("found", found)])
    });
    let equal = (0..).zip(&phones.equal).filter(|(_, equal)| **equal).map(|(b, _)| text(&file.behaviour(Behaviour(b))));
    vec![
        ("agree", (phones.answer == Answer::Agree).to_string()),
        ("apart", (phones.answer == Answer::Apart).to_string()),
        ("pairs", list(phones.meetings.iter().map(pair))),
        ("groups", list(phones.groups.iter().map(|group| names(group)))),
        ("equal", list(equal)),
        ("search", searched),
    ]
}

/// The faults of a text as JSON, or why the file is turned down otherwise.
pub fn json_faults(path: &str, failure: &Failure) -> String {
    let bytes = bytes_of(path).unwrap_or_default();
    let faults = if is_sheet(&bytes) { vec![] } else { faults(&bytes) };
    let fault = |f: &sheet_text::Fault| {
        object(&[
            ("kind", f.kind.number().to_string()),
            ("line", f.place.line.to_string()),
            ("column", f.place.column.to_string()),
            ("why", text(&f.why)),
            ("hint", f.hint.as_ref().map_or("null".to_string(), |hint| text(hint))),
        ])
    };
    let message = if let Failure::Input(message) = failure { message.as_str() } else { "" };
    let faults = list(faults.iter().map(fault));
    object(&[("file", text(path)), ("accepted", "false".into()), ("faults", faults), ("message", text(message))]) + "\n"
}

/// The whole report.
fn report(phones: &Phones, groups: &[Group], frame: Option<u64>) -> Result<String, Failure> {
    let (file, table) = (phones.file, phones.table);
    let mut out = format!("{}: accepted\n", file.path);
    let mut size = |what: &str, has: u64, most: u64, more: String| {
        let _ = writeln!(out, "  {what:12}  {:>6} of {}{more}", long(has), long(most));
    };
    size("bytes", file.sheet.bytes().len() as u64, SHEET, String::new());
    if !file.params.is_empty() {
        size("parameters", file.params.len() as u64, PARAMS, format!(": {}", file.values()));
    }
    size("events", file.events.len() as u64, EVENTS, String::new());
    size("behaviours", table.behaviours().unwrap_or(0).into(), BEHAVIOURS, String::new());
    let counts = instructions(file, table)?;
    let longest = counts.iter().max_by_key(|(_, n)| *n);
    let frames = |steps: u64| {
        let of = |budget: u64| format!(", {} of {}", several(steps.div_ceil(budget), "frame", "frames"), long(budget));
        frame.map_or(String::new(), of)
    };
    // the step that starts an event counts too
    let longest = longest.map_or(String::new(), |(e, n)| {
        format!("; the longest event is {}, {}{}", file.event(*e), long(*n), frames(*n + 1))
    });
    size("instructions", counts.iter().map(|(_, n)| n).sum(), INSTRUCTIONS, longest);
    let mut lines = phones.lines();
    lines.extend(phones.parted().and_then(|_| sheet_text::words("search.write", &[&file.path])));
    put(&mut out, "phones", &lines.iter().map(narrow).collect::<Vec<_>>());
    put(
        &mut out,
        "players",
        &groups.iter().map(|(who, hidden, leak)| told(file, who, hidden, *leak)).collect::<Vec<_>>(),
    );
    put(&mut out, "warnings", &warnings(file));
    Ok(out)
}

/// What is written so and hardly meant, by its place in the text.
fn warnings(file: &SheetFile) -> Vec<String> {
    let one = |w: sheet_text::Warning| format!("{}:{}: {}", w.place.line, w.place.column, w.words);
    file.warnings.iter().cloned().chain(sheet_text::warnings(&file.source).into_iter().map(one)).collect()
}

/// Lines under one heading.
fn put(out: &mut String, what: &str, lines: &[String]) {
    for (k, line) in lines.iter().enumerate() {
        let heading = if k == 0 { what } else { "" };
        let _ = writeln!(out, "  {heading:width$}{line}", width = MARGIN - 2);
    }
}

/// A line that is not too long, else broken, what follows further in.
fn narrow(line: &String) -> String {
    let indent = line.len() - line.trim_start().len();
    format!("{:indent$}{}", "", folded(line.trim_start(), COLUMNS - indent, MARGIN + indent + 2))
}

/// A call that is never turned down on a table that compile made.
fn sound<T>(file: &SheetFile, answer: Result<T, Refusal>) -> Result<T, Failure> {
    answer.map_err(|refusal| Failure::input(format!("{}: unexpected: {refusal}", file.path)))
}

/// How many instructions each event has: the steps until idle, exact while nothing runs, but the one that starts it.
fn instructions(file: &SheetFile, table: &Table) -> Result<Vec<(Event, u64)>, Failure> {
    let one = |e: u32| {
        let mut round = sound(file, table.start())?;
        sound(file, round.arrive(Event(e), Player::HOST))?;
        Ok((Event(e), u64::from(sound(file, round.forecast())?) - 1))
    };
    (0..file.events.len() as u32).map(one).collect()
}

// ---- players

/// What is hidden from a player, as the board says.
fn hidden(file: &SheetFile, table: &Table, player: Player) -> Result<Vec<String>, Failure> {
    let round = sound(file, table.start())?;
    let hides = |b: &Behaviour| round.board(*b, player) == Err(Refusal::NoRight);
    let shown = file.everything().into_iter().filter(|s| s.members.iter().all(hides));
    Ok(shown.map(|s| s.label).collect())
}

/// Players, what is hidden from them, and what may leak to them.
type Group = (Vec<u32>, Vec<String>, Option<Leak>);

/// Players for whom the same is true, together.
fn groups(file: &SheetFile, table: &Table) -> Result<Vec<Group>, Failure> {
    let mut groups: Vec<Group> = vec![];
    for player in Player::ALL.into_iter().filter(|p| *p != Player::HOST) {
        let hidden = hidden(file, table, player)?;
        let leak = sound(file, file.sheet.leak(Some(&file.lent()), player))?;
        match groups.iter_mut().find(|(_, h, l)| (h, l) == (&hidden, &leak)) {
            Some((who, ..)) => who.push(player.0),
            None => groups.push((vec![player.0], hidden, leak)),
        }
    }
    Ok(groups)
}

fn told(file: &SheetFile, who: &[u32], hidden: &[String], leak: Option<Leak>) -> String {
    let who = spans(who);
    let are = if hidden.len() == 1 { "is" } else { "are" };
    match leak {
        _ if hidden.is_empty() => format!("{who}: nothing is hidden from them"),
        None => format!(
            "{who}: {} {are} hidden, and nothing that they see depends on that; a commit tells event and sender",
            listed(hidden)
        ),
        Some(Leak { seen, hidden: from }) => format!(
            "{who}: {} {are} hidden, but may leak: {} is seen and depends on {}",
            listed(hidden),
            file.behaviour(seen),
            file.behaviour(from)
        ),
    }
}
