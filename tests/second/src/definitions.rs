//! Lemmas over the definitions that the claim rests on, for the proof checker to compute: each states a value that the
//! plain engine has worked out, and is proved by `refl` alone. A definition that is wrong together with its code makes
//! one of them false. tests/definitions/run has them checked.
use std::fmt::Write;

use crate::engine::{self, Answer, Arrival, Behaviour, Call, Expr, Instr, Model, Sheet};
use crate::limits::{active, app, con, event, field, handler, name, param, passive};
use crate::make::{self, Rng};
use crate::pool;
use crate::signature::{arity, LAST};

/// The right-hand side of a lemma.
#[derive(Clone)]
enum Value {
    Number(u64),
    Truth(bool),
    List(Vec<String>),
    /// A value, and another of its type, for a lemma that must be refused.
    Other(String, String),
}

struct Lemma {
    kind: &'static str,
    left: String,
    right: Value,
}

/// What a file of lemmas is made of.
#[derive(Default)]
struct Page {
    programs: Vec<String>,
    lemmas: Vec<Lemma>,
}

// ---- values as the definitions write them

fn list(items: impl IntoIterator<Item = String>) -> String {
    let mut out = String::from("(");
    items.into_iter().for_each(|x| write!(out, "{x} ∷ ").unwrap());
    out + "[])"
}

fn numbers(items: impl IntoIterator<Item = u64>) -> String {
    list(items.into_iter().map(|n| n.to_string()))
}

fn bytes(s: &[u8]) -> String {
    numbers(s.iter().map(|b| *b as u64))
}

fn word(v: i32) -> u64 {
    v as u32 as u64
}

fn option(v: Option<i32>) -> String {
    v.map_or("none".into(), |v| format!("some {}", word(v)))
}

fn expr(e: &Expr) -> String {
    match e {
        Expr::Con(v) => format!("(con {})", word(*v)),
        Expr::Name(i) => format!("(name {i})"),
        Expr::Param(_) => unreachable!("filled in"),
        Expr::App(f, a) => format!("(app{} {f} {})", a.len(), a.iter().map(expr).collect::<Vec<_>>().join(" ")),
    }
}

fn behaviour(b: &Behaviour) -> String {
    match b {
        Behaviour::Passive(e) => format!("passive {}", expr(e)),
        Behaviour::Active(start, hs) => {
            let phase = |later: bool| if later { "later" } else { "immediate" };
            let one = |h: &engine::Handler| format!("handler {} {} {}", h.event, phase(h.later), expr(&h.expr));
            format!("active {} {}", word(*start), list(hs.iter().map(one)))
        }
    }
}

fn program(s: &Sheet) -> String {
    let said = |m: &[Option<u8>]| numbers(m.iter().map(|x| x.unwrap_or(255) as u64));
    format!(
        "record {{ priorities = {}; senders = {}; behaviours = {}; viewers = {} }}",
        bytes(&s.ranks),
        said(&s.senders),
        list(s.behaviours.iter().map(behaviour)),
        said(&s.viewers)
    )
}

fn instr(i: &Instr) -> String {
    match i {
        Instr::Off => "off".into(),
        Instr::On => "on".into(),
        Instr::Copy(k) => format!("copy {k}"),
        Instr::Restore(k) => format!("restore {k}"),
        Instr::Push(v) => format!("push {}", word(*v)),
        Instr::Load(k) => format!("load {k}"),
        Instr::Fetch(k) => format!("fetch {k}"),
        Instr::Apply(f) => format!("apply {f}"),
        Instr::Save(k) => format!("save {k}"),
        Instr::Defer(k) => format!("defer {k}"),
        Instr::Move(k) => format!("move {k}"),
    }
}

fn arrival((n, e, who): Arrival) -> String {
    format!("(arrival {n} {e} {who})")
}

fn answer(a: Answer) -> String {
    match a {
        Answer::Refused(n) => format!("refused {n}"),
        Answer::Taken => "told_taken_in".into(),
        Answer::Value(v) => format!("shows {}", word(v)),
        Answer::Idle => "idle".into(),
        Answer::Ran => "ran".into(),
        Answer::Started(a) => format!("started {}", arrival(a)),
        Answer::Committed(a, mark) => format!("committed {} {mark}", arrival(a)),
        Answer::BrokeIn(a) => format!("preempted {}", arrival(a)),
    }
}

fn says(a: Answer) -> String {
    format!("says ({})", answer(a))
}

fn call(c: Call) -> String {
    match c {
        Call::Arrive(e, who) => format!("call (arrive {e} {who})"),
        Call::Step => "call step".into(),
        Call::Board(i, who) => format!("call (board {i} {who})"),
    }
}

/// The model engine but for the arrivals that wait, whose order 01 leaves open.
fn engine_but_hand(m: &Model) -> String {
    let running = m.running.map_or("rest".into(), |(a, c)| format!("(busy {} {c})", arrival(a)));
    format!(
        "engine {} [] {running} (record {{ store = {}; scratch = {}; stack = {}; deferred = {}; mark = {} }})",
        m.taken,
        numbers(m.board.iter().map(|v| word(*v))),
        list(m.scratch.iter().map(|v| option(*v))),
        numbers(m.stack.iter().rev().map(|v| word(*v))),
        list(m.places.iter().map(|v| option(*v))),
        m.mark
    )
}

// ---- lemmas

impl Page {
    fn add(&mut self, kind: &'static str, left: String, right: Value) {
        self.lemmas.push(Lemma { kind, left, right });
    }

    fn number(&mut self, kind: &'static str, left: String, n: u64) {
        self.add(kind, left, Value::Number(n));
    }

    fn truth(&mut self, kind: &'static str, left: String, b: bool) {
        self.add(kind, left, Value::Truth(b));
    }

    fn list(&mut self, kind: &'static str, left: String, items: Vec<String>) {
        self.add(kind, left, Value::List(items));
    }

    /// A name for the program of an accepted sheet.
    fn named(&mut self, s: &Sheet) -> String {
        self.programs.push(program(s));
        format!("p_{}", self.programs.len() - 1)
    }

    /// What reading makes of bytes: the first fault, or a sheet that is written as the same bytes.
    fn read(&mut self, s: &[u8]) {
        let read = engine::read(s);
        self.number(
            "reading",
            format!("fault_in (read_sheet {})", bytes(s)),
            read.as_ref().map_or_else(|n| *n, |_| 0) as u64,
        );
        if read.is_ok() {
            self.list("writing", format!("encode (sheet_in {})", bytes(s)), s.iter().map(|b| b.to_string()).collect());
        }
    }

    /// The program of an accepted sheet: its parameters filled in and its rows written out.
    fn filled(&mut self, s: &[u8], params: &[u8], sheet: &Sheet) -> String {
        let name = self.named(sheet);
        let mut other = sheet.clone();
        match other.behaviours.pop() {
            Some(_) => drop(other.viewers.pop()),
            None => {
                other.ranks.push(1);
                other.senders.push(None);
            }
        }
        let left = format!("fill (get {}) (sheet_in {})", bytes(params), bytes(s));
        self.add("programs", left, Value::Other(name.clone(), program(&other)));
        name
    }

    /// Code, counts, order and meaning of each event, and what it writes.
    fn events(&mut self, r: &mut Rng, p: &str, sheet: &Sheet) {
        let n = sheet.behaviours.len();
        let board: Vec<i32> = (0..n).map(|_| r.below(9) as i32 - 4).collect();
        let shown = |b: &[i32]| b.iter().map(|v| word(*v).to_string()).collect::<Vec<_>>();
        self.list("boards", format!("fresh {p}"), shown(&sheet.fresh()));
        let counts: Vec<usize> = (0..sheet.ranks.len()).map(|e| sheet.count(e)).collect();
        self.number("counts", format!("all_instructions {p}"), counts.iter().sum::<usize>() as u64);
        self.number("counts", format!("longest {p}"), counts.iter().max().copied().unwrap_or(0) as u64);
        for (e, count) in counts.iter().enumerate().filter(|(_, count)| **count <= 150) {
            self.list("codes", format!("code {p} {e}"), sheet.code(e).iter().map(instr).collect());
            self.number("counts", format!("instructions {p} {e}"), *count as u64);
            let left = format!("event {p} {e} {}", numbers(board.iter().map(|v| word(*v))));
            self.list("boards", left, shown(&sheet.event(e, &board).0));
            for i in 0..n {
                let writes = matches!(sheet.does(Some(e), i), engine::Does::Takes(_) | engine::Does::Defers(_));
                self.truth("writes", format!("writes {p} {e} {i}"), writes);
            }
        }
    }

    fn rights(&mut self, r: &mut Rng) {
        let (byte, who) = (r.next() as u8, r.below(8) as u32);
        self.truth("rights", format!("may {byte} {who}"), engine::may(Some(byte), who));
    }

    /// A function on words that are often equal, neighbours or at an end of the range.
    fn functions(&mut self, r: &mut Rng) {
        let f = 1 + r.below(LAST as usize) as u8;
        let first = make::constant(r);
        let near = |r: &mut Rng| match r.below(4) {
            0 => first,
            1 => first.wrapping_add(1),
            2 => 0,
            _ => make::constant(r),
        };
        let mut a = [first, near(r), near(r)];
        a[arity(f)..].fill(0);
        let on = format!("{f} {} {} {}", word(a[0]), word(a[1]), word(a[2]));
        self.number("functions", format!("result_of {on}"), word(engine::apply(f, &a)));
        self.truth("marks", format!("over {on}"), engine::over(f, &a));
    }

    /// One sheet from two.
    fn pooled(&mut self, first: &[u8], second: &[u8], params: &[u8]) {
        let of = |s: &[u8]| format!("(sheet_in {})", bytes(s));
        let ranks = format!("same_ranks {}.signals {}.signals", of(first), of(second));
        match pool::pooled(first, second, params, 8192) {
            Ok(v) => {
                self.truth("joins", ranks, true);
                let left = format!("encode (pooled {} {})", of(first), of(second));
                self.list("joins", left, v.iter().map(|b| b.to_string()).collect());
            }
            Err(26) => self.truth("joins", ranks, false),
            Err(_) => {}
        }
    }
}

// ---- both sides of each limit that one field shows

/// A row's field: the cell count, a start of 0 and no handlers.
fn row(count: u8) -> Vec<u8> {
    field(6, &[&[count][..], &field(4, &[0; 4])].concat())
}

/// Sheets with a field at its limit and past it, and with a fault of each kind.
fn edges() -> Vec<Vec<u8>> {
    let nots = |n: usize| passive(&(0..n).fold(con(1), |e, _| app(3, &[e])));
    let on = |e: u8, phase: u8| [event(1), active(0, &[handler(e, phase, &con(1))])].concat();
    let two =
        |e: u8, f: u8| [event(1), event(2), active(0, &[handler(e, 0, &con(1)), handler(f, 1, &con(2))])].concat();
    let apply = |f: u8, args: usize| passive(&app(f, &vec![con(1); args]));
    let behaviours = |n: usize, last: Vec<u8>| [passive(&name(0)).repeat(n), last].concat();
    let seen = |end: &[u8]| passive(&[&con(1)[..], end].concat());
    vec![
        vec![],
        nots(15),
        nots(16),
        event(15),
        event(16),
        field(1, &[]),
        field(1, &[1, 6]),
        field(1, &[1, 6, 0]),
        event(1).repeat(32),
        event(1).repeat(33),
        [passive(&con(1)), event(1)].concat(),
        behaviours(64, vec![]),
        behaviours(64, passive(&con(1))),
        behaviours(48, row(16)),
        behaviours(49, row(16)),
        behaviours(64, row(17)),
        behaviours(63, row(17)),
        row(1),
        row(2),
        row(16),
        row(17),
        on(0, 0),
        on(0, 1),
        on(0, 2),
        on(1, 0),
        on(1, 2),
        two(0, 1),
        two(1, 1),
        apply(0, 2),
        apply(3, 1),
        apply(3, 2),
        apply(13, 2),
        apply(14, 3),
        apply(14, 2),
        apply(15, 2),
        apply(4, 3),
        passive(&param(7)),
        passive(&param(8)),
        passive(&field(0x10, &[0; 3])),
        passive(&field(0x11, &[0; 2])),
        passive(&field(0x12, &[])),
        passive(&field(0x14, &[0])),
        passive(&field(0x0F, &[0])),
        seen(&field(8, &[6])),
        seen(&field(8, &[6, 6])),
        seen(&field(8, &[])),
        seen(&[field(8, &[6]), field(8, &[6])].concat()),
        seen(&field(9, &[6])),
        field(3, &field(4, &[0; 3])),
        field(3, &field(5, &[0; 4])),
        field(4, &[0; 4]),
        field(7, &[0]),
        vec![1, 0],
        vec![1, 0, 2, 1],
        [event(1), vec![2, 1, 0]].concat(),
    ]
}

// ---- lists of turns

/// A list of turns as it is made: the turns, what the plain engine replies, and what is told of it: the changes, each
/// with the arrivals committed before it and after the last one, those committed since, and the arrivals taken in.
struct Turns {
    model: Model,
    turns: Vec<String>,
    replies: Vec<String>,
    changes: Vec<(Vec<String>, String)>,
    commits: Vec<String>,
    taken: Vec<String>,
}

impl Turns {
    fn new(sheet: &Sheet) -> Turns {
        Turns {
            model: Model::new(sheet.clone()),
            turns: vec![],
            replies: vec![],
            changes: vec![],
            commits: vec![],
            taken: vec![],
        }
    }

    /// The history by sheets, with these commits under the last.
    fn history(&self, commits: &[String]) -> String {
        self.changes.iter().rev().fold(format!("last {}", list(commits.iter().cloned())), |rest, (before, name)| {
            format!("then_change {} {name} ({rest})", list(before.iter().cloned()))
        })
    }

    fn call(&mut self, c: Call) {
        let number = self.model.taken;
        let a = self.model.call(c);
        match (c, a) {
            (Call::Arrive(e, who), Answer::Taken) => self.taken.push(arrival((number, e as usize, who))),
            (_, Answer::Committed(a, _)) => self.commits.push(arrival(a)),
            _ => {}
        }
        self.turns.push(call(c));
        self.replies.push(says(a));
    }

    fn change(&mut self, name: &str, sheet: &Sheet) {
        self.turns.push(format!("change {name}"));
        match self.model.change(sheet) {
            0 => {
                self.changes.push((std::mem::take(&mut self.commits), name.into()));
                self.replies.push("carried_over".into());
            }
            n => self.replies.push(says(Answer::Refused(n))),
        }
    }

    /// An arrival, steps, or a reading.
    fn random(&mut self, r: &mut Rng) {
        let sheet = &self.model.sheet;
        let (events, n) = (sheet.ranks.len(), sheet.behaviours.len());
        let who = if r.one_in(4) { make::player(r) } else { r.below(2) as u32 };
        match r.below(5) {
            0 | 1 => {
                let undeclared = events == 0 || r.one_in(8);
                self.call(Call::Arrive(if undeclared { events } else { r.below(events) } as u32, who))
            }
            2 | 3 => (0..1 + r.below(12)).for_each(|_| self.call(Call::Step)),
            _ => self.call(Call::Board(r.below(n + 1) as u32, who)),
        }
    }
}

/// Whether the checker computes such a sheet's rounds quickly.
fn small(s: &[u8], sheet: &Sheet) -> bool {
    s.len() <= 260 && sheet.behaviours.len() <= 16 && sheet.ranks.len() <= 8
}

impl Page {
    /// A list of some 70 turns, with changes of sheets; its replies, what they tell, and the engine after it.
    fn turns(&mut self, r: &mut Rng, p: &str, sheet: &Sheet) {
        let mut list = Turns::new(sheet);
        let mut force = p.to_string();
        let most = if sheet.ranks.is_empty() { 8 } else { 70 };
        while list.turns.len() < most {
            if r.one_in(16) {
                let next = make::near(r, &list.model.sheet);
                let next_bytes = make::encode(&next);
                let params = [0; 32];
                if let Some(next) = engine::compile(&next_bytes, &params).ok().filter(|s| small(&next_bytes, s)) {
                    let name = self.named(&next);
                    list.change(&name, &next);
                    if list.replies.last().is_some_and(|reply| reply == "carried_over") {
                        force = name;
                    }
                }
            } else {
                list.random(r);
            }
        }
        self.told(r, p, &force, list);
    }

    fn told(&mut self, r: &mut Rng, p: &str, force: &str, list: Turns) {
        let more = [&list.commits[..], &[arrival((0, 0, 0))]].concat();
        let history = Value::Other(list.history(&list.commits), list.history(&more));
        let turns = self::list(list.turns);
        let model = list.model;
        let engine = format!("(engine_after {p} {turns})");
        self.list("replies", format!("replies {turns} (begun {p})"), list.replies);
        self.add("histories", format!("history_of {p} {turns}"), history);
        self.list("taken in", format!("taken_in_by {p} {turns}"), list.taken);
        let mut other = model.clone();
        other.taken += 1;
        let value = Value::Other(engine_but_hand(&model), engine_but_hand(&other));
        self.add("engines", format!("but_hand {engine}"), value);
        self.number("steps", format!("length (in_queue {engine})"), model.in_hand() as u64);
        self.number("steps", format!("forecast {force} {engine}"), model.forecast() as u64);
        let longest = model.code.iter().map(Vec::len).max().unwrap_or(0);
        self.number("steps", format!("count_in {force} {engine}"), ((model.in_hand() + 1) * (longest + 1)) as u64);
        self.foreseen(r, force, &engine, &model);
    }

    /// A preview whose arrival is taken in.
    fn foreseen(&mut self, r: &mut Rng, force: &str, engine: &str, model: &Model) {
        if model.sheet.ranks.is_empty() || model.in_hand() > 4 {
            return;
        }
        let (e, who) = (r.below(model.sheet.ranks.len()) as u32, r.below(8) as u32);
        let i = r.below(model.sheet.behaviours.len() + 1) as u32;
        if model.clone().call(Call::Arrive(e, who)) == Answer::Taken {
            let value = Value::Other(answer(model.preview(e, i, who)), "refused 14".into());
            self.add("previews", format!("foreseen {force} {engine} {e} {i} {who}"), value);
        }
    }

    /// Everything that one seed gives.
    fn seed(&mut self, seed: u64) {
        let r = &mut Rng::new(seed ^ 0xDEF);
        (0..12).for_each(|_| self.functions(r));
        (0..4).for_each(|_| self.rights(r));
        let params: Vec<u8> = (0..8).flat_map(|_| make::constant(r).to_be_bytes()).collect();
        let mut accepted = vec![];
        for _ in 0..3 {
            let s = if r.one_in(3) { make::rowed(r) } else { make::encode(&make::sheet(r)) };
            if s.len() <= 260 {
                self.read(&make::damaged(r, s.clone()));
                self.read(&s);
            }
            if let Some(sheet) = engine::compile(&s, &params).ok().filter(|sheet| small(&s, sheet)) {
                accepted.push((s, sheet));
            }
        }
        for (s, sheet) in &accepted {
            let p = self.filled(s, &params, sheet);
            self.events(r, &p, sheet);
            self.turns(r, &p, sheet);
        }
        for pair in accepted.windows(2) {
            self.pooled(&pair[0].0, &pair[1].0, &params);
        }
    }
}

// ---- the file

impl Value {
    fn text(&self) -> String {
        match self {
            Value::Number(n) => n.to_string(),
            Value::Truth(b) => b.to_string(),
            Value::List(items) => list(items.iter().cloned()),
            Value::Other(value, _) => value.clone(),
        }
    }

    /// Another value of the type, as near as may be.
    fn spoilt(&self) -> Value {
        match self {
            Value::Number(n) => Value::Number(n + 1),
            Value::Truth(b) => Value::Truth(!b),
            Value::List(items) => Value::List(items[..items.len() - 1].to_vec()),
            Value::Other(value, other) => Value::Other(other.clone(), value.clone()),
        }
    }

    fn can_spoil(&self) -> bool {
        !matches!(self, Value::List(items) if items.is_empty())
    }
}

/// The kinds of lemmas, in the order in which they first stand.
fn kinds(lemmas: &[Lemma]) -> Vec<&'static str> {
    let mut out = vec![];
    lemmas.iter().for_each(|l| {
        if !out.contains(&l.kind) {
            out.push(l.kind);
        }
    });
    out
}

fn text(page: &Page, head: &str, unfolding: &str) -> String {
    let mut out = head.to_string();
    for (k, p) in page.programs.iter().enumerate() {
        writeln!(out, "\nabbrev p_{k} : Program\np_{k} = {p}").unwrap();
    }
    for (k, l) in page.lemmas.iter().enumerate() {
        let name = format!("{}_{k}", l.kind.replace(' ', "_"));
        writeln!(out, "\npub {name} : {} ≡ {}\nunfolding {unfolding}\n{name} = refl", l.left, l.right.text()).unwrap();
    }
    out
}

/// Writes the lemmas of COUNT seeds from FIRST on after HEAD, a file's text; its last line names what is unfolded. Where
/// they are to be spoilt, one of each kind, with a value that is not right. Prints how many there are of each kind.
pub fn run(file: &str, head: &str, first: u64, count: u64, spoil: bool) {
    let mut page = Page::default();
    edges().iter().for_each(|s| page.read(s));
    (first..first + count).for_each(|seed| page.seed(seed));
    if spoil {
        let one = |kind: &'static str| page.lemmas.iter().find(|l| l.kind == kind && l.right.can_spoil());
        let wrong = |l: &Lemma| Lemma { kind: l.kind, left: l.left.clone(), right: l.right.spoilt() };
        page.lemmas = kinds(&page.lemmas).into_iter().filter_map(one).map(wrong).collect();
    }
    let head = std::fs::read_to_string(head).expect("the head of the file");
    let (head, unfolding) = head.trim_end().rsplit_once('\n').expect("its last line");
    std::fs::write(file, text(&page, head, unfolding)).expect("the file of lemmas");
    let of = |kind: &&str| format!("{} of {kind}", page.lemmas.iter().filter(|l| l.kind == *kind).count());
    let all: Vec<String> = kinds(&page.lemmas).iter().map(of).collect();
    println!("{} lemmas: {}", page.lemmas.len(), all.join(", "));
}
