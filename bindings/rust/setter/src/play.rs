//! A round played by a script on the proved engine, told in words.
use crate::failure::Failure;
use crate::file::{Order, SheetFile, Shown};
use crate::script::{wrong, Ask, Script, Statement};
use crate::wording::{long, player, refused, several};
use poqashem::{Arrival, Behaviour, Event, Player, Refusal, Round, Step};
use std::collections::HashSet;
use std::time::{Duration, Instant};

/// How many steps are made before the clock is looked at, and how often progress is told.
const BATCH: u64 = 4_096;
const EVERY: Duration = Duration::from_secs(2);

/// So many numbers that change their meaning are named at a change of sheets; the others are counted.
const CHANGES: usize = 8;

/// The sheet that a round goes on under, in its own order or in that of the one before.
fn changed(old: &SheetFile, file: &SheetFile, by_name: bool) -> Result<SheetFile, Failure> {
    if by_name {
        return file.in_order_of(old, Order::Change);
    }
    Ok(file.clone())
}

/// An arrival under its event's name, as the sheet in force has it.
#[derive(Clone, Debug, PartialEq, Eq)]
pub struct Act {
    pub number: u32,
    pub event: String,
    pub rank: u32,
    pub player: Player,
}

/// What a picture shows.
#[derive(Clone, Debug, PartialEq, Eq)]
pub enum Mark {
    Arrived(Act),
    /// Not taken in.
    Refused {
        event: String,
        player: Player,
        refusal: Refusal,
    },
    Started {
        act: Act,
        again: bool,
    },
    /// Started in the place of another, which goes back to the hand.
    BrokeIn {
        act: Act,
        again: bool,
    },
    Committed {
        act: Act,
        over: bool,
    },
    /// The sheet is now that of the file, with its parameters.
    Mended(String),
    /// A board, a preview or a forecast, in words.
    Looked(String),
}

/// One thing that happened, after so many steps.
pub struct Entry {
    pub step: u64,
    pub words: String,
    pub mark: Option<Mark>,
}

/// A round that is being played.
pub struct Stage<'a> {
    script: &'a Script,
    file: SheetFile,
    round: Round,
    /// Steps made.
    step: u64,
    /// Arrivals taken in.
    taken: u32,
    running: Option<Arrival>,
    /// Arrivals that have started, to tell a start from a restart.
    started: HashSet<u32>,
    idle: bool,
    /// What was expected and is not so.
    failed: Vec<String>,
    tell: &'a mut dyn FnMut(Entry) -> Result<(), Failure>,
    told: Instant,
}

/// Before anything is played: each name is one of the sheet's, or of one that the script has changed to by then.
pub fn names_known(file: &SheetFile, script: &Script) -> Result<(), Failure> {
    file.all_given()?;
    file.compile()?;
    let mut sheets = vec![file];
    let mut last = file.clone();
    for Statement { line, ask } in &script.statements {
        let expected: Vec<String>;
        let (events, names): (&[String], &[String]) = match ask {
            Ask::Expect { values, .. } => {
                expected = values.iter().map(|(name, _)| name.clone()).collect();
                (&[], &expected)
            }
            Ask::Send { events, .. } => (events, &[]),
            Ask::Board { names, .. } => (&[], names),
            Ask::Preview { event, names, .. } => (std::slice::from_ref(event), names),
            Ask::Mend { file: other, by_name } => {
                last = changed(&last, other, *by_name).map_err(|failure| failure.at(&script.path, *line))?;
                sheets.push(other);
                continue;
            }
            Ask::Steps(_) | Ask::Run | Ask::Forecast => continue,
        };
        let path = &file.path;
        if let Some(event) = events.iter().find(|e| sheets.iter().all(|s| s.event_named(e).is_none())) {
            let near = perhaps(event, sheets.iter().flat_map(|s| s.events.iter().map(String::as_str)));
            return Err(wrong(&script.path, *line, format!("{path} has no event {event}{near}")));
        }
        if let Some(name) = names.iter().find(|n| sheets.iter().all(|s| s.shown(n).is_none())) {
            let near = perhaps(name, sheets.iter().flat_map(|s| s.groups.iter().map(|g| g.name.as_str())));
            return Err(wrong(&script.path, *line, format!("{path} has no behaviour or cell {name}{near}")));
        }
    }
    Ok(())
}

/// A question behind a message, where a name that is not known is near another.
pub fn perhaps<'a>(word: &str, known: impl Iterator<Item = &'a str>) -> String {
    sheet_text::nearest(word, known).map_or(String::new(), |near| format!("; is it {near}?"))
}

/// Plays a script; all that happens is told as it happens. The number of steps made.
pub fn play(
    file: &SheetFile,
    script: &Script,
    tell: &mut dyn FnMut(Entry) -> Result<(), Failure>,
) -> Result<u64, Failure> {
    let round = file.compile()?.start().map_err(|r| Failure::input(format!("{}: {r}", file.path)))?;
    let mut stage = Stage {
        script,
        file: file.clone(),
        round,
        step: 0,
        taken: 0,
        running: None,
        started: HashSet::new(),
        idle: true,
        failed: vec![],
        tell,
        told: Instant::now(),
    };
    for statement in &script.statements {
        stage.one(statement.line, &statement.ask)?;
    }
    if !stage.failed.is_empty() {
        return Err(Failure::Input(stage.failed.join("\n")));
    }
    Ok(stage.step)
}

impl Stage<'_> {
    fn say(&mut self, words: String, mark: Option<Mark>) -> Result<(), Failure> {
        (self.tell)(Entry { step: self.step, words, mark })
    }

    fn act(&self, arrival: Arrival) -> Act {
        let rank = self.round.table().rank(arrival.event).unwrap_or(0);
        Act { number: arrival.number, event: self.file.event(arrival.event), rank, player: arrival.player }
    }

    /// `hit #3`.
    fn named(&self, arrival: Arrival) -> String {
        format!("{} #{}", self.file.event(arrival.event), arrival.number)
    }

    fn event(&self, line: usize, name: &str) -> Result<Event, Failure> {
        let none = || wrong(&self.script.path, line, format!("{} has no event {name}", self.file.path));
        self.file.event_named(name).ok_or_else(none)
    }

    fn shown(&self, line: usize, names: &[String]) -> Result<Vec<Shown>, Failure> {
        if names.is_empty() {
            return Ok(self.file.everything());
        }
        let none = |n: &str| wrong(&self.script.path, line, format!("{} has no behaviour or cell {n}", self.file.path));
        names.iter().map(|n| self.file.shown(n).ok_or_else(|| none(n))).collect()
    }

    fn one(&mut self, line: usize, ask: &Ask) -> Result<(), Failure> {
        match ask {
            Ask::Send { events, player } => events.iter().try_for_each(|e| self.send(line, e, *player)),
            Ask::Steps(count) => self.steps(line, *count),
            Ask::Run => self.run(line),
            Ask::Board { names, player } => self.board(line, names, *player),
            Ask::Preview { event, names, player } => self.preview(line, event, names, *player),
            Ask::Expect { values, player } => self.expect(line, values, *player),
            Ask::Forecast => self.forecast(),
            Ask::Mend { file, by_name } => self.mend(file, *by_name),
        }
    }

    fn send(&mut self, line: usize, name: &str, from: Player) -> Result<(), Failure> {
        let event = self.event(line, name)?;
        let who = player(from);
        if let Err(refusal) = self.round.arrive(event, from) {
            let why = match refusal {
                Refusal::NoRight => format!("{refusal}: the sheet does not let {who} send it"),
                _ => refused(refusal),
            };
            let words = format!("{name} from {who} is refused, {why}");
            return self.say(words, Some(Mark::Refused { event: name.to_string(), player: from, refusal }));
        }
        let arrival = Arrival { number: self.taken, event, player: from };
        self.taken += 1;
        self.idle = false;
        let words = format!("{name} from {who} arrives as #{}", arrival.number);
        let mark = Mark::Arrived(self.act(arrival));
        self.say(words, Some(mark))
    }

    // ---- steps

    /// One step; whether something was in hand.
    fn make(&mut self, line: usize) -> Result<bool, Failure> {
        let before = self.running;
        let step = self.round.step().map_err(|r| wrong(&self.script.path, line, refused(r)))?;
        if step != Step::Idle {
            self.step = self.step.saturating_add(1);
        }
        match step {
            Step::Idle => return Ok(false),
            Step::Ran => {}
            Step::Started(arrival) => self.started(arrival, None)?,
            Step::BrokeIn(arrival) => self.started(arrival, before)?,
            Step::Committed { arrival, over } => {
                self.running = None;
                let mark = Mark::Committed { act: self.act(arrival), over };
                let ran = if over { "; a result was not the exact one, or a divisor was zero" } else { "" };
                self.say(format!("{} commits{ran}", self.named(arrival)), Some(mark))?;
            }
        }
        Ok(true)
    }

    fn started(&mut self, arrival: Arrival, broken: Option<Arrival>) -> Result<(), Failure> {
        self.running = Some(arrival);
        let again = !self.started.insert(arrival.number);
        let word = if again { "starts again" } else { "starts" };
        let act = self.act(arrival);
        let name = self.named(arrival);
        match broken {
            None => self.say(format!("{name} {word}"), Some(Mark::Started { act, again })),
            Some(other) => {
                let words = format!("{name} breaks in: {} drops its work and goes back to the hand", self.named(other));
                self.say(words, Some(Mark::BrokeIn { act, again }))
            }
        }
    }

    /// Idle, said once.
    fn rest(&mut self) -> Result<(), Failure> {
        if std::mem::replace(&mut self.idle, true) {
            return Ok(());
        }
        self.say("idle".to_string(), None)
    }

    fn steps(&mut self, line: usize, count: u64) -> Result<(), Failure> {
        for made in 0..count {
            if !self.make(line)? {
                // nothing can change any more: the steps that are left pass at once
                self.rest()?;
                self.step = self.step.saturating_add(count - made);
                return Ok(());
            }
            self.progress(line, made, count);
        }
        Ok(())
    }

    fn run(&mut self, line: usize) -> Result<(), Failure> {
        let about = u64::from(self.round.forecast().unwrap_or(0));
        let mut made = 0;
        while self.make(line)? {
            self.progress(line, made, about);
            made += 1;
        }
        self.rest()
    }

    fn progress(&mut self, line: usize, made: u64, of: u64) {
        if made % BATCH == 0 && self.told.elapsed() >= EVERY {
            self.told = Instant::now();
            eprintln!("setter: {}:{line}: {} of {} steps", self.script.path, long(made), long(of));
        }
    }

    // ---- looking

    fn board(&mut self, line: usize, names: &[String], who: Player) -> Result<(), Failure> {
        let shown = self.shown(line, names)?;
        let seen = values(&shown, &|b| self.round.board(b, who));
        let whose = if who == Player::HOST { String::new() } else { format!(" as {} sees it", player(who)) };
        self.look(match seen {
            Ok(values) => format!("board{whose}: {values}"),
            Err(refusal) => format!("board{whose} is refused, {}", refused(refusal)),
        })
    }

    /// What is read, in words.
    fn look(&mut self, words: String) -> Result<(), Failure> {
        let mark = Mark::Looked(words.clone());
        self.say(words, Some(mark))
    }

    fn preview(&mut self, line: usize, name: &str, names: &[String], who: Player) -> Result<(), Failure> {
        let event = self.event(line, name)?;
        let shown = self.shown(line, names)?;
        let seen = values(&shown, &|b| self.round.preview(event, b, who));
        let what = format!("preview of {name} from {}", player(who));
        self.look(match seen {
            Ok(values) => format!("{what}: {values}"),
            Err(refusal) => format!("{what} is refused, {}", refused(refusal)),
        })
    }

    /// What is not as expected is told, and the round goes on; the script has failed then.
    fn expect(&mut self, line: usize, values: &[(String, String)], who: Player) -> Result<(), Failure> {
        for (name, value) in values {
            let shown = self.shown(line, std::slice::from_ref(name))?;
            let [Shown { members, row: false, .. }] = &shown[..] else {
                return Err(wrong(&self.script.path, line, format!("expect names a cell of {name}, as in {name}[0]")));
            };
            let seen = match self.round.board(members[0], who) {
                Ok(seen) => seen.to_string(),
                Err(Refusal::NoRight) => "hidden".to_string(),
                Err(refusal) => refused(refusal),
            };
            let words = if seen == *value { "as expected".to_string() } else { format!("expected {value}") };
            if seen != *value {
                self.failed.push(format!("{}:{line}: {name} is {seen}, expected {value}", self.script.path));
            }
            self.say(format!("{name} is {seen}, {words}"), None)?;
        }
        Ok(())
    }

    fn forecast(&mut self) -> Result<(), Failure> {
        let bound = if self.running.is_some() { "at most " } else { "" };
        let words = match self.round.forecast() {
            Ok(steps) => format!("forecast: idle after {bound}{}", several(steps.into(), "step", "steps")),
            Err(refusal) => format!("forecast is refused, {}", refused(refusal)),
        };
        self.look(words)
    }

    fn mend(&mut self, file: &SheetFile, by_name: bool) -> Result<(), Failure> {
        let file = &changed(&self.file, file, by_name)?;
        let table = file.compile()?;
        if let Err(refusal) = self.round.mend(&table) {
            return self.say(format!("the change to {} is refused, {}", file.path, refused(refusal)), None);
        }
        let back = self.running.take().map(|a| format!(": {} goes back to the hand", self.named(a)));
        let with = file.with_values();
        let changes = file.changes(&self.file);
        self.file = file.clone();
        let words = format!("the sheet is now {}{with}{}", file.path, back.unwrap_or_default());
        self.say(words, Some(Mark::Mended(format!("{}{}", file.path, file.with_values()))))?;
        let more = changes.len().saturating_sub(CHANGES);
        for change in changes.into_iter().take(CHANGES) {
            self.say(format!("warning: {change}"), None)?;
        }
        match more {
            0 => Ok(()),
            more => self.say(format!("warning: and {}", several(more as u64, "more", "more")), None),
        }
    }
}

/// Values under their names: `score 10, lamp [1 0 0]`. What is hidden is told so; where all are turned down alike, that
/// is the answer.
pub fn values(shown: &[Shown], read: &dyn Fn(Behaviour) -> Result<i32, Refusal>) -> Result<String, Refusal> {
    let mut first = None;
    let mut seen = false;
    let mut words = vec![];
    for Shown { label, members, row } in shown {
        let values: Vec<_> = members.iter().map(|b| read(*b)).collect();
        seen |= values.iter().any(Result::is_ok);
        first = first.or(values.iter().find_map(|v| v.err()));
        let one = |v: &Result<i32, Refusal>| match v {
            Ok(value) => value.to_string(),
            Err(Refusal::NoRight) => "hidden".to_string(),
            Err(refusal) => refusal.to_string(),
        };
        words.push(match values.iter().all(|v| *v == Err(Refusal::NoRight)) {
            true => format!("{label} hidden"),
            false if *row => format!("{label} [{}]", values.iter().map(one).collect::<Vec<_>>().join(" ")),
            false => format!("{label} {}", values.iter().map(one).collect::<String>()),
        });
    }
    match first {
        Some(refusal) if !seen => Err(refusal),
        _ if words.is_empty() => Ok("the sheet has no behaviours".to_string()),
        _ => Ok(words.join(", ")),
    }
}
