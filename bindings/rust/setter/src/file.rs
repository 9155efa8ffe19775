//! Files of sheets, as text or as bytes, with the names of what they declare.
use crate::excerpt;
use crate::failure::Failure;
use crate::names::{declared_by, handler_line, names_of, params_used, parts, Group, Names, Param, Part, Sort};
use crate::wording::{listed, refused};
use poqashem::{Behaviour, Circle, Event, Fault, Params, Refusal, Sheet, Table};
use sheet_text::{words, Kind};
use std::io::Read;
use std::sync::OnceLock;

/// How many parameters the host lends.
const LENT: usize = 8;

/// A sheet and its names.
#[derive(Clone, Debug)]
pub struct SheetFile {
    pub path: String,
    pub sheet: Sheet,
    pub params: Vec<Param>,
    pub events: Vec<String>,
    pub groups: Vec<Group>,
    /// It came as bytes, so the names are invented.
    pub unnamed: bool,
    /// The text that it came as.
    pub source: Vec<u8>,
    /// What a join makes of names that are not alike.
    pub warnings: Vec<String>,
}

/// What a board or a preview shows under one name.
#[derive(Clone, Debug)]
pub struct Shown {
    pub label: String,
    pub members: Vec<Behaviour>,
    pub row: bool,
}

/// The path that stands for standard input.
pub const STANDARD_INPUT: &str = "-";

/// All of it, however often it is asked for.
fn standard_input() -> std::io::Result<Vec<u8>> {
    static READ: OnceLock<Vec<u8>> = OnceLock::new();
    if let Some(bytes) = READ.get() {
        return Ok(bytes.clone());
    }
    let mut bytes = vec![];
    std::io::stdin().read_to_end(&mut bytes)?;
    Ok(READ.get_or_init(|| bytes).clone())
}

/// A file's bytes.
pub fn bytes_of(path: &str) -> Result<Vec<u8>, Failure> {
    let read = if path == STANDARD_INPUT { standard_input() } else { std::fs::read(path) };
    read.map_err(|e| Failure::input(format!("{path}: cannot be read: {e}")))
}

/// Whether bytes are a sheet's and no text: no text begins with one of these bytes.
pub fn is_sheet(bytes: &[u8]) -> bool {
    matches!(bytes.first(), Some(1 | 2 | 3 | 6))
}

/// The faults of a text, each with its line, a mark under its place, and what to do.
fn shown(path: &str, text: &[u8]) -> Failure {
    Failure::Input(faults(text).iter().map(|fault| told(path, text, fault)).collect::<Vec<_>>().join("\n"))
}

/// The faults that the engine finds, in words.
pub fn faults(text: &[u8]) -> Vec<sheet_text::Fault> {
    sheet_text::faults(text, &|text| Sheet::assemble(text).err().map(|fault| why(text, &fault)))
}

fn told(path: &str, text: &[u8], fault: &sheet_text::Fault) -> String {
    let mut message = format!("{path}:{fault}");
    let sheet_text::Fault { kind, place, hint, .. } = fault;
    if !matches!(kind, Kind::LongText | Kind::LongSheet | Kind::ShortBuffer) {
        let [line, under] = excerpt::marked(line_of(text, place.line), place.column - 1);
        message += &format!("\n    {line}\n    {under}");
    }
    hint.iter().for_each(|hint| message += &format!("\n    {hint}"));
    message
}

fn line_of(text: &[u8], line: usize) -> &[u8] {
    text.split(|b| *b == b'\n').nth(line - 1).unwrap_or(b"")
}

/// The engine's fault in words: those of the plain reader where it finds the same one, else what its kind says.
fn why(text: &[u8], fault: &Fault) -> sheet_text::Fault {
    let number = fault.kind.number();
    let kind = *Kind::ALL.iter().find(|kind| kind.number() == number).unwrap_or(&Kind::Outside);
    let place = sheet_text::Place { line: fault.line as usize, column: fault.column as usize };
    let own = sheet_text::assemble(text).err().filter(|own| (own.kind, own.place) == (kind, place));
    let why = own.map_or(fault.kind.when().to_string(), |own| own.why);
    sheet_text::Fault { kind, place, why, hint: None }
}

/// The sheet that a text means.
pub fn read(path: &str, text: &[u8]) -> Result<Sheet, Failure> {
    Sheet::assemble(text).map_err(|_| shown(path, text))
}

impl SheetFile {
    /// A file as text or as bytes.
    pub fn load(path: &str) -> Result<SheetFile, Failure> {
        let bytes = bytes_of(path)?;
        if is_sheet(&bytes) {
            return SheetFile::of_bytes(path, bytes);
        }
        let sheet = read(path, &bytes)?;
        Ok(SheetFile { source: bytes.clone(), ..SheetFile::named(path, sheet, names_of(&bytes), false) })
    }

    /// A sheet's bytes, with the names of the text that describes it. One with a circle or too many instructions has no
    /// such text; it goes by numbers, and compile says what is wrong.
    pub fn of_bytes(path: &str, bytes: Vec<u8>) -> Result<SheetFile, Failure> {
        let sheet = Sheet::new(bytes);
        let names = match sheet.describe() {
            Ok(text) => names_of(text.as_bytes()),
            Err(Refusal::Circle | Refusal::Overlong) => Names::default(),
            Err(refusal) => return Err(bytes_at_fault(path, sheet.bytes(), refusal)),
        };
        Ok(SheetFile::named(path, sheet, names, true))
    }

    fn named(path: &str, sheet: Sheet, names: Names, unnamed: bool) -> SheetFile {
        let Names { params, events, groups } = names;
        SheetFile { path: path.to_string(), sheet, params, events, groups, unnamed, source: vec![], warnings: vec![] }
    }

    /// The sheet as text, under invented names.
    pub fn text(&self) -> Result<String, Failure> {
        self.sheet.describe().map_err(|refusal| not_a_sheet(&self.path, refusal))
    }

    /// Gives a parameter a value; whether there is one of this name.
    pub fn set(&mut self, name: &str, value: i32) -> bool {
        let own = self.params.iter_mut().find(|p| p.name == name);
        own.map(|p| p.value = Some(value)).is_some()
    }

    /// The values lent, 0 for a parameter that has none.
    pub fn lent(&self) -> Params {
        let mut values = [0; LENT];
        for (value, param) in values.iter_mut().zip(&self.params) {
            *value = param.value.unwrap_or(0);
        }
        Params::new(values)
    }

    /// A round needs a value for each parameter that the sheet uses. A sheet that has no text is turned down anyway.
    pub fn all_given(&self) -> Result<(), Failure> {
        let used = self.sheet.describe().map_or(vec![], |text| params_used(text.as_bytes()));
        let missing = |(number, p): &(usize, &Param)| p.value.is_none() && used.contains(number);
        match self.params.iter().enumerate().find(missing) {
            None => Ok(()),
            Some((_, p)) => Err(Failure::input(format!(
                "{}: the parameter {} has no default: give it a value with --param {}=VALUE",
                self.path, p.name, p.name
            ))),
        }
    }

    /// The table, or why there is none, in words.
    pub fn compile(&self) -> Result<Table, Failure> {
        let lent = self.lent();
        match self.sheet.compile(Some(&lent)) {
            Ok(table) => Ok(table),
            Err(Refusal::Circle) => Err(self.circle(&lent)),
            Err(Refusal::Overlong) => Err(Failure::input(format!(
                "{}: {}: every event works out each passive twice, so that few passives or few events help most",
                self.path,
                refused(Refusal::Overlong)
            ))),
            Err(other) => Err(not_a_sheet(&self.path, other)),
        }
    }

    /// A shortest circle, by names, at its first behaviour's place.
    fn circle(&self, lent: &Params) -> Failure {
        let refusal = Refusal::Circle;
        let Ok(Some(Circle { event, behaviours })) = self.sheet.circle(Some(lent)) else {
            return Failure::input(format!("{}: {}", self.path, refused(refusal)));
        };
        let under = event.map_or("whatever the event".to_string(), |e| format!("on event {}", self.event(e)));
        let after = behaviours.iter().cycle().skip(1);
        let needs: Vec<String> = behaviours
            .iter()
            .zip(after)
            .map(|(a, b)| {
                let needed = if a == b { "itself".to_string() } else { self.behaviour(*b) };
                format!("{} needs {needed}", self.behaviour(*a))
            })
            .collect();
        let place = behaviours.first().and_then(|b| self.group(*b)).filter(|_| !self.unnamed);
        let place = place.map_or(String::new(), |g| format!(":{}:{}", g.place.line, g.place.column));
        let lines = self.circle_lines(event, &behaviours);
        Failure::input(format!("{}{place}: {refusal}: {under}, {}{lines}", self.path, listed(&needs)))
    }

    /// The lines of a circle, and the ways out of it.
    fn circle_lines(&self, event: Option<Event>, behaviours: &[Behaviour]) -> String {
        if !self.has_lines() {
            return String::new();
        }
        let groups: Vec<&Group> = behaviours.iter().filter_map(|b| self.group(*b)).collect();
        let mut lines: Vec<usize> = vec![];
        for group in &groups {
            lines.push(group.place.line);
            lines.extend(event.and_then(|e| handler_line(&self.source, &group.name, &self.event(e))));
        }
        lines.sort();
        lines.dedup();
        let width = lines.iter().max().map_or(1, |n| n.to_string().len());
        let shown = |n: &usize| {
            let [line, _] = excerpt::marked(line_of(&self.source, *n), 0);
            format!("\n    {n:width$} {line}")
        };
        let mut out: String = lines.iter().map(shown).collect();
        let follows = |g: &&&Group| declared_by(&self.source, g, "passive");
        let passive = groups.iter().find(follows);
        let active = groups.iter().find(|g| !follows(g));
        let ways = match (active, passive) {
            (Some(active), Some(passive)) => {
                vec![words("circle.passive", &[&active.name, &passive.name]), words("circle.later", &[])]
            }
            (Some(_), None) => vec![words("circle.later", &[])],
            _ => vec![words("circle.passives", &[])],
        };
        ways.into_iter().flatten().for_each(|way| out += &format!("\n    {way}"));
        out
    }

    // ---- names

    /// Whether names stand in lines of a text.
    pub fn has_lines(&self) -> bool {
        !self.unnamed && !self.source.is_empty()
    }

    pub fn group(&self, behaviour: Behaviour) -> Option<&Group> {
        self.groups.iter().find(|g| (g.first..g.first + g.count()).contains(&behaviour.0))
    }

    /// An event's name.
    pub fn event(&self, event: Event) -> String {
        self.events.get(event.0 as usize).cloned().unwrap_or_else(|| format!("e{}", event.0))
    }

    /// A behaviour's name, with its cell.
    pub fn behaviour(&self, behaviour: Behaviour) -> String {
        match self.group(behaviour) {
            None => format!("b{}", behaviour.0),
            Some(Group { name, first, cells: Some(_), .. }) => format!("{name}[{}]", behaviour.0 - first),
            Some(group) => group.name.clone(),
        }
    }

    pub fn event_named(&self, name: &str) -> Option<Event> {
        self.events.iter().position(|e| e == name).map(|n| Event(n as u32))
    }

    /// All behaviours, a row being one.
    pub fn everything(&self) -> Vec<Shown> {
        self.groups.iter().map(whole).collect()
    }

    /// A behaviour, a row, or a cell of one: `score`, `lamp`, `lamp[3]`.
    pub fn shown(&self, word: &str) -> Option<Shown> {
        if let Some(group) = self.groups.iter().find(|g| g.name == word) {
            return Some(whole(group));
        }
        let (name, cell) = word.strip_suffix(']')?.split_once('[')?;
        let cell: u32 = cell.parse().ok()?;
        let group = self.groups.iter().find(|g| g.name == name && g.cells.is_some_and(|n| cell < n))?;
        let members = vec![Behaviour(group.first + cell)];
        Some(Shown { label: word.to_string(), members, row: false })
    }

    /// ` with points = 10, need = 3`: the values that a round is played with.
    pub fn with_values(&self) -> String {
        let given = |p: &Param| p.value.map(|value| format!("{} = {value}", p.name));
        let given: Vec<String> = self.params.iter().filter_map(given).collect();
        if given.is_empty() {
            String::new()
        } else {
            format!(" with {}", given.join(", "))
        }
    }

    /// `points = 10, need = 3`.
    pub fn values(&self) -> String {
        let one = |p: &Param| match p.value {
            Some(value) => format!("{} = {value}", p.name),
            None => format!("{} without a default", p.name),
        };
        self.params.iter().map(one).collect::<Vec<_>>().join(", ")
    }
}

// ---- by name

/// What of another sheet is brought into the order of the first.
#[derive(Clone, Copy, PartialEq, Eq)]
pub enum Order {
    /// Parameters and events, as a join shares them.
    Join,
    /// Events and behaviours, as a change of sheets keeps them.
    Change,
}

impl SheetFile {
    /// The same sheet with its declarations in the order of another's, by name, so that what is alike in both has one
    /// number. Events and parameters that it lacks are declared as there.
    pub fn in_order_of(&self, first: &SheetFile, order: Order) -> Result<SheetFile, Failure> {
        if self.source.is_empty() || first.source.is_empty() {
            let why = format!("{} and {} go together by name only where both are text", first.path, self.path);
            return Err(Failure::input(why));
        }
        let (theirs, own) = (parts(&first.source), parts(&self.source));
        let kept = match order {
            Order::Join => [Sort::Param, Sort::Event],
            Order::Change => [Sort::Event, Sort::Behaviour],
        };
        let mut text: Vec<u8> = vec![];
        for sort in [Sort::Param, Sort::Event, Sort::Behaviour] {
            let theirs: Vec<&Part> = theirs.iter().filter(|p| p.sort == sort && kept.contains(&sort)).collect();
            let own: Vec<&Part> = own.iter().filter(|p| p.sort == sort).collect();
            for part in &theirs {
                let found = own.iter().find(|p| p.name == part.name);
                if sort == Sort::Behaviour {
                    self.same_cells(first, part.name)?;
                }
                text.extend([found.unwrap_or(part).text, b"\n"].concat());
            }
            let more = own.iter().filter(|p| theirs.iter().all(|t| t.name != p.name));
            more.for_each(|part| text.extend([part.text, b"\n"].concat()));
        }
        let sheet = read(&self.path, &text)?;
        let mut file =
            SheetFile { source: text.clone(), ..SheetFile::named(&self.path, sheet, names_of(&text), false) };
        for Param { name, value } in &self.params {
            if let Some(value) = value {
                file.set(name, *value);
            }
        }
        Ok(file)
    }

    /// A behaviour of another sheet is one here, of as many cells.
    fn same_cells(&self, first: &SheetFile, name: &str) -> Result<(), Failure> {
        let cells = |file: &SheetFile| file.groups.iter().find(|g| g.name == name).map(Group::count);
        match (cells(self), cells(first)) {
            (None, _) => Err(Failure::input(format!("{}: has no {name}, whose value {} keeps", self.path, first.path))),
            (own, other) if own != other => {
                Err(Failure::input(format!("{}: {name} has not the cells that it has in {}", self.path, first.path)))
            }
            _ => Ok(()),
        }
    }

    /// Where a change from another sheet to this one gives a number another name.
    pub fn changes(&self, old: &SheetFile) -> Vec<String> {
        if self.unnamed || old.unnamed {
            return vec![];
        }
        let count = |file: &SheetFile| file.groups.iter().map(Group::count).sum::<u32>();
        let both = |b: &u32| [old.behaviour(Behaviour(*b)), self.behaviour(Behaviour(*b))];
        let behaviours = (0..count(self).min(count(old))).map(|b| ("change.behaviour", b, both(&b)));
        let events = old.events.iter().zip(&self.events).map(|(a, b)| [a.clone(), b.clone()]);
        let events = events.enumerate().map(|(e, both)| ("change.event", e as u32, both));
        let unlike = behaviours.chain(events).filter(|(.., [was, is])| was != is);
        unlike.filter_map(|(key, number, [was, is])| words(key, &[&number.to_string(), &was, &is])).collect()
    }
}

fn whole(group: &Group) -> Shown {
    let members = (0..group.count()).map(|k| Behaviour(group.first + k)).collect();
    Shown { label: group.name.clone(), members, row: group.cells.is_some() }
}

/// Bytes that compile turns down.
fn not_a_sheet(path: &str, refusal: Refusal) -> Failure {
    Failure::input(format!("{path}: {}", refused(refusal)))
}

/// Bytes that are no sheet: where the field is that compile turns down, as far as the plain reader finds it.
fn bytes_at_fault(path: &str, bytes: &[u8], refusal: Refusal) -> Failure {
    let place = sheet_text::field_at_fault(bytes, refusal.number());
    let place = place.map_or(String::new(), |(from, what)| format!("; in {what}, which begins at byte {from}"));
    Failure::input(format!("{path}: {}{place}", refused(refusal)))
}

// ---- joins

/// Two files joined to one sheet, under the names of both: an event that both declare has the first one's.
pub fn joined(first: &SheetFile, second: &SheetFile) -> Result<SheetFile, Failure> {
    let path = format!("{} joined with {}", first.path, second.path);
    let params = shared_params(first, second)?;
    let mut both = SheetFile { path, params, ..first.clone() };
    // each for itself, so that a circle is named; then together
    let tables = [first.compile()?, second.compile()?];
    let sheet = first.sheet.join(&second.sheet, Some(&both.lent()));
    both.sheet = sheet.map_err(|refusal| not_joined(first, second, &tables, refusal))?;
    both.warnings = unlike_events(first, second);
    both.events.extend(second.events.iter().skip(first.events.len()).cloned());
    let count = first.groups.last().map_or(0, |g| g.first + g.count());
    both.groups.extend(second.groups.iter().map(|g| Group { first: g.first + count, ..g.clone() }));
    both.unnamed = true;
    both.source.clear();
    Ok(both)
}

/// Events that are one in a join, under two names.
fn unlike_events(first: &SheetFile, second: &SheetFile) -> Vec<String> {
    if first.unnamed || second.unnamed {
        return vec![];
    }
    let pairs = first.events.iter().zip(&second.events).enumerate().filter(|(_, (a, b))| a != b);
    let told = |(k, (a, b)): (usize, (&String, &String))| {
        words("join.event", &[&k.to_string(), a, &first.path, b, &second.path])
    };
    pairs.filter_map(told).collect()
}

/// Names of both sheets that mean two behaviours.
pub fn same_names(file: &SheetFile) -> Result<(), Failure> {
    for (k, group) in file.groups.iter().enumerate() {
        if file.groups[..k].iter().any(|g| g.name == group.name) {
            let why =
                format!("both declare {}: give one of them another name, so that it can be told apart", group.name);
            return Err(Failure::input(format!("{}: {why}", file.path)));
        }
    }
    Ok(())
}

/// Parameters are lent to both by number, so that each number has one meaning.
fn shared_params(first: &SheetFile, second: &SheetFile) -> Result<Vec<Param>, Failure> {
    let mut params = first.params.clone();
    for (k, other) in second.params.iter().enumerate() {
        match params.get_mut(k) {
            None => params.push(other.clone()),
            Some(own) if own.name == other.name || second.unnamed || first.unnamed => {
                own.value = own.value.or(other.value);
            }
            Some(own) => {
                let why =
                    format!("parameter {k} is {} in {} and {} in {}", own.name, first.path, other.name, second.path);
                let way = words("join.param", &[&first.path, &second.path]).unwrap_or_default();
                return Err(Failure::input(format!("{why}: {way}")));
            }
        }
    }
    Ok(params)
}

fn not_joined(first: &SheetFile, second: &SheetFile, tables: &[Table; 2], refusal: Refusal) -> Failure {
    let path = format!("{} joined with {}", first.path, second.path);
    let rank = |k: usize, e: u32| tables[k].rank(Event(e)).ok();
    let shared = first.events.len().min(second.events.len()) as u32;
    let unlike = (0..shared).find(|e| rank(0, *e) != rank(1, *e));
    let why = match (refusal, unlike) {
        (Refusal::UnlikeRanks, Some(e)) => {
            let one = |k: usize, file: &SheetFile| {
                format!("{} of rank {} in {}", file.event(Event(e)), rank(k, e).unwrap_or(0), file.path)
            };
            format!("{refusal}: event {e} is {} and {}", one(0, first), one(1, second))
        }
        _ => refused(refusal),
    };
    Failure::input(format!("{path}: {why}"))
}
