//! What is told of two phones: whether they agree, which events meet and where in the text, which of them must have one
//! rank, and two lists on which phones end apart, where the search finds some. What is told stands in `hints.json`.
use crate::apart::{pairs, Apart, Search, Told};
use crate::failure::Failure;
use crate::file::{SheetFile, Shown};
use crate::names::handler_line;
use crate::wording::{listed, long, player, several};
use poqashem::{Behaviour, Event, Player, Refusal, Shared, Table};
use sheet_text::{words, Active, Body, Expr};

/// So many pairs of events are named; the others are counted.
const PAIRS: usize = 12;

/// What the engine answers of a sheet's phones.
#[derive(Clone, Copy, Debug, PartialEq, Eq)]
pub enum Answer {
    /// `agree` is 0.
    Agree,
    /// `agree` is 29, and `agree_for` is 0 for each behaviour.
    Each,
    /// Phones may end apart.
    Apart,
}

/// Two events of unequal rank that meet, the first being the one of the lesser number.
pub struct Meeting {
    pub first: Event,
    pub second: Event,
    pub shared: Shared,
}

/// All that is told.
pub struct Phones<'a> {
    pub file: &'a SheetFile,
    pub table: &'a Table,
    pub answer: Answer,
    pub meetings: Vec<Meeting>,
    /// Events that must have one rank, or nothing in common.
    pub groups: Vec<Vec<Event>>,
    /// For each behaviour, whether it is proved equal.
    pub equal: Vec<bool>,
    pub winners: Vec<Shown>,
    pub told: Option<Told>,
}

/// What is asked of the search.
#[derive(Clone, Debug, Default)]
pub struct Wish {
    /// Boards, at most; where none are named, about two seconds.
    pub boards: Option<usize>,
    /// Behaviours that decide.
    pub winners: Vec<String>,
}

/// A text of the table.
fn say(key: &str, parts: &[&str]) -> String {
    words(key, parts).unwrap_or_else(|| key.to_string())
}

impl<'a> Phones<'a> {
    pub fn of(file: &'a SheetFile, table: &'a Table, wish: &Wish) -> Result<Phones<'a>, Failure> {
        let winner = |name: &String| {
            let near = || crate::play::perhaps(name, file.groups.iter().map(|g| g.name.as_str()));
            file.shown(name).ok_or_else(|| {
                Failure::input(format!("{}: no behaviour or cell {name} to be a winner{}", file.path, near()))
            })
        };
        let winners = wish.winners.iter().map(winner).collect::<Result<Vec<_>, _>>()?;
        let answered = answers(file, table, winners, wish.boards);
        answered.map_err(|refusal| Failure::input(format!("{}: unexpected: {refusal}", file.path)))
    }

    /// The report, line by line.
    pub fn lines(&self) -> Vec<String> {
        let mut lines = match self.answer {
            Answer::Agree => ["phones.agree", "phones.promise", "phones.deliver", "phones.decide"].map(|k| say(k, &[])),
            Answer::Each => ["phones.each", "phones.change", "phones.deliver", "phones.decide"].map(|k| say(k, &[])),
            Answer::Apart => return self.apart(),
        }
        .to_vec();
        for winner in &self.winners {
            lines.push(say("winner.equal", &[&winner.label]));
        }
        lines
    }

    fn apart(&self) -> Vec<String> {
        let mut lines = vec![say("phones.apart", &[])];
        lines.extend(self.meetings.iter().take(PAIRS).map(|meeting| self.meeting(meeting)));
        let more = self.meetings.len().saturating_sub(PAIRS);
        if more > 0 {
            lines.push(say("phones.more", &[&long(more as u64)]));
        }
        for group in &self.groups {
            let names: Vec<String> = group.iter().map(|e| self.file.event(*e)).collect();
            lines.push(say("phones.group", &[&listed(&names)]));
        }
        lines.extend(self.searched());
        lines.extend(self.behaviours());
        lines
    }

    // ---- who writes and who reads

    /// `timeup (rank 9) writes over, line 6; hit (rank 2) reads it, line 9`: who writes comes first.
    pub fn meeting(&self, meeting: &Meeting) -> String {
        let Meeting { first, second, shared } = meeting;
        let one = (*first, shared.first_writes, shared.first_reads);
        let other = (*second, shared.second_writes, shared.second_reads);
        let (a, b) = if shared.first_writes { (one, other) } else { (other, one) };
        let name = self.file.behaviour(shared.behaviour);
        format!("{}; {}", self.part(a, shared.behaviour, &name), self.part(b, shared.behaviour, "it"))
    }

    fn part(&self, (event, writes, reads): (Event, bool, bool), at: Behaviour, name: &str) -> String {
        let does = match (writes, reads) {
            (true, true) => "meets.both",
            (true, false) => "meets.writes",
            _ => "meets.reads",
        };
        let rank = self.table.rank(event).unwrap_or(0).to_string();
        let mut told = say(does, &[&self.file.event(event), &rank, name]);
        let mut lines: Vec<usize> = vec![];
        lines.extend(writes.then(|| self.writes_at(event, at)).flatten());
        lines.extend(reads.then(|| self.reads_at(event, at)).flatten());
        lines.sort_unstable();
        lines.dedup();
        for (k, line) in lines.iter().enumerate() {
            told += &say(if k == 0 { "meets.line" } else { "meets.and" }, &[&line.to_string()]);
        }
        told
    }

    /// The line in which an event writes a behaviour: its handler, or the formula that follows what the event writes.
    pub fn writes_at(&self, event: Event, at: Behaviour) -> Option<usize> {
        let group = self.file.group(at).filter(|_| self.file.has_lines())?;
        handler_line(&self.file.source, &group.name, &self.file.event(event)).or(Some(group.place.line))
    }

    /// The first handler of an event that names a behaviour, itself or through passives.
    pub fn reads_at(&self, event: Event, at: Behaviour) -> Option<usize> {
        let file = self.file;
        let wanted = file.groups.iter().position(|g| (g.first..g.first + g.count()).contains(&at.0))?;
        let sheet = sheet_text::decode(file.sheet.bytes()).ok().filter(|_| file.has_lines())?;
        let follows = |expr: &Expr| self.names(&sheet, expr, wanted, file.groups.len());
        let reads = |active: &Active| active.handlers.iter().any(|h| h.event as u32 == event.0 && follows(&h.expr));
        let found = sheet.behaviours.iter().position(|b| match &b.body {
            Body::Passive(_) => false,
            Body::Active(active) | Body::Row(_, active) => reads(active),
        })?;
        handler_line(&file.source, &file.groups.get(found)?.name, &file.event(event))
    }

    /// Whether a formula names a declaration, directly or through so many passives.
    fn names(&self, sheet: &sheet_text::Sheet, expr: &Expr, wanted: usize, deep: usize) -> bool {
        match expr {
            Expr::Constant(_) | Expr::Param(_) => false,
            Expr::Apply(_, parts) => parts.iter().any(|part| self.names(sheet, part, wanted, deep)),
            Expr::Name(number) => {
                let holds = |g: &crate::names::Group| (g.first..g.first + g.count()).contains(&(*number as u32));
                let Some(own) = self.file.groups.iter().position(holds) else { return false };
                let through = match sheet.behaviours.get(own).map(|b| &b.body) {
                    Some(Body::Passive(next)) if deep > 0 => self.names(sheet, next, wanted, deep - 1),
                    _ => false,
                };
                own == wanted || through
            }
        }
    }

    // ---- the search

    /// Whether two phones were found that end apart.
    pub fn parted(&self) -> Option<&Apart> {
        self.told.as_ref().and_then(|told| told.found.as_ref())
    }

    fn searched(&self) -> Vec<String> {
        let Some(told) = &self.told else { return vec![] };
        let looked = several(told.looked as u64, "board", "boards");
        match (&told.found, told.all) {
            (Some(found), _) => self.found(found, &long(told.looked as u64)),
            (None, true) => vec![say("search.all", &[&looked])],
            (None, false) => vec![say("search.first", &[&looked])],
        }
    }

    fn found(&self, found: &Apart, looked: &str) -> Vec<String> {
        let [slow, urgent] = [found.slow, found.urgent].map(|e| self.file.event(e));
        let at = found.differs();
        let [one, other] = [0, 1].map(|k| found.boards[k][at.0 as usize].to_string());
        let [fast, late] = [0, 1].map(|k| self.board(&found.boards[k]));
        vec![
            say("search.found", &[looked]),
            say("search.moves", &[&self.moves(found)]),
            say("search.fast", &[&fast]),
            say("search.slow", &[&slow, &urgent, &late]),
            say("search.differs", &[&self.file.behaviour(at), &one, &other]),
        ]
    }

    /// `9 times tick from the host, then bid2 from player 2, tick from the host`.
    pub fn moves(&self, found: &Apart) -> String {
        let mut runs: Vec<(Event, u64)> = vec![];
        for event in found.before.iter().chain([&found.slow, &found.urgent]) {
            match runs.last_mut() {
                Some((last, count)) if last == event => *count += 1,
                _ => runs.push((*event, 1)),
            }
        }
        let one = |(event, count): &(Event, u64)| {
            let sent = say("search.sent", &[&self.file.event(*event), &player(self.sender(*event))]);
            if *count == 1 {
                sent
            } else {
                say("search.times", &[&long(*count), &sent])
            }
        };
        runs.iter().map(one).collect::<Vec<_>>().join(", ")
    }

    /// Who sends an event: the least player that may where not all may, else the host.
    pub fn sender(&self, event: Event) -> Player {
        let may = |player: &Player| self.table.start().is_ok_and(|mut round| round.arrive(event, *player).is_ok());
        let players = Player::ALL.into_iter().filter(|p| *p != Player::HOST);
        let able: Vec<Player> = players.clone().filter(may).collect();
        if able.len() == players.count() {
            Player::HOST
        } else {
            able.first().copied().unwrap_or(Player::HOST)
        }
    }

    /// A board in words.
    pub fn board(&self, board: &[i32]) -> String {
        crate::play::values(&self.file.everything(), &|b| Ok(board[b.0 as usize])).unwrap_or_default()
    }

    /// What is proved equal and what may differ, of the winners that are named or of all.
    fn behaviours(&self) -> Vec<String> {
        let equal = |shown: &Shown| shown.members.iter().all(|b| self.equal[b.0 as usize]);
        if self.winners.is_empty() {
            let (same, other): (Vec<Shown>, Vec<Shown>) = self.file.everything().into_iter().partition(equal);
            let labels = |of: Vec<Shown>| listed(&of.into_iter().map(|s| s.label).collect::<Vec<_>>());
            let lists = [("behaviours.equal", labels(same)), ("behaviours.differ", labels(other))];
            return lists.iter().filter(|(_, l)| !l.is_empty()).map(|(key, list)| say(key, &[list])).collect();
        }
        let found = self.parted();
        let values = |f: &Apart, winner: &Shown| {
            let of =
                |k: usize| winner.members.iter().map(|b| f.boards[k][b.0 as usize].to_string()).collect::<Vec<_>>();
            [0, 1].map(|k| of(k).join(" "))
        };
        let one = |winner: &Shown| {
            if equal(winner) {
                return say("winner.equal", &[&winner.label]);
            }
            match found.map(|f| values(f, winner)) {
                None => say("winner.may", &[&winner.label]),
                Some([a, b]) if a == b => say("winner.same", &[&winner.label]),
                Some([a, b]) => say("winner.differs", &[&winner.label, &a, &b]),
            }
        };
        self.winners.iter().map(one).collect()
    }
}

/// The engine's answers, and the search where phones may end apart.
fn answers<'a>(
    file: &'a SheetFile,
    table: &'a Table,
    winners: Vec<Shown>,
    boards: Option<usize>,
) -> Result<Phones<'a>, Refusal> {
    let lent = file.lent();
    let each = |b: u32| file.sheet.agree_for(Some(&lent), Behaviour(b)).map(|clash| clash.is_none());
    let equal = (0..table.behaviours()?).map(each).collect::<Result<Vec<bool>, _>>()?;
    let answer = match file.sheet.agree(Some(&lent))? {
        None => Answer::Agree,
        Some(_) if equal.iter().all(|e| *e) => Answer::Each,
        Some(_) => Answer::Apart,
    };
    let mut phones = Phones { file, table, answer, meetings: vec![], groups: vec![], equal, winners, told: None };
    if answer == Answer::Apart {
        phones.meetings = meetings(file, table)?;
        phones.groups = groups(file, table)?;
        let pairs = pairs(&file.sheet, &lent, table)?;
        let most = boards.map_or_else(|| Search::usual(table, pairs.len()), Ok)?;
        let winners = phones.winners.iter().flat_map(|w| w.members.clone());
        let decide: Vec<Behaviour> = winners.filter(|b| !phones.equal[b.0 as usize]).collect();
        phones.told = Some(Search { table, pairs, winners: &decide, most }.run()?);
    }
    Ok(phones)
}

/// Every two events of unequal rank that meet.
fn meetings(file: &SheetFile, table: &Table) -> Result<Vec<Meeting>, Refusal> {
    let lent = file.lent();
    let mut found = vec![];
    for (low, high) in pairs(&file.sheet, &lent, table)? {
        let (first, second) = (Event(low.0.min(high.0)), Event(low.0.max(high.0)));
        let shared = file.sheet.pair(Some(&lent), first, second)?;
        found.extend(shared.map(|shared| Meeting { first, second, shared }));
    }
    Ok(found)
}

/// Events that meet, directly or by others, where their ranks are not all one: with one rank each of these, no two
/// events of unequal rank meet, and not before.
fn groups(file: &SheetFile, table: &Table) -> Result<Vec<Vec<Event>>, Refusal> {
    let lent = file.lent();
    let count = table.events()?;
    let mut of: Vec<u32> = (0..count).collect();
    for second in 0..count {
        for first in 0..second {
            let shared = file.sheet.pair(Some(&lent), Event(first), Event(second))?;
            let (a, b) = (of[first as usize], of[second as usize]);
            if a != b && shared.is_some_and(|s| s.meet) {
                of.iter_mut().filter(|g| **g == a.max(b)).for_each(|g| *g = a.min(b));
            }
        }
    }
    let group = |g: u32| (0..count).filter(|e| of[*e as usize] == g).map(Event).collect::<Vec<_>>();
    let unequal = |group: &Vec<Event>| group.iter().any(|e| table.rank(*e) != table.rank(group[0]));
    Ok((0..count).map(group).filter(|g| !g.is_empty() && unequal(g)).collect())
}
