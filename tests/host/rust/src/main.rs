//! A match of two players, played in frames of a few steps: the other phone's table, entries of an order, rights, a look
//! ahead, a bonus sheet that joins in mid-round, a save and a load, a mended sheet, a crowd of entries at once, a board
//! at a place of the order, and an audit. Prints what happens: match SAVE ROUNDS SHEETS. A Recorder keeps what the round
//! is asked, and its record is what is saved.
mod day; // setter names day.sheet --as rust

use poqashem::record::{audit, Record, Recorder, Verdict, Writer};
use poqashem::{version, Behaviour, Ended, Event, Params, Player, Refusal, Sheet, Step, Table, Version};
use std::error::Error;
use std::path::Path;

const TURN: Event = Event(day::EVENT_turn);
const BONUS: Event = Event(day::EVENT_bonus);
const SCORE: Behaviour = Behaviour(day::BEHAVIOUR_score);
const SECRET: Behaviour = Behaviour(day::BEHAVIOUR_secret);
/// Steps of a frame.
const BUDGET: u32 = 10;

type Done<T = ()> = Result<T, Box<dyn Error>>;

fn params() -> Params {
    Params::from_bytes(day::PARAMS)
}

fn sheet(folder: &str, name: &str) -> Done<Sheet> {
    Ok(Sheet::assemble(std::fs::read(Path::new(folder).join(name).with_extension("sheet"))?)?)
}

/// A round with the number of the next entry: an app gets event, player and number from whoever makes the order.
struct Match {
    round: Recorder,
    entry: u32,
}

impl Match {
    /// Who sent it is kept with an arrival, so a commit can be shown as the player's. Only the host is told that it ran
    /// over: to the other phones goes `Step::told`.
    fn committed(step: &Step) {
        if let Step::Committed { arrival, over } = step {
            let (number, event, player) = (arrival.number, arrival.event.0, arrival.player.0);
            let over = if *over { ", which ran over" } else { "" };
            println!("    commit of arrival {number}: event {event} of player {player}{over}");
        }
    }

    /// What the sheet refuses takes no number.
    fn deliver(&mut self, event: Event, player: Player) -> Result<(), Refusal> {
        let done = self.round.deliver(self.entry, event, player)?;
        done.commit.iter().for_each(Match::committed);
        self.entry += 1;
        Ok(())
    }

    fn send(&mut self, event: Event, player: Player) {
        let done = self.deliver(event, player);
        println!("player {} sends event {}: {}", player.0, event.0, word(done));
    }

    /// One frame: its commits, and whether nothing is left.
    fn frame(&mut self, steps: u32) -> Done<(Vec<Step>, bool)> {
        let frame = self.round.frame(steps, u32::MAX);
        match frame.ended {
            Ended::Refused => Err(Refusal::Foreign.into()),
            ended => Ok((frame.commits, ended == Ended::Idle)),
        }
    }

    /// Frames until nothing is left to do.
    fn play_out(&mut self) -> Done {
        let (mut frames, mut count) = (0, 0);
        loop {
            let (commits, idle) = self.frame(BUDGET)?;
            commits.iter().for_each(Match::committed);
            frames += 1;
            count += commits.len();
            if idle {
                println!("    idle after {frames} frames, {count} commits");
                return Ok(());
            }
        }
    }

    /// Each player's screen: what it may not see is left out.
    fn show(&mut self) -> Done {
        for player in [Player(1), Player(2)] {
            print!("    player {} sees", player.0);
            for b in 0..self.round.round().table().behaviours()? {
                match self.round.board(Behaviour(b), player) {
                    Ok(value) => print!(" b{b} = {value}"),
                    Err(Refusal::NoRight) => {}
                    Err(refusal) => print!(" b{b}: {}", refusal.word()),
                }
            }
            println!();
        }
        Ok(())
    }

    /// What a move would lead to, shown while the pointer rests on it.
    fn hover(&mut self, event: Event, behaviour: Behaviour, player: Player) {
        let (e, b, p) = (event.0, behaviour.0, player.0);
        match self.round.preview(event, behaviour, player) {
            Ok(value) => println!("player {p} tries event {e}: b{b} would be {value}"),
            Err(refusal) => println!("player {p} may not try event {e} on b{b}: {}", refusal.word()),
        }
    }

    /// Saved while an event runs, closed, and gone on with: the record is played again, so that a changed file is
    /// turned down.
    fn save_and_load(mut self, path: &str) -> Done<Match> {
        self.frame(3)?.0.iter().for_each(Match::committed);
        std::fs::write(path, self.round.finish().body())?;
        let record = Record::from_body(&std::fs::read(path)?)?;
        let round = Recorder::resume(record).map_err(|verdict| format!("load: {verdict:?}"))?;
        let entry = round.round().taken()?.number;
        let mut again = Match { round, entry };
        println!("saved in mid-event, and loaded");
        again.play_out()?;
        Ok(again)
    }

    /// So many entries at once, more than the hand has places for: none is refused. One that comes twice is.
    fn crowd(&mut self, count: u32) -> Done {
        for _ in 0..count {
            self.deliver(TURN, Player(2))?;
        }
        let taken = self.round.round().taken()?;
        println!("    {} taken in, {} of them in hand", taken.number, taken.in_hand);
        let twice = self.round.deliver(self.entry - 1, TURN, Player(2)).map(drop);
        println!("the last entry once more: {}", word(twice));
        Ok(())
    }

    /// The board after all entries so far: a winner that is read from it is the same on every phone.
    fn settle(&mut self, player: Player) -> Done {
        let (board, commits) = self.round.board_after(self.entry, player)?;
        let (count, p) = (commits.len(), player.0);
        print!("    {count} commits later, the board after {} entries: player {p} sees", self.entry);
        for (b, value) in board.iter().enumerate() {
            if let Some(value) = value {
                print!(" b{b} = {value}");
            }
        }
        println!();
        Ok(())
    }

    /// A change to another sheet after all entries so far.
    fn mend(&mut self, sheet: Sheet, what: &str) -> Done {
        self.round.mend_after(self.entry, sheet, Some(params()))?.iter().for_each(Match::committed);
        println!("{what}, after {} entries", self.entry);
        Ok(())
    }
}

fn word(done: Result<(), Refusal>) -> &'static str {
    done.map_or_else(|refusal| refusal.word(), |()| "accepted")
}

/// What a phone sends before a round: its engine's version and its table.
struct Greeting {
    version: Version,
    table: Table,
}

impl Greeting {
    fn new(sheet: &Sheet) -> Done<Greeting> {
        Ok(Greeting { version: version(), table: sheet.compile(Some(&params()))? })
    }

    /// Whether the greeting that came from another phone is of the same program.
    fn meets(&self, received: &Greeting) -> &'static str {
        match (self.version == received.version, self.table == received.table) {
            (false, _) => "of another version",
            (true, false) => "another program",
            (true, true) => "accepted",
        }
    }
}

/// Before a sheet is played: whether the other phone, which has got this sheet or another, has the same program,
/// whether the phones will agree, and whether what player 2 sees depends on what it may not see.
fn judge(day: &Sheet, other: &Sheet) -> Done {
    let own = Greeting::new(day)?;
    let table = &own.table;
    print!("interface {}, layout {}; {} events of rank", version().interface, version().layout, table.events()?);
    for event in 0..table.events()? {
        print!(" {}", table.rank(Event(event))?);
    }
    println!();
    for got in [day, other] {
        println!("the other phone's greeting: {}", own.meets(&Greeting::new(got)?));
    }
    if let Some(clash) = day.agree(Some(&params()))? {
        let (first, second, b) = (clash.first.0, clash.second.0, clash.behaviour.0);
        println!("phones may disagree: events {first} and {second} differ in rank and share b{b}");
    }
    if day.leak(Some(&params()), Player(2))?.is_none() {
        println!("no behaviour that player 2 sees depends on one that is hidden from it");
    }
    Ok(())
}

/// The record is played again; then one answer in it is changed, as a cheat would.
fn settle_dispute(record: &Record) -> Done {
    let said = |record: &Record| match audit(record) {
        Verdict::Agrees { .. } => "accepted",
        _ => "the record comes to something else",
    };
    println!("audit: {}", said(record));
    let mut body = record.body();
    *body.last_mut().ok_or("an empty record")? ^= 1;
    println!("audit of a changed record: {}", said(&Record::from_body(&body)?));
    Ok(())
}

fn main() -> Done {
    let words: Vec<String> = std::env::args().collect();
    let [_, save, rounds, sheets] = &words[..] else { return Err("match SAVE ROUNDS SHEETS".into()) };
    let day = sheet(sheets, "day")?;
    let with = |name| -> Done<Sheet> { Ok(day.join(&sheet(sheets, name)?, Some(&params()))?) };

    judge(&day, &sheet(sheets, "turns")?)?;
    let mut m = Match { round: Recorder::start("final, table 3", day.clone(), Some(params()))?, entry: 0 };
    m.send(TURN, Player(2));
    m.send(BONUS, Player(2));
    m.send(BONUS, Player(1));
    println!("    {} steps to idle", m.round.forecast()?);
    m.play_out()?;
    m.show()?;
    m.hover(TURN, SCORE, Player(2));
    m.hover(TURN, SECRET, Player(2));

    m.send(TURN, Player(1));
    m.mend(with("squares")?, "the league's bonus joins in")?;
    m.send(BONUS, Player(1));
    m = m.save_and_load(save)?;
    m.send(BONUS, Player(1));
    m.play_out()?;
    m.show()?;

    m.mend(with("doubles")?, "the bonus is mended")?;
    m.send(BONUS, Player(1));
    m.play_out()?;
    m.show()?;
    m.crowd(67)?;
    m.settle(Player(1))?;
    m.show()?;
    let record = m.round.finish();
    settle_dispute(&record)?;
    Ok(Writer::new(std::fs::File::create(rounds)?)?.write(&record)?)
}
