//! A league's day, for the examples of docs/host/LEAGUE.md: day TEXT FOLDER. From the text of the league's sheet it
//! writes to the folder the sheet (league.sheet), files of recorded rounds (day/1.rounds to day/3.rounds), and the
//! records of one round that two players hand in, the second of which leaves out two of the opponent's moves
//! (alice.rounds, bob.rounds).
//!
//! One round of the day has an answer that the engine does not give, one began with another sheet, and a byte of the
//! third file was changed on its way.
use poqashem::record::{Record, Recorder, Request, Writer};
use poqashem::{Event, Params, Player, Sheet};
use std::path::Path;

/// The numbers of the sheet's events (examples/daily.sheet), and of its parameters.
const SOLVE: Event = Event(0);
const MISS: Event = Event(1);
const BONUS: Event = Event(2);
const TIME_UP: Event = Event(3);
const TICK: Event = Event(4);
const PARAMS: [i32; 8] = [10, 3, 25, 0, 0, 0, 0, 0];

const FILES: usize = 3;
const ROUNDS: usize = 400;
const MOVES: usize = 40;

type Move = (Event, Player);

/// Moves of two players and the host, the same for the same number, and the time-up.
fn moves(table: usize) -> Vec<Move> {
    let mut state = table as u64 * 0x9E37_79B9_7F4A_7C15 + 1;
    let mut draw = |n: u64| {
        state = state.wrapping_mul(0x5851_F42D_4C95_7F2D).wrapping_add(0x1405_7B7E_F767_814F);
        (state >> 33) % n
    };
    let mut one = || match draw(8) {
        0 | 1 => (TICK, Player::HOST),
        2 => (BONUS, Player::HOST),
        3 => (MISS, Player(1 + draw(2) as u32)),
        _ => (SOLVE, Player(1 + draw(2) as u32)),
    };
    let mut all: Vec<Move> = (0..MOVES).map(|_| one()).collect();
    all.push((TIME_UP, Player::HOST));
    all
}

/// The moves as a phone plays them that makes so many steps a frame.
fn played(name: String, sheet: &Sheet, moves: &[Move], steps: u32) -> Record {
    let mut round = Recorder::start(name, sheet.clone(), Some(Params::new(PARAMS))).expect("the league's sheet");
    for (number, (event, player)) in moves.iter().enumerate() {
        round.deliver(number as u32, *event, *player).expect("a move that the sheet allows");
        round.frame(steps, 64);
    }
    round.run_to_idle().expect("all is run");
    round.board_after(moves.len() as u32, Player::HOST).expect("all were taken in");
    round.finish()
}

fn bytes(records: &[Record]) -> Vec<u8> {
    let mut file = Writer::new(vec![]).expect("a file in memory");
    records.iter().for_each(|record| file.write(record).expect("a file in memory"));
    file.into_inner()
}

/// A file of the day: the first has an answer that the engine does not give, the second a round of another sheet, and
/// in the third a byte is changed.
fn file(k: usize, sheet: &Sheet, other: &Sheet) -> Vec<u8> {
    let round = |n: usize| {
        let sheet = if (k, n) == (1, 123) { other } else { sheet };
        let mut record = played(format!("table {}", k * ROUNDS + n), sheet, &moves(k * ROUNDS + n), 20);
        if (k, n) == (0, 17) {
            record.push(Request::Forecast, 77, &[]);
        }
        record
    };
    let mut out = bytes(&(0..ROUNDS).map(round).collect::<Vec<_>>());
    if k == 2 {
        let middle = out.len() / 2;
        out[middle] ^= 1;
    }
    out
}

fn main() -> Result<(), Box<dyn std::error::Error>> {
    let words: Vec<String> = std::env::args().skip(1).collect();
    let [text, folder] = &words[..] else { return Err("day TEXT FOLDER".into()) };
    let (text, folder) = (std::fs::read_to_string(text)?, Path::new(folder));
    let sheet = Sheet::assemble(&text).map_err(|fault| fault.to_string())?;
    let other = Sheet::assemble(text.replace("active score = 0", "active score = 50")).map_err(|f| f.to_string())?;
    std::fs::create_dir_all(folder.join("day"))?;
    std::fs::write(folder.join("league.sheet"), sheet.bytes())?;
    for k in 0..FILES {
        std::fs::write(folder.join(format!("day/{}.rounds", k + 1)), file(k, &sheet, &other))?;
    }
    let all = moves(0);
    let cheat: Vec<Move> =
        all.iter().enumerate().filter(|(k, m)| *k < 30 || m.1 != Player(1)).map(|(_, m)| *m).collect();
    std::fs::write(folder.join("alice.rounds"), bytes(&[played("table 0".into(), &sheet, &all, 9)]))?;
    std::fs::write(folder.join("bob.rounds"), bytes(&[played("table 0".into(), &sheet, &cheat, 50)]))?;
    Ok(())
}
