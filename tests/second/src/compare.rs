//! The proved engine held against the second one: sheets, tables, answers, rounds, guarded buffers, damaged bytes.
use crate::desk;
use crate::engine::{self, Answer, Arrival, Call, Instr, Model};
use crate::make::{self, Rng};
use crate::proved::{self, ROUND, TABLE};
use crate::words::{self, get as word};

const GUARD: usize = 64;

/// Parts of a seed that have calls of their own.
const ARRIVALS: &str = "arrivals";
const TWO_PHONES: &str = "two-phones";
pub const DAMAGED: &str = "damaged";

/// A buffer with guards on both sides, filled with a pattern.
pub struct Guarded {
    bytes: Vec<u8>,
    len: usize,
}

impl Guarded {
    pub fn new(len: usize, fill: u8) -> Guarded {
        let mut bytes = vec![0xA5; len + 2 * GUARD];
        bytes[GUARD..GUARD + len].fill(fill);
        Guarded { bytes, len }
    }

    pub fn part(&self) -> &[u8] {
        &self.bytes[GUARD..GUARD + self.len]
    }

    pub fn part_mut(&mut self) -> &mut [u8] {
        &mut self.bytes[GUARD..GUARD + self.len]
    }

    pub fn check(&self) {
        assert!(
            self.bytes[..GUARD].iter().chain(&self.bytes[GUARD + self.len..]).all(|b| *b == 0xA5),
            "a guard byte changed"
        );
    }
}

fn words_of(i: Instr) -> (u32, u32) {
    match i {
        Instr::Off => (256, 0),
        Instr::On => (512, 0),
        Instr::Copy(k) => (768 + k as u32, 0),
        Instr::Restore(k) => (1024 + k as u32, 0),
        Instr::Push(w) => (1280, w as u32),
        Instr::Load(k) => (1536 + k as u32, 0),
        Instr::Fetch(k) => (1792 + k as u32, 0),
        Instr::Apply(f) => (2048 + f as u32, 0),
        Instr::Save(k) => (2304 + k as u32, 0),
        Instr::Defer(k) => (2560 + k as u32, 0),
        Instr::Move(k) => (2816 + k as u32, 0),
    }
}

/// The words that the table of a sheet must have.
fn image(m: &Model) -> Vec<u32> {
    let mut w = vec![0u32; 8704];
    w[0] = m.sheet.ranks.len() as u32;
    w[1] = m.board.len() as u32;
    let mut at = 0;
    for (e, code) in m.code.iter().enumerate() {
        w[8 + 4 * e] = m.sheet.ranks[e] as u32;
        w[9 + 4 * e] = at as u32;
        w[10 + 4 * e] = code.len() as u32;
        w[11 + 4 * e] = code.iter().filter(|i| matches!(i, Instr::Copy(_))).count() as u32;
        for i in code {
            let (a, b) = words_of(*i);
            w[512 + 2 * at] = a;
            w[513 + 2 * at] = b;
            at += 1;
        }
        assert_eq!(code.len(), m.sheet.count(e), "01's count");
    }
    let passives = m.sheet.passives();
    w[361] = passives.len() as u32;
    match m.code.first() {
        Some(code) => {
            w[360] = (code.len() - w[11] as usize - 2 - passives.len()) as u32;
            assert_eq!(code[w[360] as usize..][..passives.len()], passives, "the passives in event 0's code");
        }
        None => passives.iter().enumerate().for_each(|(k, i)| (w[512 + 2 * k], w[513 + 2 * k]) = words_of(*i)),
    }
    for (i, v) in m.board.iter().enumerate() {
        w[136 + i] = *v as u32;
        w[200 + i] = m.sheet.viewers[i].unwrap_or(255) as u32;
        w[296 + i] = matches!(m.sheet.behaviours[i], engine::Behaviour::Passive(_)) as u32;
    }
    for (e, m) in m.sheet.senders.iter().enumerate() {
        w[264 + e] = m.unwrap_or(255) as u32;
    }
    w
}

/// circle on both: compile's number and the list as it was; for 12 a circle, as short as any, in the list's first
/// bytes.
pub fn circle(bytes: &[u8], params: &[u8], room: usize) {
    let mut list = Guarded::new(room, 0x5A);
    let lent = (bytes.to_vec(), params.to_vec());
    let got = proved::circle(bytes, params, list.part_mut());
    assert!(lent == (bytes.to_vec(), params.to_vec()), "circle changed the sheet or its parameters");
    list.check();
    let number = engine::compile(bytes, params).err().unwrap_or(0);
    if number != 12 {
        assert_eq!(got, number as u64, "circle's number");
        assert!(list.part().iter().all(|b| *b == 0x5A), "the list changed");
        return;
    }
    let sheet = engine::read(bytes).expect("a sheet with a circle is read");
    let (event, count) = (got as usize / 256 % 256, got as usize / 65536);
    assert_eq!(got % 256, 12, "circle's number");
    assert!(event < sheet.ranks.len() || event == 255, "circle's event");
    assert_eq!(Some(count), sheet.shortest(), "circle's length");
    if room < count {
        assert!(list.part().iter().all(|b| *b == 0x5A), "a list too short for the circle changed");
        return;
    }
    let members: Vec<usize> = list.part()[..count].iter().map(|b| *b as usize).collect();
    assert!(sheet.is_circle((event < 255).then_some(event), &members), "no circle: {members:?} on {event}");
    assert!(list.part()[count..].iter().all(|b| *b == 0x5A), "bytes past the circle changed");
}

/// compile on both, with the table's bytes; the sheet, its parameters filled in, where both accept it.
pub fn compile(bytes: &[u8], params: &[u8], table: &mut Guarded) -> Option<engine::Sheet> {
    circle(bytes, params, 64);
    let before = table.part().to_vec();
    let lent = (bytes.to_vec(), params.to_vec());
    let got = proved::compile(bytes, params, table.part_mut());
    assert!(lent == (bytes.to_vec(), params.to_vec()), "compile changed the sheet or its parameters");
    table.check();
    match engine::compile(bytes, params) {
        Err(n) => {
            assert_eq!(got, n, "compile's refusal");
            assert!(before == table.part(), "a refused compile changed the table");
            None
        }
        Ok(sheet) => {
            assert_eq!(got, 0, "compile refuses what is accepted");
            let want = image(&Model::new(sheet.clone()));
            for (k, w) in want.iter().enumerate() {
                assert_eq!(word(table.part(), k), *w, "table word {k}");
            }
            assert!(before[TABLE..] == table.part()[TABLE..], "bytes beyond the table changed");
            written_out(&make::encode(&sheet), table.part());
            Some(sheet)
        }
    }
}

/// The sheet with each parameter written out as its constant, and each cell of a row as an active, has the same table;
/// 3 where it is too long.
fn written_out(bytes: &[u8], table: &[u8]) {
    let mut other = vec![0u8; TABLE];
    let got = proved::compile(bytes, &[], &mut other);
    assert_eq!(got, if bytes.len() > 8192 { 3 } else { 0 }, "the sheet written out");
    assert!(got == 3 || other == table[..TABLE], "the table of the sheet written out");
}

pub fn packed(a: Answer) -> u64 {
    let about = |k: u64, (n, e, who): Arrival| n as u64 * 65536 + e as u64 * 256 + who as u64 * 16 + k;
    match a {
        Answer::Refused(n) => n as u64,
        Answer::Taken | Answer::Idle => 0,
        Answer::Value(v) => (1u64 << 32) + v as u32 as u64,
        Answer::Ran => 1,
        Answer::Started(a) => about(2, a),
        Answer::Committed(a, m) => ((m as u64) << 56) + about(3, a),
        Answer::BrokeIn(a) => about(4, a),
    }
}

pub fn call(table: &[u8], round: &mut [u8], c: Call) -> u64 {
    match c {
        Call::Arrive(e, who) => proved::arrive(table, round, e, who) as u64,
        Call::Step => proved::step(table, round),
        Call::Board(i, who) => proved::board(table, round, i, who),
    }
}

/// The round as read from its bytes against the model engine.
pub fn same_round(l: &[u8], m: &Model) {
    assert_eq!(word(l, 0), m.taken, "number taken in");
    let arrival = |n: u32, w: u32| (n, w as usize % 256, w / 256);
    let mut hand: Vec<Arrival> =
        (0..word(l, 1) as usize).map(|i| arrival(word(l, 8 + 2 * i), word(l, 9 + 2 * i))).collect();
    let mut want = m.waiting.clone();
    hand.sort();
    want.sort();
    assert_eq!(hand, want, "waiting");
    let running = (word(l, 2) != 0).then(|| (arrival(word(l, 4), word(l, 3)), word(l, 5) as usize));
    assert_eq!(running, m.running, "running");
    let stack: Vec<i32> = (0..word(l, 6) as usize).map(|i| word(l, 328 + i) as i32).collect();
    assert_eq!(stack, m.stack, "stack");
    assert_eq!(word(l, 7) != 0, m.mark, "mark");
    for i in 0..m.board.len() {
        assert_eq!(word(l, 136 + i) as i32, m.board[i], "store {i}");
        m.scratch[i].into_iter().for_each(|v| assert_eq!(word(l, 200 + i) as i32, v, "scratch {i}"));
        m.places[i].into_iter().for_each(|v| assert_eq!(word(l, 264 + i) as i32, v, "deferred {i}"));
    }
}

/// A preview of an event and a behaviour, declared or one past the last, against the model engine's; the round stays.
fn same_preview(t: &[u8], l: &[u8], m: &Model, k: usize) {
    let before = l.to_vec();
    let (e, i, who) = ((k / 16 % (m.code.len() + 1)) as u32, (k / 5 % (m.board.len() + 1)) as u32, (k / 64 % 9) as u32);
    assert_eq!(
        proved::preview(t, l, e, i, who),
        packed(m.preview(e, i, who)),
        "preview of {e} and {i} by {who} after {k}"
    );
    assert!(before == l, "a preview changed the round");
}

/// One list of calls on both engines, from a fresh round; the boards by the commits.
pub fn run(sheet: &engine::Sheet, table: &Guarded, calls: &[Call]) -> (Model, Vec<usize>) {
    let before = table.part().to_vec();
    let mut round = Guarded::new(ROUND + 16, 0x5A);
    assert_eq!(proved::start(table.part(), round.part_mut()), 0);
    let mut m = Model::new(sheet.clone());
    let mut by_commits = m.board.clone();
    let mut commits = Vec::new();
    for (k, c) in calls.iter().enumerate() {
        let want = m.call(*c);
        let got = call(table.part(), round.part_mut(), *c);
        assert_eq!(got, packed(want), "answer {k} to {c:?}");
        assert_eq!(proved::forecast(table.part(), round.part()), (1 << 32) + m.forecast() as u64, "forecast after {k}");
        if let Answer::Committed(a, mark) = want {
            assert_eq!(
                proved::told(got),
                packed(Answer::Committed(a, false)),
                "what the others are told of answer {k}"
            );
            let e = a.1;
            let over;
            (by_commits, over) = sheet.event(e, &by_commits);
            assert_eq!(mark, over, "the mark of answer {k}");
            commits.push(e);
        } else if *c == Call::Step {
            assert_eq!(proved::told(got), got, "what the others are told of answer {k}");
        }
        if !m.settling() {
            assert_eq!(m.board, by_commits, "the board of the commits");
        }
        if k % 16 == 0 || k + 1 == calls.len() {
            same_round(round.part(), &m);
        }
        // a preview runs the whole hand to idle, so only now and then
        if k % 128 == 64 {
            same_preview(table.part(), round.part(), &m, k);
        }
    }
    round.check();
    assert!(round.part()[ROUND..].iter().all(|b| *b == 0x5A), "bytes beyond the round changed");
    assert!(before == table.part(), "the table changed");
    (m, commits)
}

/// Idle within the forecast's steps; after exactly those with nothing running.
fn play_out(sheet: &engine::Sheet, table: &Guarded, calls: &[Call]) -> Model {
    let (m, _) = run(sheet, table, calls);
    let after = |steps: usize| {
        let mut all = calls.to_vec();
        all.extend(std::iter::repeat(Call::Step).take(steps));
        run(sheet, table, &all).0
    };
    let steps = m.forecast();
    if m.running.is_none() && steps > 0 {
        assert!(after(steps - 1).in_hand() > 0, "idle before the forecast");
    }
    let m = after(steps);
    assert_eq!(m.in_hand(), 0, "not idle within the forecast");
    m
}

/// Arrivals alone, so that nothing runs when the forecast is asked for.
fn arrivals(calls: &[Call]) -> Vec<Call> {
    calls.iter().copied().filter(|c| matches!(c, Call::Arrive(..))).collect()
}

/// Two cuts of the same arrivals, whoever of those that may sends them, where events of unequal rank are independent.
fn phones_of(r: &mut Rng, sheet: &engine::Sheet) -> Option<[Vec<Call>; 2]> {
    let n = sheet.ranks.len();
    let apart = (0..n).all(|e| (0..n).all(|f| sheet.ranks[e] == sheet.ranks[f] || sheet.independent(e, f)));
    if n == 0 || !apart {
        return None;
    }
    let arrivals: Vec<u32> = (0..1 + r.below(12)).map(|_| r.below(n) as u32).collect();
    let cut = |r: &mut Rng| {
        let mut calls = Vec::new();
        for e in &arrivals {
            let senders: Vec<u32> = (0..8).filter(|who| engine::may(sheet.senders[*e as usize], *who)).collect();
            calls.push(Call::Arrive(*e, senders[r.below(senders.len())]));
            calls.extend(std::iter::repeat(Call::Step).take(r.below(30)));
        }
        calls
    };
    Some([cut(r), cut(r)])
}

/// The boards of two cuts are equal.
fn two_phones(sheet: &engine::Sheet, table: &Guarded, [a, b]: &[Vec<Call>; 2]) {
    assert_eq!(play_out(sheet, table, a).board, play_out(sheet, table, b).board, "two phones");
}

/// A length below, at or beyond the one due.
pub fn length(r: &mut Rng, due: usize) -> usize {
    match r.below(5) {
        0 => due - 1,
        1 => r.below(due),
        2 => due,
        _ => due + 8,
    }
}

/// A table with a count or an event's code at its limit or one off, or with any byte among its counts, events and
/// values changed.
pub fn damage(r: &mut Rng, t: &mut [u8]) {
    if t.len() < 800 {
        return;
    }
    let near = |r: &mut Rng, limit: usize| (limit - 1 + r.below(3)) as u32;
    match r.below(4) {
        0 => words::put(t, 0, near(r, 32)),
        1 => words::put(t, 1, near(r, 64)),
        2 => {
            let (e, from) = (r.below(word(t, 0).clamp(1, 32) as usize), r.below(4096) as u32);
            words::put(t, 9 + 4 * e, from);
            words::put(t, 10 + 4 * e, near(r, 4096) - from);
        }
        _ => t[r.below(800)] = r.next() as u8,
    }
}

/// start on damaged tables and buffers of all lengths, over any old bytes: the answer and each byte as the plain
/// reading of the words says.
fn starts(r: &mut Rng, table: &Guarded, tally: &mut Tally) {
    for _ in 0..8 {
        let mut t = Guarded::new(length(r, TABLE), 0);
        let n = t.part().len();
        t.part_mut().copy_from_slice(&table.part()[..n]);
        for _ in 0..r.below(3) {
            damage(r, t.part_mut());
        }
        let mut l = Guarded::new(length(r, ROUND), r.next() as u8);
        let (t0, mut want) = (t.part().to_vec(), l.part().to_vec());
        let answer = words::start(&t0, &mut want);
        assert_eq!(proved::start(t.part(), l.part_mut()), answer, "start");
        assert!(want == l.part(), "start: the round");
        assert!(t0 == t.part(), "start changed the table");
        t.check();
        l.check();
        tally.starts[(answer == 0) as usize] += 1;
    }
}

/// Six bytes for each call, as replay reads them; a board reading has any kind above 1. A player that does not fit a
/// byte is recorded as 255, and refused alike.
fn recorded(r: &mut Rng, calls: &[Call]) -> Vec<u8> {
    let mut out = Vec::new();
    for c in calls {
        let (kind, n, who) = match c {
            Call::Arrive(e, who) => (0, *e, *who),
            Call::Step => (1, r.next() as u32, r.next() as u32),
            Call::Board(i, who) => (2 + r.below(254) as u8, *i, *who),
        };
        out.push(kind);
        out.extend(n.to_be_bytes());
        out.push(who.min(255) as u8);
    }
    out
}

/// replay of recorded bytes against the same calls made one by one: how many, the answers, the round, and nothing
/// beyond.
fn same_replay(t: &[u8], l: &[u8], calls: &[Call], bytes: &[u8], room: usize) {
    let made = (bytes.len() / 6).min(room / 8);
    let mut one_by_one = l.to_vec();
    let mut want = vec![0xC3; room];
    for (k, c) in calls[..made].iter().enumerate() {
        want[8 * k..8 * k + 8].copy_from_slice(&call(t, &mut one_by_one, *c).to_be_bytes());
    }
    let (mut round, mut answers) = (Guarded::new(l.len(), 0), Guarded::new(room, 0xC3));
    round.part_mut().copy_from_slice(l);
    assert_eq!(proved::replay(t, round.part_mut(), bytes, answers.part_mut()), made, "replay: calls made");
    assert!(want == answers.part(), "replay: answers");
    assert!(one_by_one == round.part(), "replay: the round");
    round.check();
    answers.check();
}

/// replay of a list from a fresh round: whole, its last call torn, with too little room, from a damaged round, on short
/// buffers.
fn replays(r: &mut Rng, table: &Guarded, calls: &[Call]) {
    let t = table.part().to_vec();
    let mut l = vec![0x5A; ROUND + 8];
    assert_eq!(proved::start(&t, &mut l), 0);
    let bytes = recorded(r, calls);
    let room = 8 * calls.len();
    same_replay(&t, &l, calls, &bytes, room);
    same_replay(&t, &l, calls, &bytes, room + r.below(20));
    same_replay(&t, &l, calls, &bytes[..r.below(bytes.len() + 1)], room);
    same_replay(&t, &l, calls, &bytes, r.below(room + 1));
    same_replay(&t[..TABLE - 1], &l, calls, &bytes, room);
    same_replay(&t, &l[..r.below(ROUND)], calls, &bytes, room);
    let at = r.below(40);
    l[at] = r.next() as u8;
    same_replay(&t, &l, calls, &bytes, room);
    assert!(t == table.part(), "replay changed the table");
}

/// Damaged table or round bytes: each call answers and leaves what the plain reading of the words says, and nothing
/// else changes.
fn foreign(r: &mut Rng, sheet: &engine::Sheet, table: &Guarded, opening: &[Call], tally: &mut Tally) {
    let mut t = Guarded::new(TABLE + 8, 0);
    t.part_mut().copy_from_slice(&table.part()[..TABLE + 8]);
    let mut l = Guarded::new(ROUND + 8, 0x77);
    proved::start(t.part(), l.part_mut());
    for c in opening {
        call(t.part(), l.part_mut(), *c);
    }
    for _ in 0..1 + r.below(4) {
        let (at, v) = (r.below(600), if r.one_in(2) { r.next() as u8 } else { r.below(70) as u8 });
        match r.below(4) {
            0 => t.part_mut()[at] = v,
            1 => t.part_mut()[2048 + at] = v,
            2 => l.part_mut()[r.below(40)] = v,
            _ => l.part_mut()[r.below(ROUND)] = v,
        }
    }
    let t0 = t.part().to_vec();
    for (k, c) in make::calls(r, sheet, 40).into_iter().enumerate() {
        let mut want = l.part().to_vec();
        let before = want.clone();
        let answer = words::call(t.part(), &mut want, c);
        if answer == 14 {
            want = before;
            tally.foreign += 1;
        }
        assert_eq!(call(t.part(), l.part_mut(), c), answer, "damaged bytes, {c:?}");
        assert_eq!(
            proved::forecast(t.part(), l.part()),
            words::forecast(t.part(), l.part()),
            "damaged bytes, forecast after {c:?}"
        );
        if k % 64 == 8 {
            let (e, i, who) = ((k / 8 % (sheet.ranks.len() + 1)) as u32, (k / 8) as u32, make::player(r));
            assert_eq!(
                proved::preview(t.part(), l.part(), e, i, who),
                words::preview(t.part(), l.part(), e, i, who),
                "damaged bytes, preview of {e} and {i} by {who}"
            );
        }
        assert!(want == l.part(), "damaged bytes, {c:?}: the round");
    }
    assert!(t0 == t.part(), "a call changed the table");
    t.check();
    l.check();
}

/// A list of calls from a fresh round with changes to other sheets in it: answers, rounds, boards, and the forecast
/// under the sheet in force.
fn mends(r: &mut Rng, sheet: &engine::Sheet, table: &Guarded, tally: &mut Tally) {
    let mut t = Guarded::new(TABLE, 0);
    t.part_mut().copy_from_slice(&table.part()[..TABLE]);
    let mut l = Guarded::new(ROUND + 8, 0x3C);
    assert_eq!(proved::start(t.part(), l.part_mut()), 0);
    let mut m = Model::new(sheet.clone());
    let mut by_commits = m.board.clone();
    for _ in 0..6 {
        let n = r.below(60);
        for c in make::calls(r, &m.sheet.clone(), n) {
            let want = m.call(c);
            assert_eq!(call(t.part(), l.part_mut(), c), packed(want), "answer to {c:?} between changes");
            if let Answer::Committed((_, e, _), _) = want {
                by_commits = m.sheet.event(e, &by_commits).0;
            }
        }
        let other = make::near(r, &m.sheet);
        let mut u = Guarded::new(TABLE, 0);
        if proved::compile(&make::encode(&other), &[], u.part_mut()) != 0 {
            continue;
        }
        let (t0, u0, old) = (t.part().to_vec(), u.part().to_vec(), m.sheet.clone());
        let before = l.part().to_vec();
        let answer = m.change(&other);
        assert_eq!(proved::mend(t.part(), u.part(), l.part_mut()), answer, "a change of sheets");
        assert!(t0 == t.part() && u0 == u.part(), "a change of sheets changed a table");
        if answer == 0 {
            by_commits = other.carried(&old, &by_commits);
            t = u;
        } else {
            assert!(before == l.part(), "a refused change changed the round");
        }
        same_round(l.part(), &m);
        assert_eq!(proved::forecast(t.part(), l.part()), (1 << 32) + m.forecast() as u64, "forecast after a change");
        if !m.settling() {
            assert_eq!(m.board, by_commits, "the board of the commits and changes");
        }
        tally.mends[answer as usize] += 1;
    }
    assert!(l.part()[ROUND..].iter().all(|b| *b == 0x3C), "bytes beyond the round changed");
    l.check();
}

/// A change of sheets on damaged bytes and short buffers: answer and round as the plain reading of the words says.
fn damaged_mends(r: &mut Rng, sheet: &engine::Sheet, table: &Guarded, opening: &[Call], tally: &mut Tally) {
    for _ in 0..8 {
        let mut t = Guarded::new(TABLE, 0);
        t.part_mut().copy_from_slice(&table.part()[..TABLE]);
        let mut l = Guarded::new(ROUND, 0);
        assert_eq!(proved::start(t.part(), l.part_mut()), 0);
        for c in opening {
            call(t.part(), l.part_mut(), *c);
        }
        let mut u = Guarded::new(TABLE, 0);
        if r.one_in(2) || proved::compile(&make::encode(&make::near(r, sheet)), &[], u.part_mut()) != 0 {
            u.part_mut().copy_from_slice(t.part());
        }
        for _ in 0..r.below(3) {
            let v = if r.one_in(2) { r.next() as u8 } else { r.below(70) as u8 };
            match r.below(5) {
                0 => t.part_mut()[r.below(1500)] = v,
                1 => u.part_mut()[r.below(1500)] = v,
                2 => words::put(u.part_mut(), 360 + r.below(2), r.below(4200) as u32),
                3 => u.part_mut()[2048 + r.below(300)] = v,
                _ => l.part_mut()[r.below(600)] = v,
            }
        }
        let cut = |r: &mut Rng, n: usize| if r.one_in(12) { r.below(n) } else { n };
        let (a, b, c) = (cut(r, TABLE), cut(r, TABLE), cut(r, ROUND));
        let (t0, u0, mut want) = (t.part().to_vec(), u.part().to_vec(), l.part()[..c].to_vec());
        let before = want.clone();
        let answer = words::mend(&t0[..a], &u0[..b], &mut want);
        if answer != 0 {
            want = before;
        }
        assert_eq!(
            proved::mend(&t.part()[..a], &u.part()[..b], &mut l.part_mut()[..c]),
            answer,
            "damaged bytes, a change of sheets"
        );
        assert!(want == l.part()[..c], "damaged bytes, a change of sheets: the round");
        assert!(t0 == t.part() && u0 == u.part(), "a change of sheets changed a table");
        l.check();
        tally.mends[answer as usize] += 1;
    }
}

#[derive(Default)]
pub struct Tally {
    pub accepted: usize,
    pub refused: [usize; 32],
    pub calls: usize,
    pub pairs: usize,
    pub foreign: usize,
    /// Refused and made.
    pub starts: [usize; 2],
    /// Changes of sheets made, at 0, and refused by number.
    pub mends: [usize; 32],
    /// Written, at 0, and refused by number.
    pub formulas: [usize; 32],
    pub joins: [usize; 32],
    pub agree: crate::agree::Tally,
    pub deliveries: crate::deliver::Tally,
    /// Calls of frames that were compared.
    pub frames: usize,
    /// What a seed is being held against: named where it differs.
    pub part: &'static str,
}

/// All that a seed stands for; what is drawn later comes from `rest`.
pub struct Case {
    pub bytes: Vec<u8>,
    pub params: Vec<u8>,
    fill: u8,
    pub calls: Vec<Call>,
    phones: Option<[Vec<Call>; 2]>,
    /// Calls before bytes are damaged.
    opening: Vec<Call>,
    rest: Rng,
}

impl Case {
    pub fn new(seed: u64) -> Case {
        let mut r = Rng::new(seed);
        let whole = if r.one_in(3) { make::rowed(&mut r) } else { make::encode(&make::sheet(&mut r)) };
        let bytes = if r.one_in(2) { make::damaged(&mut r, whole) } else { whole };
        let params = make::params(&mut r);
        let fill = r.next() as u8;
        let Ok(sheet) = engine::compile(&bytes, &params) else {
            return Case { bytes, params, fill, calls: vec![], phones: None, opening: vec![], rest: r };
        };
        let n = if r.one_in(20) { 3000 } else { 200 };
        let calls = make::calls(&mut r, &sheet, n);
        let phones = phones_of(&mut r, &sheet);
        let opening = make::calls(&mut r, &sheet, 20);
        Case { bytes, params, fill, calls, phones, opening, rest: r }
    }
}

/// The part of a seed that differs, as the desk program reads it, every call being the host's there: its sheet,
/// parameters written out, and calls, run to idle, two phones one after the other; or the calls up to where bytes are
/// damaged.
pub fn script(seed: u64, part: &str) -> Vec<u8> {
    let case = Case::new(seed);
    let bytes = engine::compile(&case.bytes, &case.params).map_or(case.bytes, |s| make::encode(&s));
    let lists = match part {
        ARRIVALS => vec![arrivals(&case.calls)],
        TWO_PHONES => case.phones.unwrap().to_vec(),
        DAMAGED => vec![case.opening],
        _ => vec![case.calls],
    };
    let mut out = Vec::new();
    for calls in lists {
        out.extend(desk::sheet(&bytes));
        for c in calls {
            out.extend(match c {
                Call::Arrive(e, _) => desk::arrive(e as u8),
                Call::Step => desk::steps(1),
                Call::Board(..) => desk::show(),
            });
        }
        if part != DAMAGED {
            (0..5).for_each(|_| out.extend(desk::steps(u16::MAX)));
            out.extend(desk::show());
        }
    }
    out
}

/// One seed's worth of everything.
pub fn one(seed: u64, tally: &mut Tally) {
    let mut case = Case::new(seed);
    tally.part = "formula";
    crate::formula::one(seed, &mut tally.formulas);
    tally.part = "join";
    crate::pool::one(seed, &case.bytes, &case.params, &mut tally.joins);
    tally.part = "agree";
    crate::agree::one(seed, &case.bytes, &case.params, &mut tally.agree);
    tally.part = "types";
    crate::types::one(seed, &case);
    tally.part = "compile";
    let mut table = Guarded::new(TABLE + 32, case.fill);
    let Some(sheet) = compile(&case.bytes, &case.params, &mut table) else {
        tally.refused[proved::compile(&case.bytes, &case.params, table.part_mut()) as usize] += 1;
        return;
    };
    let r = &mut case.rest;
    tally.accepted += 1;
    tally.calls += case.calls.len();
    tally.part = "list";
    play_out(&sheet, &table, &case.calls);
    tally.part = ARRIVALS;
    play_out(&sheet, &table, &arrivals(&case.calls));
    if let Some(phones) = &case.phones {
        tally.part = TWO_PHONES;
        tally.pairs += 1;
        two_phones(&sheet, &table, phones);
    }
    tally.part = DAMAGED;
    foreign(r, &sheet, &table, &case.opening, tally);
    tally.part = "start";
    starts(r, &table, tally);
    tally.part = "counts";
    crate::frames::counts(seed, &table);
    tally.part = "frame";
    tally.frames += crate::frames::one(seed, &sheet, &table);
    tally.part = "deliver";
    crate::deliver::one(seed, &sheet, &table, &mut tally.deliveries);
    tally.part = "replay";
    replays(r, &table, &case.calls);
    tally.part = "mend";
    mends(r, &sheet, &table, tally);
    tally.part = "damaged-mend";
    damaged_mends(r, &sheet, &table, &case.opening, tally);
}
