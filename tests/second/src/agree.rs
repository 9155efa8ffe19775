//! Whether two phones agree on a sheet, and whether a hidden value leaks: the second engine's own decision, from
//! documents 01 and 02, held against the proved calls; and what the decision means for lists
//! of calls.
use std::fmt;

use crate::compare::{self, Guarded};
use crate::engine::{self, Behaviour, Call, Sheet};
use crate::limits::{active, app, con, event, field, handler, join, name, passive};
use crate::make::{self, Rng};
use crate::proved::{self, ROUND, TABLE};

/// Pairs of events of a sheet that lists are searched for, and events that stand before a pair in them.
const PAIRS: usize = 12;
const BEFORE: usize = 4;

#[derive(Default)]
pub struct Tally {
    /// Sheets with a pair that is not independent, and without.
    sheets: [usize; 2],
    /// Behaviours that two events meet at, and that none do.
    behaviours: [usize; 2],
    /// Pairs of unequal rank that are not independent: two lists end apart, or none was found that does.
    pairs: [usize; 2],
    /// Sheets and players: a hidden value leaks, or none does.
    leaks: [usize; 2],
    /// Pairs of rounds that differ in hidden starts.
    hidden: usize,
}

impl fmt::Display for Tally {
    fn fmt(&self, f: &mut fmt::Formatter<'_>) -> fmt::Result {
        let ([clash, apart], [ended, found]) = (self.sheets, self.pairs);
        write!(f, "sheets on which phones agree {apart}, not {clash}; ")?;
        write!(f, "behaviours on which they do {}, not {}; ", self.behaviours[1], self.behaviours[0])?;
        write!(f, "of the dependent pairs ")?;
        write!(f, "{ended} have two lists that end apart, ")?;
        write!(
            f,
            "for {found} none was found; players whom nothing leaks to {}, something {}; hidden starts changed {}",
            self.leaks[1], self.leaks[0], self.hidden
        )
    }
}

fn packed_clash(clash: Option<(usize, usize, usize)>) -> u64 {
    clash.map_or(0, |(e, f, i)| 29 + (e << 8) as u64 + (f << 16) as u64 + (i << 24) as u64)
}

fn agreed(read: &Result<Sheet, u32>) -> u64 {
    match read {
        Err(n) => *n as u64,
        Ok(sheet) => packed_clash(sheet.clash()),
    }
}

fn leaked(read: &Result<Sheet, u32>, who: u32) -> u64 {
    match read {
        Err(n) => *n as u64,
        Ok(_) if who > 7 => 24,
        Ok(sheet) => sheet.leak(who).map_or(0, |(i, j)| 30 + (i << 8) as u64 + (j << 16) as u64),
    }
}
fn held_agree(bytes: &[u8], params: &[u8], want: u64) {
    let lent = (bytes.to_vec(), params.to_vec());
    assert_eq!(proved::agree(bytes, params), want, "agree");
    assert!(lent == (bytes.to_vec(), params.to_vec()), "agree changed what it was lent to read");
}
fn held_leak(bytes: &[u8], params: &[u8], who: u32, want: u64) {
    let lent = (bytes.to_vec(), params.to_vec());
    assert_eq!(proved::leak(bytes, params, who), want, "leak to player {who}");
    assert!(lent == (bytes.to_vec(), params.to_vec()), "leak changed what it was lent to read");
}

/// What agree_for answers of a behaviour, packed as agree's answer is.
fn agreed_for(read: &Result<Sheet, u32>, b: u32) -> u64 {
    match read {
        Err(n) => *n as u64,
        Ok(sheet) if b as usize >= sheet.behaviours.len() => 18,
        Ok(sheet) => packed_clash(sheet.clash_for(b as usize)),
    }
}

/// What pair answers of two events: 2^32, the behaviour, and from bit 8 on what each does to it.
fn paired(read: &Result<Sheet, u32>, e: u32, f: u32) -> u64 {
    match read {
        Err(n) => *n as u64,
        Ok(sheet) if e.max(f) as usize >= sheet.ranks.len() => 15,
        Ok(sheet) => sheet.pair(e as usize, f as usize).map_or(0, |(b, bits)| (1 << 32) + b as u64 + 256 * bits as u64),
    }
}

/// agree_for of every behaviour, and pair of every two events of a few.
fn held_agree_for(bytes: &[u8], params: &[u8], read: &Result<Sheet, u32>) {
    let lent = (bytes.to_vec(), params.to_vec());
    let (events, behaviours) = read.as_ref().map_or((1, 1), |s| (s.ranks.len() as u32, s.behaviours.len() as u32));
    for b in (0..=behaviours).chain([255, 256, u32::MAX]) {
        assert_eq!(proved::agree_for(bytes, params, b), agreed_for(read, b), "agree_for b{b}");
    }
    for (e, f) in
        (0..events.min(6) + 1).flat_map(|e| [0, 1, 2, events - events.min(1), events, u32::MAX].map(|f| (e, f)))
    {
        assert_eq!(proved::pair(bytes, params, e, f), paired(read, e, f), "pair {e}, {f}");
    }
    assert!(lent == (bytes.to_vec(), params.to_vec()), "agree_for or pair changed what it was lent to read");
}

/// Both calls on a sheet, and on each player; the answer of agree.
pub fn check(bytes: &[u8], params: &[u8]) -> u64 {
    let read = engine::compile(bytes, params);
    held_agree(bytes, params, agreed(&read));
    held_agree_for(bytes, params, &read);
    for who in (0..10).chain([255, 256, u32::MAX]) {
        held_leak(bytes, params, who, leaked(&read, who));
    }
    agreed(&read)
}

/// What leak answers.
fn check_leak(bytes: &[u8], params: &[u8], who: u32) -> u64 {
    check(bytes, params);
    leaked(&engine::compile(bytes, params), who)
}

/// Arrivals, each run to idle, before the two.
fn opening(sheet: &Sheet, before: &[usize]) -> Vec<Call> {
    let one = |e: &usize| [vec![Call::Arrive(*e as u32, 0)], vec![Call::Step; sheet.count(*e) + 1]].concat();
    before.iter().flat_map(one).collect()
}

/// Two lists that take in the same events in the same order: the lower of the two is committed before the higher
/// arrives, or both are in hand before a step.
fn two_lists(sheet: &Sheet, before: &[usize], low: usize, high: usize) -> [Vec<Call>; 2] {
    let steps = |e: usize| vec![Call::Step; sheet.count(e) + 1];
    let arrive = |e: usize| vec![Call::Arrive(e as u32, 0)];
    let apart = [opening(sheet, before), arrive(low), steps(low), arrive(high), steps(high)].concat();
    let at_once = [opening(sheet, before), arrive(low), arrive(high), steps(high), steps(low)].concat();
    [apart, at_once]
}

/// Up to two events, some of those given, before the pair.
fn openings(events: &[usize]) -> Vec<Vec<usize>> {
    let mut out = vec![vec![]];
    out.extend(events.iter().map(|e| vec![*e]));
    out.extend(events.iter().flat_map(|e| events.iter().map(|f| vec![*e, *f])));
    out
}

/// Two short lists that take in the same events in the same order and end with different boards, if there are such:
/// wherever two boards of committed events differ, somewhere a pair was committed in both orders.
fn end_apart(r: &mut Rng, sheet: &Sheet, e: usize, f: usize) -> Option<[Vec<Call>; 2]> {
    let (low, high) = if sheet.ranks[e] < sheet.ranks[f] { (e, f) } else { (f, e) };
    let mut events = vec![low, high];
    events.extend((2..BEFORE).map(|_| r.below(sheet.ranks.len())));
    let of = |board: &[i32], order: [usize; 2]| order.iter().fold(board.to_vec(), |b, e| sheet.event(*e, &b).0);
    let differ = |before: &Vec<usize>| {
        let board = before.iter().fold(sheet.fresh(), |b, e| sheet.event(*e, &b).0);
        of(&board, [low, high]) != of(&board, [high, low])
    };
    openings(&events).into_iter().find(differ).map(|before| two_lists(sheet, &before, low, high))
}

/// Of a sheet's pairs of unequal rank: an independent one has no such lists; a dependent one is counted by whether it
/// has, and both engines end apart on the first.
fn search(r: &mut Rng, sheet: &Sheet, table: &Guarded, tally: &mut Tally) {
    let n = sheet.ranks.len();
    let mut pairs: Vec<(usize, usize)> = (0..n).flat_map(|e| (e + 1..n).map(move |f| (e, f))).collect();
    pairs.retain(|(e, f)| sheet.ranks[*e] != sheet.ranks[*f]);
    while pairs.len() > PAIRS {
        pairs.swap_remove(r.below(pairs.len()));
    }
    let safe: Vec<usize> = (0..sheet.behaviours.len()).filter(|b| sheet.clash_for(*b).is_none()).collect();
    tally.behaviours[0] += sheet.behaviours.len() - safe.len();
    tally.behaviours[1] += safe.len();
    assert!(
        sheet.clash().is_some() || safe.len() == sheet.behaviours.len(),
        "agree 0, and a behaviour that is not safe"
    );
    let mut shown = false;
    for (e, f) in pairs {
        let lists = end_apart(r, sheet, e, f);
        if let Some(lists) = &lists {
            let [x, y] = lists.each_ref().map(|calls| compare::run(sheet, table, calls).0.board);
            assert!(safe.iter().all(|b| x[*b] == y[*b]), "a behaviour that agree_for answers 0 for differs");
        }
        if sheet.independent(e, f) {
            assert!(lists.is_none(), "events {e} and {f} are independent, and two lists end apart");
            continue;
        }
        tally.pairs[lists.is_none() as usize] += 1;
        if let (Some([a, b]), false) = (&lists, shown) {
            shown = true;
            let end = |calls: &[Call]| compare::run(sheet, table, calls).0;
            let (x, y) = (end(a), end(b));
            assert!(x.in_hand() == 0 && y.in_hand() == 0, "both are idle");
            assert!(x.board != y.board, "two lists of events {e} and {f} end apart");
        }
    }
}

/// M-107's rule, for a player to whom nothing leaks: two rounds whose sheets differ in starts of hidden behaviours
/// alone answer this player alike, refusals and previews too, and tell it the same steps.
fn hidden_starts(r: &mut Rng, sheet: &Sheet, who: u32) -> bool {
    let mut other = sheet.clone();
    let mut changed = false;
    for (b, said) in other.behaviours.iter_mut().zip(&sheet.viewers) {
        if let (Behaviour::Active(start, _), false) = (b, engine::may(*said, who)) {
            *start = start.wrapping_add(1 + r.below(1000) as i32);
            changed = true;
        }
    }
    let mut tables = [vec![0u8; TABLE], vec![0u8; TABLE]];
    let accepted = [sheet, &other].iter().zip(&mut tables).all(|(s, t)| proved::compile(&make::encode(s), &[], t) == 0);
    if !changed || !accepted {
        return false;
    }
    let mut rounds = [vec![0u8; ROUND], vec![0u8; ROUND]];
    tables.iter().zip(&mut rounds).for_each(|(t, l)| assert_eq!(proved::start(t, l), 0));
    for (k, call) in make::calls(r, sheet, 80).into_iter().enumerate() {
        let (own, call) = match call {
            Call::Arrive(e, other) => (k % 2 == 0, Call::Arrive(e, if k % 2 == 0 { who } else { other })),
            Call::Step => (true, Call::Step),
            Call::Board(i, _) => (true, Call::Board(i, who)),
        };
        let tries = |t: &[u8], l: &[u8]| {
            proved::preview(
                t,
                l,
                (k % (sheet.ranks.len() + 1)) as u32,
                (k / 3 % (sheet.behaviours.len() + 1)) as u32,
                who,
            )
        };
        if k % 20 == 9 {
            assert_eq!(tries(&tables[0], &rounds[0]), tries(&tables[1], &rounds[1]), "a preview of player {who}");
        }
        let answers: Vec<u64> = (0..2).map(|p| compare::call(&tables[p], &mut rounds[p], call)).collect();
        let told = |a: u64| if call == Call::Step { proved::told(a) } else { a };
        assert!(!own || told(answers[0]) == told(answers[1]), "{call:?} tells player {who} of a hidden start");
    }
    true
}

/// A seed's sheet, refused or not.
pub fn one(seed: u64, bytes: &[u8], params: &[u8], tally: &mut Tally) {
    let r = &mut Rng::new(seed ^ 0xA6);
    let answer = check(bytes, params);
    let Ok(sheet) = engine::compile(bytes, params) else { return };
    tally.sheets[(answer == 0) as usize] += 1;
    let mut table = Guarded::new(TABLE, 0);
    assert_eq!(proved::compile(bytes, params, table.part_mut()), 0);
    search(r, &sheet, &table, tally);
    for who in 1..8 {
        let safe = sheet.leak(who).is_none();
        tally.leaks[safe as usize] += 1;
        if safe && r.one_in(2) {
            tally.hidden += hidden_starts(r, &sheet, who) as usize;
        }
    }
}

/// Both calls on sheets of a few behaviours: what counts as writing, as reading and as depending, and which is named.
pub fn limits() {
    agreements();
    behaviours();
    leaks();
}

/// Handlers of an event, immediate and later; an active that starts at 0; events of these ranks and these behaviours.
fn now(event: u8, x: Vec<u8>) -> Vec<u8> {
    handler(event, 0, &x)
}

fn later(event: u8, x: Vec<u8>) -> Vec<u8> {
    handler(event, 1, &x)
}

fn holds(handlers: &[Vec<u8>]) -> Vec<u8> {
    active(0, handlers)
}

fn with(ranks: &[u8], behaviours: &[Vec<u8>]) -> Vec<u8> {
    join(&[ranks.iter().map(|r| event(*r)).collect::<Vec<_>>().concat(), join(behaviours)])
}

fn agreements() {
    let clash = |e: u64, f: u64, i: u64| 29 + (e << 8) + (f << 16) + (i << 24);
    let both_write = [holds(&[now(0, con(1)), later(1, con(2))])];
    let through = |x: Vec<u8>| {
        with(&[1, 2], &[holds(&[now(0, x)]), passive(&name(3)), holds(&[now(1, con(5))]), passive(&name(2))])
    };
    let chain = [holds(&[now(1, con(9))]), holds(&[now(0, name(2))]), holds(&[now(1, app(4, &[name(0), con(1)]))])];
    let own = [holds(&[now(0, name(0))]), holds(&[now(1, name(1))]), holds(&[later(2, name(2))])];
    let three = [holds(&[now(1, con(1)), now(2, con(2))]), holds(&[now(0, con(1)), now(2, name(1))])];
    let all = [holds(&[now(0, con(1)), now(1, con(2)), now(2, con(3))])];
    let hit = app(14, &[name(1), name(0), app(4, &[name(0), con(10)])]);
    let reads = |x: Vec<u8>, y: Vec<u8>| with(&[1, 2], &[holds(&[x]), holds(&[y])]);
    let cases = [
        ("no bytes", vec![], 0),
        ("one event", with(&[1], &[holds(&[now(0, name(0))])]), 0),
        ("both write", with(&[1, 2], &both_write), clash(0, 1, 0)),
        ("both write, the first more urgent", with(&[9, 2], &both_write), clash(0, 1, 0)),
        ("both write, equal ranks", with(&[2, 2], &both_write), 0),
        ("one reads", reads(now(0, name(1)), now(1, con(5))), clash(0, 1, 1)),
        ("the other reads", reads(now(1, name(1)), now(0, con(5))), clash(0, 1, 1)),
        ("one reads later", reads(later(0, name(1)), later(1, con(5))), clash(0, 1, 1)),
        ("its own name", reads(now(0, name(0)), now(1, name(0))), clash(0, 1, 0)),
        ("through two passives", through(name(1)), clash(0, 1, 2)),
        ("passives that no handler names", through(con(1)), 0),
        ("a chain through an active is no read", with(&[1, 2], &chain), clash(0, 1, 2)),
        ("each its own", with(&[1, 2, 3], &own), 0),
        ("the first pair by number", with(&[1, 1, 2], &three), clash(0, 2, 1)),
        ("the lower second number", with(&[3, 1, 2], &all), clash(0, 1, 0)),
        ("a sheet that is refused", with(&[1, 2], &[passive(&name(0))]), 12),
        (
            "hits read what time-up writes",
            with(&[2, 9], &[holds(&[now(0, hit)]), holds(&[now(1, con(1))])]),
            clash(0, 1, 1),
        ),
    ];
    cases.iter().for_each(|(what, sheet, want)| assert_eq!(check(sheet, &[]), *want, "{what}"));
}

/// Of single behaviours: what counts as meeting, and that adding commutes.
fn behaviours() {
    let clash = |e: u64, f: u64, i: u64| 29 + (e << 8) + (f << 16) + (i << 24);
    let plus = |x: Vec<u8>, y: Vec<u8>| app(4, &[x, y]);
    let minus = |x: Vec<u8>, y: Vec<u8>| app(5, &[x, y]);
    let scores =
        |x: Vec<u8>, y: Vec<u8>| with(&[1, 9], &[holds(&[later(0, x), now(1, y)]), holds(&[]), passive(&name(0))]);
    let open = app(14, &[name(1), name(0), plus(name(0), con(10))]);
    let own = app(14, &[name(2), name(0), plus(name(0), con(10))]);
    let light = with(&[1, 9], &[holds(&[now(0, plus(name(0), con(1)))]), holds(&[now(1, name(0))])]);
    let cases = [
        ("both add", scores(plus(name(0), con(1)), plus(con(2), name(0))), 0, 0),
        ("a difference and a choice add", scores(minus(name(0), con(1)), open.clone()), 0, 0),
        ("a passive of a score to which both add", scores(plus(name(0), con(1)), open.clone()), 2, 0),
        ("the score on the right of a minus", scores(minus(con(1), name(0)), plus(name(0), con(1))), 0, clash(0, 1, 0)),
        ("twice the score", scores(plus(name(0), name(0)), plus(name(0), con(1))), 0, clash(0, 1, 0)),
        ("the score through a passive", scores(plus(name(0), name(2)), plus(name(0), con(1))), 0, clash(0, 1, 0)),
        ("a condition on the score", scores(own, plus(name(0), con(1))), 0, clash(0, 1, 0)),
        ("one sets it", scores(con(5), plus(name(0), con(1))), 0, clash(0, 1, 0)),
        ("a light that reads the score", light.clone(), 0, 0),
        ("and the light itself", light, 1, clash(0, 1, 0)),
        ("no such behaviour", with(&[1], &[]), 0, 18),
    ];
    for (what, sheet, b, want) in cases {
        check(&sheet, &[]);
        assert_eq!(agreed_for(&engine::compile(&sheet, &[]), b), want, "{what}");
    }
}

/// Hidden from player 1 alone.
fn leaks() {
    let hidden = |tag: u8, value: &[u8]| field(tag, &join(&[value.to_vec(), field(8, &[0b1111_1101])]));
    let secret = || hidden(3, &field(4, &7i32.to_be_bytes()));
    let leak = |i: u64, j: u64| 30 + (i << 8) + (j << 16);
    let two = || vec![passive(&app(4, &[name(2), name(1)])), secret(), secret()];
    let cases = [
        ("nothing hidden", vec![passive(&con(1))], 0),
        ("a hidden one that nobody names", vec![passive(&con(1)), secret()], 0),
        ("a hidden one that names a seen one", vec![passive(&con(1)), hidden(2, &name(0))], 0),
        ("in an expression", vec![passive(&name(1)), secret()], leak(0, 1)),
        ("in a handler", vec![secret(), holds(&[now(0, name(0))])], leak(1, 0)),
        ("in a later handler", vec![secret(), holds(&[now(0, con(1)), later(1, name(0))])], leak(1, 0)),
        ("by a chain", vec![passive(&name(1)), passive(&name(2)), secret()], leak(1, 2)),
        ("by a chain of hidden ones", vec![passive(&name(1)), hidden(2, &name(2)), secret()], leak(0, 1)),
        ("the least of two", two(), leak(0, 1)),
    ];
    for (what, behaviours, want) in cases {
        let sheet = with(&[1, 1], &behaviours);
        for (who, want) in [(0, 0), (1, want), (2, 0), (7, 0), (8, 24)] {
            assert_eq!(check_leak(&sheet, &[], who), want, "{what}, to player {who}");
        }
    }
    assert_eq!(check_leak(&[1, 0], &[], 9), 4, "compile's number before 24");
}
