//! Every refusal of compile, both sides of each limit, M-102's quotients and M-103's parameters, on both engines.
use crate::compare::{self, Guarded};
use crate::engine::{self, Call};
use crate::proved::{self, TABLE};

pub fn field(tag: u8, v: &[u8]) -> Vec<u8> {
    let mut out = vec![tag, (v.len() / 256) as u8, v.len() as u8];
    out.extend(v);
    out
}

pub fn con(w: i32) -> Vec<u8> {
    field(0x10, &w.to_be_bytes())
}

pub fn name(i: u8) -> Vec<u8> {
    field(0x11, &[i])
}

pub fn param(n: u8) -> Vec<u8> {
    field(0x13, &[n])
}

pub fn app(f: u8, args: &[Vec<u8>]) -> Vec<u8> {
    let mut v = vec![f];
    args.iter().for_each(|a| v.extend(a));
    field(0x12, &v)
}

pub fn event(rank: u8) -> Vec<u8> {
    field(1, &[rank])
}

pub fn passive(e: &[u8]) -> Vec<u8> {
    field(2, e)
}

pub fn handler(event: u8, phase: u8, e: &[u8]) -> Vec<u8> {
    let mut v = vec![event, phase];
    v.extend(e);
    field(5, &v)
}

pub fn active(start: i32, handlers: &[Vec<u8>]) -> Vec<u8> {
    let mut v = field(4, &start.to_be_bytes());
    handlers.iter().for_each(|h| v.extend(h));
    field(3, &v)
}

pub fn join(parts: &[Vec<u8>]) -> Vec<u8> {
    parts.concat()
}

/// `!` so many times round a constant.
fn nots(n: usize) -> Vec<u8> {
    (0..n).fold(con(1), |e, _| app(3, &[e]))
}

/// A sheet whose events have so many instructions together: eight events over four passives of 58 nodes, 484 each, and
/// one active with handlers for the rest.
fn of_length(total: usize, leaf: &[u8]) -> Vec<u8> {
    let mut left = total - 8 * (4 + 4 * (2 + 2 * 59));
    let mut handlers = Vec::new();
    while left > 0 {
        let take = left.min(103);
        handlers.push(handler(handlers.len() as u8, 0, &tree_with(take - 3, leaf)));
        left -= take;
    }
    join(&[join(&vec![event(1); 8]), join(&vec![passive(&tree_with(58, leaf)); 4]), active(0, &handlers)])
}

/// An expression of so many nodes with such leaves, well within nesting 16.
fn tree_with(size: usize, leaf: &[u8]) -> Vec<u8> {
    match size {
        1 => leaf.to_vec(),
        2 => app(3, &[leaf.to_vec()]),
        _ => {
            let left = (size - 1) / 2;
            app(4, &[tree_with(left, leaf), tree_with(size - 1 - left, leaf)])
        }
    }
}

fn tree_of(size: usize) -> Vec<u8> {
    tree_with(size, &con(0))
}

/// A sheet of passives that has so many bytes: the last is a sum of a constants and b leaves of four bytes, 11 a + 8 b
/// - 1 bytes.
pub fn of_bytes(n: usize, leaf: &[u8]) -> Vec<u8> {
    let mut s = passive(&con(1));
    while n - s.len() > 400 {
        s.extend(passive(&tree_of(40)));
    }
    let left = n - s.len() + 1;
    let a = (0..8).find(|a| (left - 11 * a) % 8 == 0).unwrap();
    let mut leaves: Vec<Vec<u8>> = (0..(left - 11 * a) / 8).map(|_| leaf.to_vec()).collect();
    leaves.extend((0..a).map(|_| con(2)));
    while leaves.len() > 1 {
        leaves = leaves.chunks(2).map(|c| if c.len() == 2 { app(4, c) } else { c[0].clone() }).collect();
    }
    s.extend(passive(&leaves[0]));
    s
}

/// 1,000,000 arrivals pass, and the next is 17.
fn spent() {
    let mut table = vec![0u8; TABLE];
    let mut round = vec![0u8; 2048];
    assert_eq!(proved::compile(&event(0), &[], &mut table), 0);
    proved::start(&table, &mut round);
    for _ in 0..1_000_000 {
        assert_eq!(proved::arrive(&table, &mut round, 0, 0), 0);
        (0..5).for_each(|_| {
            proved::step(&table, &mut round);
        });
    }
    assert_eq!(proved::step(&table, &mut round), 0, "idle");
    assert_eq!(proved::arrive(&table, &mut round, 0, 0), 17, "the arrival after 1,000,000");
    assert_eq!(proved::preview(&table, &round, 0, 0, 0), 17, "its preview");
}

/// S's events have 17 and 8 instructions: each arrival's and its start while nothing runs, the bound as soon as one
/// does.
fn forecast() {
    let mut table = vec![0u8; TABLE];
    let mut round = vec![0u8; 2048];
    assert_eq!(proved::compile(&crate::desk::sheet_s(), &[], &mut table), 0);
    proved::start(&table, &mut round);
    let steps = |round: &[u8]| proved::forecast(&table, round) - (1 << 32);
    assert_eq!(steps(&round), 0, "an empty hand");
    for e in [0, 1, 0] {
        proved::arrive(&table, &mut round, e, 0);
    }
    assert_eq!(steps(&round), 18 + 9 + 18, "three in hand");
    for k in 0..45 {
        assert!(proved::step(&table, &mut round) != 0, "idle after {k} steps");
        match k {
            7 => assert_eq!(steps(&round), (3 + 1) * (17 + 1), "one runs, two wait"),
            8 => assert_eq!(steps(&round), 18 + 18, "after the commit"),
            _ => {}
        }
    }
    assert_eq!(proved::step(&table, &mut round), 0, "idle after 45 steps");
    (0..64).for_each(|_| {
        proved::arrive(&table, &mut round, 0, 0);
    });
    assert_eq!(steps(&round), 64 * 18, "64 in hand");
    assert_eq!(proved::forecast(&table[1..], &round), 14, "a table of 34,815 bytes");
    assert_eq!(proved::forecast(&table, &round[1..]), 14, "a round of 2,047 bytes");
}

/// M-102's quotients, as compile works them out and as an event does.
fn quotients() {
    let (least, most) = (i32::MIN, i32::MAX);
    let cases = [
        (-7, 2, -4),
        (7, -2, -4),
        (7, 2, 3),
        (-7, -2, 3),
        (-6, 2, -3),
        (6, -2, -3),
        (-1, 2, -1),
        (1, -2, -1),
        (0, -2, 0),
    ];
    let ends = [
        (5, 0, 0),
        (-5, 0, 0),
        (least, 0, 0),
        (least, -1, least),
        (least, 1, least),
        (most, -1, -most),
        (least, most, -2),
        (most, least, -1),
        (1, least, -1),
        (least, least, 1),
    ];
    for (n, d, want) in cases.into_iter().chain(ends) {
        let quotient = app(7, &[con(n), con(d)]);
        let sheet = join(&[event(0), active(0, &[handler(0, 0, &quotient)]), passive(&quotient)]);
        check("a quotient", &sheet, 0);
        let mut table = vec![0u8; TABLE];
        let mut round = vec![0u8; 2048];
        proved::compile(&sheet, &[], &mut table);
        proved::start(&table, &mut round);
        assert_eq!(proved::board(&table, &round, 1, 0) as i32, want, "{n} / {d} in a fresh round");
        proved::arrive(&table, &mut round, 0, 0);
        while proved::step(&table, &mut round) != 0 {}
        assert_eq!(proved::board(&table, &round, 0, 0) as i32, want, "{n} / {d} in an event");
        assert_eq!(engine::apply(7, &[n, d]), want, "{n} / {d} in the second engine");
    }
}

/// The marks of the commits that these arrivals lead to, in order, on both engines.
fn marks_of(sheet: &[u8], calls: &[Call]) -> Vec<bool> {
    let mut table = Guarded::new(TABLE + 8, 0x33);
    let plain = compare::compile(sheet, &[], &mut table).expect("an accepted sheet");
    let mut all = calls.to_vec();
    all.extend(std::iter::repeat(Call::Step).take(200));
    compare::run(&plain, &table, &all);
    let mut round = vec![0u8; 2048];
    assert_eq!(proved::start(table.part(), &mut round), 0);
    let answers = all.iter().map(|c| compare::call(table.part(), &mut round, *c));
    answers.filter(|a| a % 16 == 3).map(|a| a >> 56 == 1).collect()
}

/// M-104: a commit's mark, for each function at its ends and wherever the meaning evaluates.
fn marks() {
    let (least, most) = (i32::MIN, i32::MAX);
    let sums = [
        (4, most, 1, true),
        (4, most, 0, false),
        (4, least, -1, true),
        (4, least, most, false),
        (4, -1, -1, false),
        (4, -1, 1, false),
    ];
    let differences = [
        (5, least, 1, true),
        (5, 0, least, true),
        (5, -1, least, false),
        (5, most, -1, true),
        (5, -2, most, true),
        (5, -1, most, false),
    ];
    let products = [
        (6, 46341, 46341, true),
        (6, 46340, 46340, false),
        (6, 65536, -32768, false),
        (6, 65536, 32768, true),
        (6, least, -1, true),
        (6, -65536, -32768, true),
        (6, -65537, 32768, true),
    ];
    let quotients = [
        (7, least, -1, true),
        (7, least, 1, false),
        (7, 5, 0, true),
        (7, 0, 0, true),
        (7, -7, 2, false),
        (7, least, 2, false),
        (7, least + 1, -1, false),
    ];
    let tests = [1, 2, 8, 9, 10, 11, 12, 13].map(|f| (f, least, most, false));
    for (f, a, b, want) in sums.into_iter().chain(differences).chain(products).chain(quotients).chain(tests) {
        let x = app(f, &[con(a), con(b)]);
        for later in [0, 1] {
            let sheet = join(&[event(0), active(0, &[handler(0, later, &x)])]);
            assert_eq!(marks_of(&sheet, &[Call::Arrive(0, 0)]), [want], "{f} of {a} and {b}");
        }
        let sheet = join(&[event(0), passive(&app(3, &[x]))]);
        assert_eq!(marks_of(&sheet, &[Call::Arrive(0, 0)]), [want], "{f} of {a} and {b} in a passive");
    }
    let over = app(4, &[con(most), con(1)]);
    let unused = app(14, &[con(0), over.clone(), con(3)]);
    assert_eq!(
        marks_of(&join(&[event(0), active(0, &[handler(0, 0, &unused)])]), &[Call::Arrive(0, 0)]),
        [true],
        "`if` evaluates all three"
    );
    let unread = join(&[event(0), event(0), active(0, &[handler(1, 0, &over)])]);
    assert_eq!(
        marks_of(&unread, &[Call::Arrive(0, 0), Call::Arrive(1, 0), Call::Arrive(0, 0)]),
        [false, true, false],
        "each commit has its own"
    );
    let second = join(&[
        event(0),
        event(0),
        active(1, &[handler(0, 1, &con(0)), handler(1, 0, &con(1))]),
        passive(&app(7, &[con(5), name(0)])),
    ]);
    assert_eq!(
        marks_of(&second, &[Call::Arrive(0, 0), Call::Arrive(1, 0), Call::Arrive(1, 0)]),
        [true, false, false],
        "in the second phase alone"
    );
    let broken = join(&[event(1), event(2), active(0, &[handler(0, 0, &over)]), active(0, &[handler(1, 0, &con(1))])]);
    let calls = [&[Call::Arrive(0, 0)][..], &[Call::Step; 7], &[Call::Arrive(1, 0)]].concat();
    assert_eq!(marks_of(&broken, &calls), [false, true], "what a broken-in handler found is dropped");
}

/// A rest day: no bytes are a sheet with no events and no behaviours, whatever is called.
fn rest_day() {
    let mut table = Guarded::new(TABLE + 8, 0x33);
    let sheet = compare::compile(&[], &[], &mut table).expect("a sheet of no bytes");
    assert!(sheet.ranks.is_empty() && sheet.behaviours.is_empty());
    let calls: Vec<Call> =
        [0, 1, 31, 32, u32::MAX].iter().flat_map(|&n| [Call::Arrive(n, 0), Call::Step, Call::Board(n, 0)]).collect();
    compare::run(&sheet, &table, &calls);
    let mut round = vec![0u8; 2048];
    assert_eq!(proved::start(table.part(), &mut round), 0);
    let fresh = round.clone();
    for c in calls {
        let want = match c {
            Call::Arrive(..) => 15,
            Call::Step => 0,
            Call::Board(..) => 18,
        };
        assert_eq!(compare::call(table.part(), &mut round, c), want, "a rest day, {c:?}");
    }
    assert!(round == fresh, "a rest day changed the round");
}

/// Event 0 of S makes (1, 1) to (2, 1) and that to (3, 2); event 1 makes b1 1. A preview tells so and leaves the round,
/// also during copy-back; then what turns it down.
fn preview() {
    let mut table = vec![0u8; TABLE];
    let mut round = vec![0u8; 2048];
    assert_eq!(proved::compile(&crate::desk::sheet_s(), &[], &mut table), 0);
    proved::start(&table, &mut round);
    let value = |round: &[u8], e: u32, i: u32| {
        let before = round.to_vec();
        let v = proved::preview(&table, round, e, i, 0) as i64 - (1 << 32);
        assert!(before == round, "a preview changed the round");
        v
    };
    assert_eq!((value(&round, 0, 0), value(&round, 0, 1)), (2, 1), "event 0 from fresh");
    proved::arrive(&table, &mut round, 0, 0);
    assert_eq!((value(&round, 0, 0), value(&round, 0, 1)), (3, 2), "event 0 behind event 0");
    while proved::board(&table, &round, 0, 0) != 19 {
        proved::step(&table, &mut round);
    }
    assert_eq!((value(&round, 0, 0), value(&round, 0, 1)), (3, 2), "event 0 during copy-back");
    assert_eq!((value(&round, 1, 0), value(&round, 1, 1)), (2, 1), "event 1 during copy-back");
    assert_eq!(proved::preview(&table, &round, 2, 2, 0), 15, "15 before 18");
    assert_eq!(proved::preview(&table, &round, 1, 2, 0), 18, "behaviour 2");
    assert_eq!(proved::preview(&table[1..], &round, 0, 0, 0), 14, "a table of 34,815 bytes");
    assert_eq!(proved::preview(&table, &round[1..], 0, 0, 0), 14, "a round of 2,047 bytes");
    while proved::arrive(&table, &mut round, 0, 0) == 0 {}
    assert_eq!(proved::preview(&table, &round, 2, 2, 0), 15, "15 before 16");
    assert_eq!(proved::preview(&table, &round, 0, 2, 0), 16, "16 before 18");
    proved::start(&table, &mut round);
    table[2048..2052].fill(0);
    assert_eq!(proved::preview(&table, &round, 0, 2, 0), 18, "18 before the steps' 14");
    assert_eq!(proved::preview(&table, &round, 0, 0, 0), 14, "event 0's first instruction is foreign");
    assert_eq!(proved::arrive(&table, &mut round, 0, 0), 0, "the arrival is not");
}

/// 02, M-108: a circle of 64 under the last of 32 events, a shorter one beside it, one of itself, one under no event, a
/// list of 63 bytes, and parameters lent, too few, or none.
fn circles() {
    let events = join(&vec![event(1); 32]);
    let ring = |n: u8, to: u8| {
        (0..n)
            .map(|i| active(0, &[handler(31, 0, &name(if i == to { 0 } else { (i + 1) % n }))]))
            .collect::<Vec<_>>()
            .concat()
    };
    let answer = |sheet: &[u8], params: &[u8]| {
        let mut list = [0u8; 64];
        compare::circle(sheet, params, 64);
        compare::circle(sheet, params, 100);
        compare::circle(sheet, params, 63);
        proved::circle(sheet, params, &mut list)
    };
    assert_eq!(answer(&join(&[events.clone(), ring(64, 64)]), &[]), 12 + 31 * 256 + 64 * 65536, "64 behaviours");
    assert_eq!(answer(&join(&[events.clone(), ring(64, 20)]), &[]), 12 + 31 * 256 + 21 * 65536, "21 of 64");
    assert_eq!(
        answer(&join(&[events.clone(), ring(62, 62), passive(&app(4, &[name(62), con(1)])), passive(&name(63))]), &[])
            % 65536,
        12 + 255 * 256,
        "itself, under none"
    );
    assert_eq!(
        answer(&join(&[passive(&name(1)), passive(&name(0))]), &[]),
        12 + 255 * 256 + 2 * 65536,
        "under none, with no event"
    );
    assert_eq!(answer(&crate::desk::sheet_s(), &[]), 0, "no circle");
    let with =
        join(&[events, ring(61, 61), passive(&app(4, &[param(7), name(62)])), passive(&app(4, &[param(0), name(61)]))]);
    for lent in [0, 31] {
        assert_eq!(answer(&with, &vec![0x80; lent]), 20, "{lent} bytes lent");
    }
    for lent in [32, 33, 64] {
        let a = answer(&with, &vec![0x80; lent]);
        assert_eq!((a % 256, a / 65536), (12, 2), "{lent} bytes lent");
    }
    assert_eq!(answer(&join(&[passive(&param(0)), passive(&name(2))]), &[]), 11, "11 before 20");
    assert_eq!(answer(&passive(&param(0)), &[0; 32]), 0, "a parameter and no circle");
}

fn check(what: &str, sheet: &[u8], want: u32) {
    check_with(what, sheet, &[], want);
}

fn check_with(what: &str, sheet: &[u8], params: &[u8], want: u32) {
    let mut table = Guarded::new(TABLE + 8, 0x33);
    compare::compile(sheet, params, &mut table);
    let got = proved::compile(sheet, params, table.part_mut());
    assert_eq!(got, want, "{what}");
}

/// M-103: the field's own faults, 20 between 11 and 12, the limits of a sheet with parameters, and their values.
fn parameters() {
    let values = [1, -1, i32::MIN, i32::MAX, 0x01020304, 0, 7, -8];
    let lent: Vec<u8> = values.iter().flat_map(|v| v.to_be_bytes()).collect();
    let more = [lent.clone(), vec![0xEE; 8]].concat();
    check_with("parameter 7", &passive(&param(7)), &lent, 0);
    check_with("parameter 8", &passive(&param(8)), &lent, 8);
    check_with("a parameter of no bytes", &passive(&field(0x13, &[])), &lent, 6);
    check_with("a parameter of two bytes", &passive(&field(0x13, &[8, 0])), &lent, 6);
    check_with("a parameter at nesting 16", &passive(&(0..15).fold(param(0), |e, _| app(3, &[e]))), &lent, 0);
    check_with("a parameter at nesting 17", &passive(&(0..16).fold(field(0x13, &[]), |e, _| app(3, &[e]))), &lent, 9);
    check_with("tag 14 hexadecimal", &passive(&field(0x14, &[0])), &lent, 5);
    check_with("31 bytes", &passive(&param(0)), &lent[..31], 20);
    check_with("none used, none lent", &passive(&con(0)), &[], 0);
    check_with("more than 32 bytes", &passive(&param(0)), &more, 0);
    check_with("11 before 20", &join(&[passive(&param(0)), passive(&name(2))]), &[], 11);
    check_with("20 before 12", &join(&[passive(&param(0)), passive(&name(1))]), &[], 20);
    check_with("12 with 32 bytes", &join(&[passive(&param(0)), passive(&name(1))]), &lent, 12);
    for total in [4096, 4097] {
        let s = of_length(total, &param(3));
        check_with("20 before 13", &s, &lent[..31], 20);
        check_with("instructions, with parameters", &s, &lent, if total > 4096 { 13 } else { 0 });
    }
    for n in [8192, 8193] {
        let s = of_bytes(n, &param(5));
        assert_eq!(s.len(), n);
        check_with("bytes as sent", &s, &lent, if n > 8192 { 3 } else { 0 });
    }
    let sheet = join(&(0..8).map(|n| passive(&param(n))).collect::<Vec<_>>());
    let mut table = vec![0u8; TABLE];
    let mut round = vec![0u8; 2048];
    assert_eq!(proved::compile(&sheet, &more, &mut table), 0);
    proved::start(&table, &mut round);
    for (i, v) in values.iter().enumerate() {
        assert_eq!(proved::board(&table, &round, i as u32, 0) as i32, *v, "parameter {i}");
    }
}

/// M-107 in the sheet: an event of length 2, a field 08 at the end of a passive and of an active, and what is refused
/// there.
fn rights() {
    let seen = |m: u8| field(8, &[m]);
    let with = |end: &[u8]| passive(&join(&[con(1), end.to_vec()]));
    let handled = |end: &[u8]| join(&[event(0), active(1, &[handler(0, 0, &con(1)), end.to_vec()])]);
    check("an event of length 2", &field(1, &[15, 0]), 0);
    check("an event of length 3", &field(1, &[16, 0, 0]), 6);
    check("rank 16 in two bytes", &field(1, &[16, 0]), 8);
    check("who may see a passive", &with(&seen(0)), 0);
    check("who may see an active", &handled(&seen(255)), 0);
    check("who may see an active with no handler", &active(1, &[seen(2)]), 0);
    for both in [with as fn(&[u8]) -> Vec<u8>, handled as fn(&[u8]) -> Vec<u8>] {
        check("a field 08 of no bytes", &both(&field(8, &[])), 6);
        check("a field 08 of two bytes", &both(&field(8, &[0, 0])), 6);
        check("a field 08 cut short", &both(&[8, 0]), 4);
        check("a field 08 past its end", &both(&[8, 0, 1]), 4);
        check("two fields 08", &both(&join(&[seen(1), seen(1)])), 6);
        check("a byte past a field 08", &both(&join(&[seen(1), vec![8]])), 6);
        check("a handler past a field 08", &both(&join(&[seen(1), handler(0, 0, &con(1))])), 6);
    }
    check("another field past an expression", &with(&field(9, &[0])), 6);
    check("one byte past an expression", &with(&[5]), 6);
    check("another field past a handler", &handled(&field(9, &[0])), 5);
    check("one byte past a handler", &handled(&[9]), 4);
    check("a field 08 before the start", &field(3, &seen(1)), 5);
    check("a field 08 in a handler", &join(&[event(0), active(0, &[handler(0, 0, &join(&[con(1), seen(1)]))])]), 6);
    check("a field 08 alone", &seen(1), 5);
}

/// M-107 in a round: event 0 is player 1's, event 1 everybody's; b0 is hidden from all but the host and player 2, b1 is
/// seen by all. Which refusal comes first, what the hand and the answers keep, what the others are told.
fn players() {
    let over = app(4, &[con(i32::MAX), con(1)]);
    let sheet =
        join(&[field(1, &[1, 2]), event(2), active(5, &[handler(0, 0, &over), field(8, &[4])]), active(7, &[])]);
    let (mut table, mut round) = (vec![0u8; TABLE], vec![0u8; proved::ROUND]);
    assert_eq!(proved::compile(&sheet, &[], &mut table), 0);
    proved::start(&table, &mut round);
    for who in 0..10 {
        let arrives = |e: u32| proved::arrive(&table, &mut round.clone(), e, who);
        let reads = |i: u32| proved::board(&table, &round, i, who);
        let tries = |e: u32, i: u32| proved::preview(&table, &round, e, i, who);
        let no = |right: bool, n: u64| {
            if who > 7 {
                24
            } else if right {
                n
            } else {
                25
            }
        };
        let value = |v: u64| (1u64 << 32) + v;
        assert_eq!(arrives(0) as u64, no(who < 2, 0), "event 0 of {who}");
        assert_eq!(arrives(1) as u64, no(true, 0), "event 1 of {who}");
        assert_eq!(arrives(2) as u64, no(true, 15), "event 2 of {who}");
        assert_eq!(proved::arrive(&table[1..], &mut round.clone(), 0, who), 14, "14 before 24");
        assert_eq!(reads(0), no(who == 0 || who == 2, value(5)), "b0 for {who}");
        assert_eq!(reads(1), no(true, value(7)), "b1 for {who}");
        assert_eq!(reads(2), no(true, 18), "b2 for {who}");
        assert_eq!(proved::board(&table, &round[1..], 0, who), 14, "14 before 24");
        assert_eq!(tries(0, 0), no(who == 0, value(1 << 31)), "both rights, {who}");
        assert_eq!(tries(0, 1), no(who < 2, value(7)), "the event's right, {who}");
        assert_eq!(tries(1, 0), no(who == 0 || who == 2, value(5)), "the behaviour's right, {who}");
        assert_eq!(tries(0, 2), no(who < 2, 18), "25 for the event before 18, {who}");
        assert_eq!(tries(2, 0), no(true, 15), "15 before 25, {who}");
        assert_eq!(proved::preview(&table, &round[1..], 0, 0, who), 14, "14 before 24");
    }
    proved::arrive(&table, &mut round, 0, 1);
    assert_eq!(proved::step(&table, &mut round), 2 + 16, "event 0 of player 1 starts");
    proved::arrive(&table, &mut round, 1, 7);
    let mut said = vec![];
    while said.last() != Some(&0) {
        said.push(proved::step(&table, &mut round));
    }
    said.retain(|a| *a > 1);
    let both = |kind: u64, n: u64, e: u64, who: u64| n * 65536 + e * 256 + who * 16 + kind;
    let over = both(3, 0, 0, 1) + (1 << 56);
    assert_eq!(said, [both(4, 1, 1, 7), both(3, 1, 1, 7), both(2, 0, 0, 1), over], "the answers keep the players");
    assert_eq!(
        said.iter().map(|a| proved::told(*a)).collect::<Vec<_>>(),
        [said[0], said[1], said[2], both(3, 0, 0, 1)],
        "told without the mark"
    );
    (0..64).for_each(|_| assert_eq!(proved::arrive(&table, &mut round, 1, 3), 0));
    assert_eq!(proved::arrive(&table, &mut round, 0, 3), 25, "25 before 16");
    assert_eq!(proved::arrive(&table, &mut round, 1, 3), 16, "a full hand");
    let good = round.clone();
    for at in [9, 9 + 2 * 63] {
        let w = crate::words::get(&good, at);
        for (word, want) in [(w % 256 + 7 * 256, 2), (w % 256 + 8 * 256, 14), (2 + 256, 14)] {
            round.copy_from_slice(&good);
            crate::words::put(&mut round, at, word);
            assert_eq!(proved::step(&table, &mut round) % 16, want, "word {word} in hand at {at}");
        }
    }
}

/// M-110: cell counts, the order of a row's faults, the 64 behaviours, names in a row's handlers, and the limits of a
/// sheet with rows.
fn rows() {
    let row = |count: u8, start: i32, parts: &[Vec<u8>]| {
        field(6, &join(&[vec![count], field(4, &start.to_be_bytes()), join(parts)]))
    };
    let ones = |n: usize| join(&vec![passive(&con(1)); n]);
    for count in [0, 1, 2, 16, 17, 255] {
        check("a cell count", &row(count, 1, &[]), if (2..=16).contains(&count) { 0 } else { 8 });
        check("a cell count, and nothing", &field(6, &[count]), if (2..=16).contains(&count) { 4 } else { 8 });
    }
    check("a row of no bytes", &field(6, &[]), 6);
    check("a row cut short", &[6, 0], 4);
    check("a row past the end", &[6, 0, 1], 4);
    check("an event after a row", &join(&[row(2, 0, &[]), event(1)]), 5);
    check("a field 07", &field(7, &[2]), 5);
    check("the first cell is the 65th behaviour", &join(&[ones(64), field(6, &[])]), 7);
    check("the first cell is the 64th, no count", &join(&[ones(63), field(6, &[])]), 6);
    check("the count before 7", &join(&[ones(63), field(6, &[17])]), 8);
    check("7 before the start", &join(&[ones(63), field(6, &[2])]), 7);
    check("the last cell is the 64th", &join(&[ones(48), row(16, 1, &[])]), 0);
    check("the last cell is the 65th", &join(&[ones(49), row(16, 1, &[])]), 7);
    check("four rows of 16", &join(&vec![row(16, 1, &[]); 4]), 0);
    check("and a passive", &join(&[join(&vec![row(16, 1, &[]); 4]), ones(1)]), 7);
    check("who may see a row", &row(3, 1, &[field(8, &[2])]), 0);
    check(
        "a handler past a row's field 08",
        &join(&[event(0), row(3, 1, &[field(8, &[2]), handler(0, 0, &con(1))])]),
        6,
    );
    check("a doubled handler", &join(&[event(0), row(3, 1, &[handler(0, 0, &con(1)), handler(0, 1, &con(1))])]), 10);
    let own = |f: u8, n: u8| handler(0, f, &app(4, &[name(n), con(1)]));
    check("a row names its own first cell", &join(&[event(0), row(16, 0, &[own(0, 0)])]), 0);
    check("a row names its last cell", &join(&[event(0), row(16, 0, &[own(0, 15)])]), 0);
    check("past its last cell", &join(&[event(0), row(16, 0, &[own(0, 16)])]), 11);
    check("two rows of a count in a circle", &join(&[event(0), row(3, 0, &[own(0, 3)]), row(3, 0, &[own(0, 0)])]), 12);
    check("one of them later", &join(&[event(0), row(3, 0, &[own(0, 3)]), row(3, 0, &[own(1, 0)])]), 0);
    check("a parameter in a row, none lent", &join(&[event(0), row(2, 0, &[handler(0, 0, &param(0))])]), 20);
    // two rows of 2 and one of 3, each cell starting apart by an event of its own; then the second row's cells move to
    // the first row's, the third's to b0
    let sheet = join(&[
        event(0),
        event(0),
        row(2, 10, &[handler(1, 0, &app(4, &[name(0), name(2)]))]),
        row(2, 20, &[handler(0, 0, &app(6, &[name(2), con(2)])), handler(1, 1, &name(0))]),
        row(3, 30, &[handler(1, 0, &app(5, &[name(4), name(0)]))]),
        passive(&app(4, &[name(0), name(1)])),
    ]);
    check("rows", &sheet, 0);
    let mut table = vec![0u8; TABLE];
    let mut round = vec![0u8; 2048];
    assert_eq!(proved::compile(&sheet, &[], &mut table), 0);
    proved::start(&table, &mut round);
    let board = |round: &[u8]| (0..8).map(|i| proved::board(&table, round, i, 0) as i32).collect::<Vec<_>>();
    assert_eq!(board(&round), [10, 10, 20, 20, 30, 30, 30, 20], "a fresh round");
    for (e, want) in [(0, [10, 10, 40, 40, 30, 30, 30, 20]), (1, [50, 50, 50, 50, -20, -20, -20, 100])] {
        proved::arrive(&table, &mut round, e, 0);
        while proved::step(&table, &mut round) != 0 {}
        assert_eq!(board(&round), want, "after event {e}");
    }
    // 64 cells with one handler of n nodes: 4 + 64 (n + 3) instructions
    for (n, want) in [(60, 0), (61, 13)] {
        let rows: Vec<Vec<u8>> = (0..4).map(|_| row(16, 0, &[handler(0, 0, &tree_of(n))])).collect();
        check("instructions of rows", &join(&[event(0), join(&rows)]), want);
    }
    // 3 counts the bytes as sent: written out, these 34 cells with 20 handlers of 12 bytes would be over 8,192
    let many: Vec<Vec<u8>> = (0..20).map(|e| handler(e, 0, &con(7))).collect();
    check(
        "rows that are long when written out",
        &join(&[join(&vec![event(0); 20]), row(16, 0, &many), row(16, 0, &many), row(2, 0, &many)]),
        0,
    );
    check("8,193 bytes with a row", &join(&[row(2, 0, &[]), of_bytes(8193 - row(2, 0, &[]).len(), &name(0))]), 3);
}

/// Document 02, M-112: a round goes on under a sheet without events, whose passives follow what was kept; 28 with
/// something in hand, 19 in copy-back before it, 14 for the passives' instructions before both.
fn changes() {
    let table_of = |sheet: &[u8]| {
        let mut t = vec![0u8; TABLE];
        assert_eq!(proved::compile(sheet, &[], &mut t), 0);
        t
    };
    let old = table_of(&join(&[
        event(1),
        active(3, &[handler(0, 0, &app(4, &[name(0), con(1)]))]),
        passive(&con(8)),
        active(5, &[]),
    ]));
    // an active kept, an active that was a passive, a passive that was an active, and one past the old sheet's end
    let new = table_of(&join(&[active(9, &[]), active(7, &[]), passive(&app(6, &[name(0), name(1)])), active(6, &[])]));
    let mut round = vec![0u8; 2048];
    let value = |t: &[u8], l: &[u8], i: u32| proved::board(t, l, i, 0) as u32 as i32;
    proved::start(&old, &mut round);
    proved::arrive(&old, &mut round, 0, 5);
    assert_eq!(proved::mend(&old, &new, &mut round), 28, "an event in hand that the new sheet does not declare");
    while proved::board(&old, &round, 0, 0) != 19 {
        assert_eq!(proved::mend(&old, &new, &mut round), 28, "an undeclared event that waits or runs");
        proved::step(&old, &mut round);
    }
    assert_eq!(proved::mend(&old, &new, &mut round), 19, "19 before 28");
    let words: Vec<(usize, u32)> =
        vec![(0, 33), (1, 65), (360, 4097), (361, 4096), (512, 0), (512, 6 * 256 + 64), (516, 8 * 256 + 14)];
    for (k, w) in words.iter().copied().chain([(361, 4097)]) {
        let mut bad = new.clone();
        crate::words::put(&mut bad, k, w);
        assert_eq!(proved::mend(&old, &bad, &mut round), 14, "word {k} of the new table as {w}: 14 before 19");
    }
    assert_eq!(proved::mend(&old, &new[..TABLE - 1], &mut round), 14, "a short new table");
    assert_eq!(proved::mend(&old[..TABLE - 1], &new, &mut round), 14, "a short old table");
    while proved::step(&old, &mut round) != 0 {}
    assert_eq!(proved::mend(&old, &new, &mut round), 0, "a sheet without events");
    assert_eq!(
        (0..4).map(|i| value(&new, &round, i)).collect::<Vec<_>>(),
        [4, 7, 28, 6],
        "kept, new start, worked out anew, new start"
    );
    assert_eq!(crate::words::get(&round, 0), 1, "the number taken in");
    let full = table_of(&of_bytes(8192, &name(0)));
    assert_eq!(proved::mend(&new, &full, &mut round), 0, "as many passives as a sheet can hold");
    let mut fresh = vec![0u8; 2048];
    proved::start(&full, &mut fresh);
    assert!(fresh[4 * 136..4 * 200] == round[4 * 136..4 * 200], "passives alone are those of a fresh round");
}

pub fn run() {
    let s = crate::desk::sheet_s();
    let mut short = vec![0u8; TABLE - 1];
    assert_eq!(proved::compile(&s, &[], &mut short), 1, "a table of 34,815 bytes");
    assert!(short.iter().all(|b| *b == 0));
    check("no bytes", &[], 0);
    assert_eq!(of_bytes(8192, &name(0)).len(), 8192);
    check("8,192 bytes", &of_bytes(8192, &name(0)), 0);
    check("8,193 bytes", &of_bytes(8193, &name(0)), 3);
    check("torn", &s[..73], 4);
    check("wrong tag", &join(&[passive(&con(1)), event(1)]), 5);
    check("wrong length", &field(1, &[]), 6);
    check("32 events", &join(&vec![event(1); 32]), 0);
    check("33 events", &join(&vec![event(1); 33]), 7);
    check("64 behaviours", &join(&vec![passive(&con(1)); 64]), 0);
    check("65 behaviours", &join(&vec![passive(&con(1)); 65]), 7);
    check("rank 15", &event(15), 0);
    check("rank 16", &event(16), 8);
    check("function 15", &passive(&app(15, &[con(1), con(1)])), 8);
    check("15 times !", &passive(&nots(15)), 0);
    check("16 times !", &passive(&nots(16)), 9);
    check("doubled", &join(&[event(1), active(0, &[handler(0, 0, &con(1)), handler(0, 1, &con(1))])]), 10);
    check("unknown name", &passive(&name(1)), 11);
    check("a name further on", &join(&[passive(&name(1)), passive(&con(1))]), 0);
    check("circle under no event", &passive(&name(0)), 12);
    let both =
        |later: u8| join(&[event(1), active(1, &[handler(0, 0, &name(1))]), active(2, &[handler(0, later, &name(0))])]);
    check("immediate and later", &both(1), 0);
    check("both immediate", &both(0), 12);
    for total in [4095, 4096, 4097] {
        let s = of_length(total, &con(0));
        let counted: usize =
            engine::compile(&s, &[]).map(|p| (0..p.ranks.len()).map(|e| p.count(e)).sum()).unwrap_or(0);
        check("instructions", &s, if total > 4096 { 13 } else { 0 });
        assert!(total > 4096 || counted == total);
    }
    for size in [1, 100, TABLE - 1] {
        assert_eq!(proved::step(&vec![0u8; size], &mut [0u8; 2048]), 14);
    }
    forecast();
    quotients();
    marks();
    rest_day();
    parameters();
    rights();
    players();
    rows();
    changes();
    preview();
    crate::formula::limits();
    circles();
    crate::pool::limits();
    crate::agree::limits();
    spent();
    println!(
        "limits: every refusal of compile, both sides of each limit, forecasts, quotients, marks, a rest day, \
         parameters, rights in sheets, rows, players, changes of sheets, previews, formulas, circles, joins, \
         agreement, leaks, 1,000,000 arrivals"
    );
}
