//! The calls on any bytes, as plain as can be: the layout of docs and the scope's list of what is foreign. What a call
//! on damaged bytes must answer and leave.
use crate::engine::{apply, over, Call};
use crate::signature::{arity, LAST};

pub fn get(b: &[u8], k: usize) -> u32 {
    u32::from_be_bytes([b[4 * k], b[4 * k + 1], b[4 * k + 2], b[4 * k + 3]])
}

pub fn put(b: &mut [u8], k: usize, w: u32) {
    b[4 * k..4 * k + 4].copy_from_slice(&w.to_be_bytes());
}

/// Priority, start, length, members of C.
fn record(t: &[u8], e: u32) -> [u32; 4] {
    if e < 32 {
        std::array::from_fn(|k| get(t, 8 + 4 * e as usize + k))
    } else {
        [0; 4]
    }
}

fn foreign_table(t: &[u8]) -> bool {
    t.len() < 34816
        || get(t, 0) > 32
        || get(t, 1) > 64
        || (0..get(t, 0)).any(|e| record(t, e)[1] as u64 + record(t, e)[2] as u64 > 4096)
}

/// Event and player of a word in hand.
fn event(w: u32) -> u32 {
    w % 256
}

fn player(w: u32) -> u32 {
    w / 256
}

fn may(byte: u32, who: u32) -> bool {
    who == 0 || byte >> who & 1 == 1
}

fn foreign(t: &[u8], l: &[u8]) -> bool {
    if foreign_table(t) || l.len() < 2048 {
        return true;
    }
    let known = get(t, 0);
    let (waiting, runs) = (get(l, 1), get(l, 2) != 0);
    if waiting as u64 + runs as u64 > 64 || get(l, 6) > 64 {
        return true;
    }
    let stray = |w: u32| event(w) >= known || player(w) > 7;
    (0..waiting as usize).any(|i| stray(get(l, 9 + 2 * i)))
        || runs && (stray(get(l, 3)) || get(l, 5) >= record(t, event(get(l, 3)))[2])
}

fn copying_back(t: &[u8], l: &[u8]) -> bool {
    let [_, _, len, members] = record(t, event(get(l, 3)));
    get(l, 2) != 0 && get(l, 5) as u64 + members as u64 + 1 >= len as u64
}

fn masked(t: &[u8], l: &[u8]) -> bool {
    let c = get(l, 5);
    copying_back(t, l) || c > 0 && c as u64 <= record(t, event(get(l, 3)))[3] as u64 + 1
}

fn run(l: &mut [u8], n: u32, e: u32) {
    [1, e, n, 0, 0, 0].iter().enumerate().for_each(|(k, w)| put(l, 2 + k, *w));
}

fn said(kind: u64, n: u32, w: u32) -> u64 {
    n as u64 * 65536 + event(w) as u64 * 256 + player(w) as u64 * 16 + kind
}

/// One instruction, or `None` where it is foreign.
fn execute(l: &mut [u8], op: u32, slot: usize, w: u32) -> Option<()> {
    let d = get(l, 6) as usize;
    if slot > 63 {
        return None;
    }
    let push = |l: &mut [u8], v: u32| {
        (d < 64).then(|| {
            put(l, 328 + d, v);
            put(l, 6, d as u32 + 1);
        })
    };
    let pop = |l: &mut [u8], k: usize| {
        (d > 0).then(|| {
            let v = get(l, 327 + d);
            put(l, k, v);
            put(l, 6, d as u32 - 1);
        })
    };
    let copy = |l: &mut [u8], from: usize, to: usize| {
        let v = get(l, from);
        put(l, to, v);
        Some(())
    };
    match op {
        1 | 2 => Some(()),
        3 => copy(l, 136 + slot, 200 + slot),
        4 => copy(l, 200 + slot, 136 + slot),
        5 => push(l, w),
        6 => push(l, get(l, 136 + slot)),
        7 => push(l, get(l, 200 + slot)),
        8 if (1..=LAST as usize).contains(&slot) && arity(slot as u8) <= d => {
            let n = arity(slot as u8);
            let args: Vec<i32> = (0..n).map(|k| get(l, 328 + d - n + k) as i32).collect();
            if over(slot as u8, &args) {
                put(l, 7, 1);
            }
            put(l, 328 + d - n, apply(slot as u8, &args) as u32);
            if n > 1 {
                put(l, 6, (d - n + 1) as u32);
            }
            Some(())
        }
        9 => pop(l, 200 + slot),
        10 => pop(l, 264 + slot),
        11 => copy(l, 264 + slot, 200 + slot),
        _ => None,
    }
}

fn advance(t: &[u8], l: &mut [u8]) -> u64 {
    let (e, n, c) = (get(l, 3), get(l, 4), get(l, 5));
    let [_, start, len, _] = record(t, event(e));
    let k = 512 + 2 * (start + c) as usize;
    if execute(l, get(t, k) / 256, get(t, k) as usize % 256, get(t, k + 1)).is_none() {
        return 14;
    }
    if c + 1 < len {
        put(l, 5, c + 1);
        return 1;
    }
    put(l, 2, 0);
    (((get(l, 7) != 0) as u64) << 56) + said(3, n, e)
}

fn step(t: &[u8], l: &mut [u8]) -> u64 {
    let waiting = get(l, 1) as usize;
    let runs = get(l, 2) != 0;
    let ahead = |i: usize, b: usize| {
        let (p, q) = (record(t, event(get(l, 9 + 2 * i)))[0], record(t, event(get(l, 9 + 2 * b)))[0]);
        p > q || p == q && get(l, 8 + 2 * i) < get(l, 8 + 2 * b)
    };
    let best = (0..waiting).fold(0, |b, i| if ahead(i, b) { i } else { b });
    let (n, e) = if waiting > 0 { (get(l, 8 + 2 * best), get(l, 9 + 2 * best)) } else { (0, 0) };
    if runs && waiting > 0 && !masked(t, l) && record(t, event(e))[0] > record(t, event(get(l, 3)))[0] {
        let (old_n, old_e) = (get(l, 4), get(l, 3));
        put(l, 8 + 2 * best, old_n);
        put(l, 9 + 2 * best, old_e);
        run(l, n, e);
        return said(4, n, e);
    }
    if runs {
        return advance(t, l);
    }
    if waiting == 0 {
        return 0;
    }
    let (last_n, last_e) = (get(l, 6 + 2 * waiting), get(l, 7 + 2 * waiting));
    put(l, 8 + 2 * best, last_n);
    put(l, 9 + 2 * best, last_e);
    put(l, 1, waiting as u32 - 1);
    run(l, n, e);
    said(2, n, e)
}

pub fn call(t: &[u8], l: &mut [u8], c: Call) -> u64 {
    if foreign(t, l) {
        return 14;
    }
    match c {
        Call::Arrive(_, who) | Call::Board(_, who) if who > 7 => 24,
        Call::Arrive(e, _) if e >= get(t, 0) => 15,
        Call::Arrive(e, who) if !may(get(t, 264 + e as usize), who) => 25,
        Call::Arrive(..) if get(l, 1) + (get(l, 2) != 0) as u32 >= 64 => 16,
        Call::Arrive(..) if get(l, 0) >= 1_000_000 => 17,
        Call::Arrive(e, who) => {
            let (n, k) = (get(l, 1), get(l, 0));
            put(l, 8 + 2 * n as usize, k);
            put(l, 9 + 2 * n as usize, 256 * who + e);
            put(l, 0, k + 1);
            put(l, 1, n + 1);
            0
        }
        Call::Step => step(t, l),
        Call::Board(i, _) if i >= get(t, 1) => 18,
        Call::Board(i, who) if !may(get(t, 200 + i as usize), who) => 25,
        Call::Board(..) if copying_back(t, l) => 19,
        Call::Board(i, _) => (1 << 32) + get(l, 136 + i as usize) as u64,
    }
}

/// 14 for the two lengths and the table only; else the fresh values stand in the store and all other words are 0,
/// whatever the round's old bytes.
pub fn start(t: &[u8], l: &mut [u8]) -> u32 {
    if foreign_table(t) || l.len() < 2048 {
        return 14;
    }
    l[..2048].fill(0);
    (136..200).for_each(|k| put(l, k, get(t, k)));
    0
}

/// Document 02, M-100: 2^32 and the steps to idle, or their bound where one runs; refused by 14 only.
pub fn forecast(t: &[u8], l: &[u8]) -> u64 {
    if foreign(t, l) {
        return 14;
    }
    let len = |e: u32| record(t, e)[2] as u64;
    let waiting = get(l, 1) as usize;
    let steps: u64 = if get(l, 2) == 0 {
        (0..waiting).map(|i| len(event(get(l, 9 + 2 * i))) + 1).sum()
    } else {
        (waiting as u64 + 1 + 1) * ((0..get(t, 0)).map(len).max().unwrap_or(0) + 1)
    };
    (1 << 32) + steps
}

/// Document 02, M-101: the arrival, and steps until idle, on a copy. Turned down as the arrival, then by 18 and 25,
/// last by 14 where a step is or 01's count runs out.
pub fn preview(t: &[u8], l: &[u8], e: u32, i: u32, who: u32) -> u64 {
    let mut copy = l.to_vec();
    let taken = call(t, &mut copy, Call::Arrive(e, who));
    if taken != 0 {
        return taken;
    }
    if i >= get(t, 1) {
        return 18;
    }
    if !may(get(t, 200 + i as usize), who) {
        return 25;
    }
    let in_hand = get(&copy, 1) + (get(&copy, 2) != 0) as u32;
    let longest = (0..get(t, 0)).map(|e| record(t, e)[2]).max().unwrap_or(0);
    for _ in 0..=(in_hand + 1) * (longest + 1) {
        match call(t, &mut copy, Call::Step) {
            0 => return (1 << 32) + get(&copy, 136 + i as usize) as u64,
            14 => return 14,
            _ => {}
        }
    }
    14
}

/// Up to so many steps, each commit's answer written to the buffer: how many were made, how many commits were written,
/// and why it ended: 1 the next would be idle, else 0 all made, 3 no room for a further commit, 2 the next is refused.
pub fn frame(t: &[u8], l: &mut Vec<u8>, steps: u32, commits: &mut [u8]) -> u64 {
    let room = (commits.len() / 8).min(0xFF_FFFF);
    let mut written = 0;
    for made in 0..steps as u64 {
        let said = |why: u64| why << 56 | (written as u64) << 32 | made;
        let before = l.clone();
        if written == room {
            return said(if call(t, &mut l.clone(), Call::Step) == 0 { 1 } else { 3 });
        }
        match call(t, l, Call::Step) {
            0 => return said(1),
            14 => {
                *l = before;
                return said(2);
            }
            a if a % 16 == 3 => {
                commits[8 * written..8 * written + 8].copy_from_slice(&a.to_be_bytes());
                written += 1;
            }
            _ => {}
        }
    }
    let idle = steps > 0 && call(t, &mut l.clone(), Call::Step) == 0;
    (idle as u64) << 56 | (written as u64) << 32 | steps as u64
}

/// Entry `number` of an order, handed in once: 14; 43 where entries are missing, 44 where it was taken in before; 24,
/// 15, 25, 17. With a full hand steps are made until one commits, its answer in the first eight bytes lent for it: 2^56
/// where the entry is taken in, twice that where there is no room for the commit, three times where a step is refused;
/// with it the commits written, from bit 32 on, and the steps made.
pub fn deliver(t: &[u8], l: &mut Vec<u8>, number: u32, (e, who): (u32, u32), commits: &mut [u8]) -> u64 {
    let refused = match () {
        _ if foreign(t, l) => 14,
        _ if get(l, 0) < number => 43,
        _ if get(l, 0) > number => 44,
        _ if who > 7 => 24,
        _ if e >= get(t, 0) => 15,
        _ if !may(get(t, 264 + e as usize), who) => 25,
        _ if number >= 1_000_000 => 17,
        _ => 0,
    };
    if refused != 0 {
        return refused;
    }
    let full = get(l, 1) + (get(l, 2) != 0) as u32 == 64;
    if full && commits.len() < 8 {
        return 2 << 56;
    }
    let mut steps = 0;
    while get(l, 1) + (get(l, 2) != 0) as u32 == 64 {
        let before = l.clone();
        match call(t, l, Call::Step) {
            14 => {
                *l = before;
                return 3 << 56 | steps;
            }
            a if a % 16 == 3 => commits[..8].copy_from_slice(&a.to_be_bytes()),
            _ => {}
        }
        steps += 1;
    }
    assert_eq!(call(t, l, Call::Arrive(e, who)), 0, "room was made");
    1 << 56 | (full as u64) << 32 | steps
}

/// 2^32 and the number taken in, with the number in hand from bit 40 on; or 14.
pub fn taken(t: &[u8], l: &[u8]) -> u64 {
    if foreign(t, l) {
        return 14;
    }
    (1 << 32) + get(l, 0) as u64 + (((get(l, 1) + (get(l, 2) != 0) as u32) as u64) << 40)
}

/// What a table tells of itself: 2^32 and its events, its behaviours, the rank of one of its events; or 14, 15.
pub fn counts(t: &[u8], event: u32) -> [u64; 3] {
    if foreign_table(t) {
        return [14; 3];
    }
    let rank = if event < get(t, 0) { (1 << 32) + record(t, event)[0] as u64 } else { 15 };
    [(1 << 32) + get(t, 0) as u64, (1 << 32) + get(t, 1) as u64, rank]
}

/// Document 02, M-112: the round goes on under table t. 14 for the round with the old table, for t, and for the
/// instructions of its passives, tried in bytes of their own; then 19, then 28.
pub fn mend(old: &[u8], t: &[u8], l: &mut [u8]) -> u32 {
    if foreign(old, l) || foreign_table(t) {
        return 14;
    }
    let active = |t: &[u8], i: usize| i < get(t, 1) as usize && get(t, 296 + i) == 0;
    let mut own = vec![0u8; 2048];
    for i in 0..64 {
        let v = get(if active(old, i) && active(t, i) { l } else { t }, 136 + i);
        put(&mut own, 136 + i, v);
        put(&mut own, 200 + i, v);
    }
    let (from, count) = (get(t, 360) as u64, get(t, 361) as u64);
    let mut stretch = (from..from + count).map(|k| 512 + 2 * k as usize);
    if from + count > 4096
        || stretch.any(|k| execute(&mut own, get(t, k) / 256, get(t, k) as usize % 256, get(t, k + 1)).is_none())
    {
        return 14;
    }
    if copying_back(old, l) {
        return 19;
    }
    let (waiting, runs) = (get(l, 1) as usize, get(l, 2) != 0);
    if (0..waiting).map(|i| 9 + 2 * i).chain(runs.then_some(3)).any(|k| event(get(l, k)) >= get(t, 0)) {
        return 28;
    }
    if runs {
        let (n, w) = (get(l, 4), get(l, 3));
        put(l, 8 + 2 * waiting, n);
        put(l, 9 + 2 * waiting, w);
        put(l, 1, waiting as u32 + 1);
    }
    [2, 6, 7].iter().for_each(|k| put(l, *k, 0));
    (0..64).for_each(|i| put(l, 136 + i, get(&own, if get(t, 296 + i) == 0 { 136 + i } else { 200 + i })));
    0
}
